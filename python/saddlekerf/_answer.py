"""An answer of the library taken apart, as include/saddlekerf.h lays it out."""

from __future__ import annotations

from typing import NoReturn


def refusal(answer: int) -> int:
    """The refusal number, 0 when answered."""
    return answer & 255


def detail(answer: int) -> int:
    """The line, the roster or the Kepler rounds."""
    return answer >> 8 & 255


def place(answer: int) -> int:
    """The column, the field, the number of windows, the offer, the entry or what a pass is."""
    return answer >> 16 & 65535


def count(answer: int) -> int:
    """Bytes written, integrator strides or samples left."""
    return answer >> 32


def foreign(answer: int) -> NoReturn:
    """Only a library of another header gives such an answer."""
    raise RuntimeError(f"libsaddlekerf.so answered {answer:#018x}, which saddlekerf.h does not have")
