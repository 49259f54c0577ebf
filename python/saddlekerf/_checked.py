"""Arguments judged before they reach the library, which is lent nothing but what C can hold."""

from __future__ import annotations

import math
import operator
from typing import Union

Text = Union[str, bytes, bytearray, memoryview]

INT64 = range(-(2**63), 2**63)
UINT64 = range(2**64)


def octets(text: Text, what: str) -> bytes:
    """The bytes of a line or a text.

    A character that is no byte becomes a question mark, which no column takes: columns stay
    characters, and what quotes the line quotes the text that was given.
    """
    if type(text) is bytes:
        return text
    if isinstance(text, str):
        return text.encode("latin-1", "replace")
    if isinstance(text, (bytes, bytearray, memoryview)):
        return bytes(text)
    raise TypeError(f"{what} is a str or bytes, not {type(text).__name__}")


def shown(text: Text) -> Union[str, bytes]:
    """A line as it was given, for a sentence to quote it."""
    return text if isinstance(text, str) else bytes(text)


def whole(value: object, what: str, bounds: range = UINT64) -> int:
    """A whole number that 64 bits hold."""
    try:
        number = operator.index(value)  # type: ignore[arg-type]
    except TypeError:
        raise TypeError(f"{what} is a whole number, not {type(value).__name__}") from None
    if number not in bounds:
        raise ValueError(f"{what} is {number}: it lies between {bounds.start} and {bounds.stop - 1}")
    return number


def held(count: int) -> int:
    """A signed number of microseconds; what 64 bits do not hold becomes the farthest, which is refused as well."""
    return min(max(count, INT64.start), INT64.stop - 1)


def real(value: object, what: str) -> float:
    """A finite number as a float; text is none."""
    try:
        number = math.ldexp(value, 0)  # type: ignore[arg-type]
    except (TypeError, OverflowError):
        raise TypeError(f"{what} is a number that a float holds, not {type(value).__name__}") from None
    if not math.isfinite(number):
        raise ValueError(f"{what} is {number}: it has to be finite")
    return number
