"""Errors by sgp4's numbers, with the library's refusals beside them."""

from __future__ import annotations

from .._arrays import numpy
from ..refusal import SENTENCES

#: The library's refusal for each error number; 5, which sgp4 gives no longer, is a perigee below ground.
REFUSALS = {1: 11, 2: 10, 3: 12, 4: 13, 5: 7, 6: 14, 8: 8, 9: 9, 15: 15}

#: What each error number says, with the refusal's number.
SGP4_ERRORS = {error: f"{SENTENCES[refusal]} (refusal {refusal})" for error, refusal in REFUSALS.items()}

#: The error number of each refusal, 0 of none.
ERRORS = {0: 0, **{refusal: error for error, refusal in REFUSALS.items()}}

_TABLE = bytes(ERRORS.get(number, number) for number in range(256))


def translated(refusals: object) -> object:
    """The errors of a NumPy array of refusals."""
    return numpy.frombuffer(_TABLE, numpy.uint8)[refusals]
