"""Times in the order that takes the fewest strides."""

from __future__ import annotations

from array import array
from collections.abc import Iterable

from . import _answer
from ._library import library
from .instant import Microseconds


def best_order(times: Iterable[Microseconds]) -> list[Microseconds]:
    """The same times in the best order: zeros, then those after the epoch outward, then those before it.

    A satellite newly opened and asked for them in this order takes the strides to the farthest time on each
    side, added, and in no order fewer; each row goes where its time goes, with the same bits.
    """
    given = list(times)
    for time in given:
        if not isinstance(time, Microseconds):
            raise TypeError(f"a time is Microseconds, not {type(time).__name__}")
    counts = array("q", [time.count for time in given])
    answer = library.best_order(*counts.buffer_info())
    if answer:
        _answer.foreign(answer)
    return [Microseconds(count) for count in counts]
