"""The report of a text of pairs."""

from __future__ import annotations

from ctypes import addressof, c_uint64
from typing import NamedTuple, Optional

from ._checked import Text, octets
from ._library import COUNTS, library
from .instant import Date, Microseconds
from .refusal import plain


class Report(NamedTuple):
    """How many pairs of a text have each property; it prints as the program monday_report does."""

    accepted: int
    refused: tuple[int, ...]
    """Pairs refused under 1 to 6."""
    near: int
    deep: int
    unopened: int
    """Accepted pairs that opening refuses, with 7 or 8."""
    earliest: Optional[Date]
    latest: Optional[Date]
    span: Optional[Microseconds]
    """Between the earliest and the latest epoch of the accepted pairs."""

    def __str__(self) -> str:
        refused = "".join(f"refused {number} {count}\n" for number, count in enumerate(self.refused, 1))
        epochs = (self.earliest, self.latest, None if self.span is None else self.span.count)
        earliest, latest, span = ("-" if value is None else value for value in epochs)
        return (
            f"accepted {self.accepted}\n{refused}near {self.near}\ndeep {self.deep}\nunopened {self.unopened}\n"
            f"earliest {earliest}\nlatest {latest}\nspan {span}\n"
        )


def report(text: Text) -> Report:
    """Counts the pairs of a whole text, two lines each and up to 4,096.

    A line ends at a newline; what ends it otherwise, as a carriage return, belongs to it. Refusal 23
    where there are more pairs, 24 where the number of lines is odd.

    >>> report("no element set\\nat all\\n").refused
    (1, 0, 0, 0, 0, 0)
    """
    given = octets(text, "a text")
    counts = (c_uint64 * COUNTS)()
    answer = library.report(given, len(given), addressof(counts), COUNTS)
    if answer:
        raise plain(answer, 23, 24)
    n = counts[:]
    if not n[0]:
        return Report(0, tuple(n[1:7]), n[7], n[8], n[9], None, None, None)
    return Report(n[0], tuple(n[1:7]), n[7], n[8], n[9], Date(*n[10:13]), Date(*n[13:16]), Microseconds(n[16]))
