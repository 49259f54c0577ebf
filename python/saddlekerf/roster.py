"""A roster of pairs in 8,832 bytes with the row of their instants, and what changed between two."""

from __future__ import annotations

import threading
from collections.abc import Iterator
from ctypes import addressof, c_char, c_uint64
from typing import NamedTuple, Optional

from . import _answer
from ._checked import UINT64, Text, octets, whole
from ._library import CHANGES_ROOM, LINE, PAIR, PLACES, ROSTER, library
from .instant import Instant
from .record import Record, read
from .refusal import Refused, of_lines, plain


class Pair(NamedTuple):
    """A pair of a roster, both lines as the library writes them."""

    line1: str
    line2: str

    @property
    def record(self) -> Record:
        return read(self.line1, self.line2)


class Roster:
    """Up to 64 pairs, one a catalogue number, by rising number, and the row of their epochs.

    >>> roster = Roster()
    >>> roster.lodge("1 00005U 58002B   00179.78495062  .00000023  00000-0  28098-4 0  4753",
    ...              "2 00005  34.2682 348.7242 1859667 331.7664  19.3264 10.82419157413667")
    >>> [pair.record.number for pair in roster], roster.row[0].date().year
    ([5], 2000)
    """

    #: Bytes of a roster, and pairs that it holds at most.
    SIZE = ROSTER
    PLACES = PLACES

    __slots__ = ("_bytes", "_row", "_lock")

    def __init__(self, kept: Optional[bytes] = None) -> None:
        """An empty roster, or the one of bytes that were kept; refusal 22 where they are none."""
        self._bytes = (c_char * ROSTER)()
        self._row = (c_uint64 * PLACES)()
        self._lock = threading.Lock()
        if kept is None:
            return
        if not isinstance(kept, (bytes, bytearray, memoryview)):
            raise TypeError(f"a roster is kept as bytes, not as {type(kept).__name__}")
        given = bytes(kept)
        answer = library.fill_row(given, len(given), addressof(self._row), PLACES)
        if answer:
            plain(answer, 22)
            raise Refused(22, f"the {len(given)} bytes are no roster of {ROSTER}")
        self._bytes.raw = given

    def lodge(self, line1: Text, line2: Text) -> None:
        """Lodges a pair, which replaces the one of its number unless its epoch is older.

        Refusals 1 to 6 of the lines, 20 where the roster's pair of that number has a later epoch, 19
        where all 64 places hold other numbers; each leaves the roster as it was.
        """
        one, two = octets(line1, "line 1"), octets(line2, "line 2")
        with self._lock:
            answer = library.lodge(*self._lent(), one, len(one), two, len(two))
        if 1 <= _answer.refusal(answer) <= 6:
            raise of_lines(answer, line1, line2)
        if answer == 20:
            raise Refused(20, f"the roster's pair of {read(one, two).number} has a later epoch")
        if answer:
            raise plain(answer, 19)

    def withdraw(self, number: int) -> None:
        """Withdraws the pair of a catalogue number; refusal 21 where there is none."""
        wanted = whole(number, "a catalogue number", range(-(2**64), 2**64))
        with self._lock:
            # No pair has a number below 0 or the last one of 64 bits.
            answer = library.withdraw(*self._lent(), wanted if wanted >= 0 else UINT64.stop - 1)
        if answer:
            plain(answer, 21)
            raise Refused(21, f"the roster has no pair of {wanted}")

    def _lent(self) -> tuple[int, int, int, int]:
        return addressof(self._bytes), ROSTER, addressof(self._row), PLACES

    def _copied(self) -> tuple[bytes, list[int]]:
        with self._lock:
            return self._bytes.raw, self._row[:]

    def __bytes__(self) -> bytes:
        """The 8,832 bytes, to be kept."""
        return self._copied()[0]

    def __reduce__(self) -> tuple[object, ...]:
        return Roster, (bytes(self),)

    def __len__(self) -> int:
        return len(self.pairs())

    def __iter__(self) -> Iterator[Pair]:
        return iter(self.pairs())

    def __eq__(self, other: object) -> bool:
        if not isinstance(other, Roster):
            return NotImplemented
        return bytes(self) == bytes(other)

    __hash__ = None  # type: ignore[assignment]

    def __repr__(self) -> str:
        return f"<Roster of {len(self)} pairs>"

    def pairs(self) -> list[Pair]:
        """All pairs, by rising catalogue number."""
        return _pairs(bytes(self))

    def get(self, number: int) -> Optional[Pair]:
        """The pair of a catalogue number, or None."""
        return next((pair for pair in self if pair.record.number == number), None)

    @property
    def row(self) -> list[Instant]:
        """The epoch of each pair, by rising catalogue number."""
        kept, row = self._copied()
        return [Instant(count) for count in row[: len(_pairs(kept))]]

    def by_age(self) -> list[Pair]:
        """All pairs from the oldest epoch on, of equal ones by rising number; told by the row alone."""
        kept, row = self._copied()
        pairs = _pairs(kept)
        return [pairs[place] for place in sorted(range(len(pairs)), key=row.__getitem__)]

    def oldest(self) -> Optional[Pair]:
        """The pair with the oldest epoch, of equal ones that of the least number; None where it is empty."""
        return next(iter(self.by_age()), None)


def changes(first: Roster, second: Roster) -> str:
    """What changed from the first roster to the second, as include/saddlekerf.h has it: a line each.

    `first` and the 138 bytes of a pair that only the first has, `second` likewise, and of a pair in
    both its number, the label of each field that differs and by how much. Equal rosters give no line.
    """
    for which, roster in (("first", first), ("second", second)):
        if not isinstance(roster, Roster):
            raise TypeError(f"the {which} is a Roster, not {type(roster).__name__}")
    one, two = first._copied(), second._copied()
    room, rows = (c_char * CHANGES_ROOM)(), [(c_uint64 * PLACES)(*row) for row in (one[1], two[1])]
    answer = library.changes(
        one[0], ROSTER, addressof(rows[0]), PLACES, two[0], ROSTER, addressof(rows[1]), PLACES,
        addressof(room), CHANGES_ROOM,
    )  # fmt: skip
    if answer & 0xFFFFFFFF:
        _answer.foreign(answer)
    return room.raw[: _answer.count(answer)].decode("ascii")


def _pairs(kept: bytes) -> list[Pair]:
    """The pairs of a roster's bytes: a place has one exactly if its first byte is not 0."""
    places = (kept[at : at + PAIR].decode("ascii") for at in range(0, ROSTER, PAIR) if kept[at])
    return [Pair(text[:LINE], text[LINE:]) for text in places]
