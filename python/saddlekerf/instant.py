"""Quantities of time, kept apart: spans, instants, dates and strides.

A `Microseconds` is a span, an `Instant` a point of time; where one is wanted the other is no answer,
and neither is a bare number.
"""

from __future__ import annotations

import datetime as _datetime
from ctypes import addressof, c_uint64
from dataclasses import dataclass
from typing import NamedTuple

from . import _answer
from ._checked import INT64, UINT64, held, whole
from ._library import TIME_LIMIT, library
from .refusal import Refused

_SECOND = 1_000_000
_DAY = 86_400 * _SECOND


@dataclass(frozen=True, order=True)
class Microseconds:
    """A span of time, or a time since a satellite's epoch, negative before it.

    >>> Microseconds.from_minutes(90) == Microseconds(5_400_000_000)
    True
    """

    count: int

    def __post_init__(self) -> None:
        object.__setattr__(self, "count", whole(self.count, "a number of microseconds", INT64))

    @classmethod
    def from_minutes(cls, minutes: int) -> Microseconds:
        """A whole number of minutes."""
        return cls(whole(minutes, "a number of minutes", INT64) * 60 * _SECOND)

    @classmethod
    def from_timedelta(cls, span: _datetime.timedelta) -> Microseconds:
        """A timedelta, which counts whole microseconds as well."""
        if not isinstance(span, _datetime.timedelta):
            raise TypeError(f"a span is a timedelta, not {type(span).__name__}")
        return cls(span // _datetime.timedelta(microseconds=1))

    @property
    def timedelta(self) -> _datetime.timedelta:
        """The same span as a timedelta; OverflowError beyond 999,999,999 days."""
        return _datetime.timedelta(microseconds=self.count)

    def __neg__(self) -> Microseconds:
        return Microseconds(-self.count)

    def __add__(self, other: Microseconds) -> Microseconds:
        return Microseconds(self.count + other.count) if isinstance(other, Microseconds) else NotImplemented

    def __sub__(self, other: Microseconds) -> Microseconds:
        return Microseconds(self.count - other.count) if isinstance(other, Microseconds) else NotImplemented


#: The farthest time from an epoch, and the longest move: 3,652 days.
FARTHEST = Microseconds(TIME_LIMIT)


@dataclass(frozen=True, order=True)
class Strides:
    """A number of strides of the resonance integrator, of 720 minutes each."""

    count: int


class Date(NamedTuple):
    """A date as the library has it: the year, the day of the year from 1, microseconds of that day."""

    year: int
    day: int
    microseconds: int

    def __str__(self) -> str:
        return f"{self.year} {self.day} {self.microseconds}"


@dataclass(frozen=True, order=True)
class Instant:
    """Microseconds since 1957 January 1, 0h UTC, in days of 86,400 seconds.

    >>> slot = Instant.from_date(2000, 179)
    >>> str(slot.moved(Microseconds.from_minutes(90)).date())
    '2000 179 5400000000'
    >>> slot.datetime.isoformat()
    '2000-06-27T00:00:00+00:00'
    """

    count: int

    def __post_init__(self) -> None:
        object.__setattr__(self, "count", whole(self.count, "an instant", UINT64))

    @classmethod
    def from_date(cls, year: int, day: int, microseconds: int = 0) -> Instant:
        """The instant of a date; refusal 6 outside 1957-2056 and of a day or a time that there is not."""
        numbers = whole(year, "a year"), whole(day, "a day"), whole(microseconds, "a number of microseconds")
        room = c_uint64()
        answer = library.instant(*numbers, addressof(room))
        if answer:
            words = "year {}, day {}, microsecond {} is no date: 1957 to 2056, a day of the year, below a day"
            raise _outside(answer, words.format(*numbers))
        return cls(room.value)

    @classmethod
    def from_datetime(cls, moment: _datetime.datetime) -> Instant:
        """The instant of a datetime with a time zone; refusal 6 outside 1957-2056."""
        if not isinstance(moment, _datetime.datetime):
            raise TypeError(f"a moment is a datetime, not {type(moment).__name__}")
        if moment.tzinfo is None:
            raise ValueError("a datetime without a time zone is no instant: give it tzinfo=timezone.utc")
        utc = moment.astimezone(_datetime.timezone.utc)
        micros = ((utc.hour * 60 + utc.minute) * 60 + utc.second) * _SECOND + utc.microsecond
        return cls.from_date(utc.year, utc.timetuple().tm_yday, micros)

    def moved(self, span: Microseconds) -> Instant:
        """This instant moved; refusal 9 beyond 3,652 days, 6 where it leaves 1957-2056.

        Where spans, their sum and the instants reached lie in range, two moves are one by the sum, and
        a move there and back returns to the start.
        """
        if not isinstance(span, Microseconds):
            raise TypeError(f"an instant is moved by Microseconds, not by {type(span).__name__}")
        room = c_uint64()
        answer = library.move(self.count, span.count, addressof(room))
        if answer == 9:
            raise Refused(9, f"a move by {span.count} microseconds is beyond 3,652 days")
        if answer:
            raise _outside(answer, "the instant, or the one that the move reaches, lies outside 1957-2056")
        return Instant(room.value)

    def date(self) -> Date:
        """Year, day of the year and microseconds of the day; refusal 6 outside 1957-2056."""
        room = (c_uint64 * 3)()
        answer = library.date(self.count, addressof(room), 3)
        if answer:
            raise _outside(answer, f"the instant {self.count} lies outside 1957-2056")
        return Date(*room)

    @property
    def datetime(self) -> _datetime.datetime:
        """The same in UTC, to the microsecond; refusal 6 outside 1957-2056."""
        date = self.date()
        start = _datetime.datetime(date.year, 1, 1, tzinfo=_datetime.timezone.utc)
        return start + _datetime.timedelta(days=date.day - 1, microseconds=date.microseconds)

    def since(self, epoch: Instant) -> Microseconds:
        """The time from an epoch to this instant, negative before it."""
        if not isinstance(epoch, Instant):
            raise TypeError(f"an epoch is an Instant, not {type(epoch).__name__}")
        return Microseconds(held(self.count - epoch.count))


def _outside(answer: int, words: str) -> Refused:
    if answer != 6:
        _answer.foreign(answer)
    return Refused(6, words)
