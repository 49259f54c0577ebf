"""An opened satellite, and requests to it."""

from __future__ import annotations

import datetime
from array import array
from collections.abc import Iterator, Sequence
from ctypes import c_double
from typing import Any, NamedTuple, Union, overload

from . import _answer
from ._arrays import numpy
from ._checked import Text, held, octets, real, whole
from ._library import SAMPLES_LIMIT, STEP_LIMIT
from ._memory import Memory, Rooms
from .instant import Instant, Microseconds, Strides
from .record import Record, read
from .refusal import SENTENCES, Refused

Vector = tuple[float, float, float]

#: A time: since the epoch (Microseconds, timedelta) or a point of time (Instant, datetime).
Time = Union[Microseconds, Instant, datetime.timedelta, datetime.datetime]


class State(NamedTuple):
    """Position and velocity in SGP4's own frame: true equator, mean equinox (TEME)."""

    position: Vector
    """x, y, z in km."""
    velocity: Vector
    """x, y, z in km/s."""
    rounds: int
    """Rounds that Kepler's equation took, 1 to 10."""


class Answer(NamedTuple):
    """What a request for one time gives."""

    row: Union[State, Refused]
    """The state, or a refusal 9 to 15."""
    strides: Strides
    """Strides that the resonance integrator took for it, refused or not."""


class Rows(Sequence["State"]):
    """The rows of a list of times. A refused row raises its refusal where it is looked at.

    `refusals` has a number for each row, 0 when answered; `states` six numbers for each, position in km
    and velocity in km/s, zeros where it is refused; `rounds` the rounds of Kepler's equation; `strides`
    those of all rows together. They are NumPy arrays where NumPy is installed.
    """

    def __init__(self, rooms: Rooms, strides: int) -> None:
        self.refusals = rooms.refusals
        self.states = rooms.states
        self.rounds = rooms.rounds
        self.strides = Strides(strides)

    def __len__(self) -> int:
        return len(self.refusals)

    @overload
    def __getitem__(self, index: int) -> State: ...

    @overload
    def __getitem__(self, index: slice) -> list[State]: ...

    def __getitem__(self, index: Any) -> Any:
        if isinstance(index, slice):
            return [self[i] for i in range(*index.indices(len(self)))]
        at = range(len(self))[index]
        number = int(self.refusals[at])
        if number:
            raise _of_row(number)
        x, y, z, vx, vy, vz = self._state(at)
        return State((x, y, z), (vx, vy, vz), int(self.rounds[at]))

    def _state(self, at: int) -> list[float]:
        return list(self.states[6 * at : 6 * at + 6] if numpy is None else self.states[at].tolist())


class Window(NamedTuple):
    """A run of visible samples that cannot be made longer: the instants of its first and its last."""

    first: Instant
    last: Instant


class Windows(NamedTuple):
    """The windows of a satellite above a station, in time order."""

    windows: list[Window]
    strides: Strides


class Pass(NamedTuple):
    """A run of samples above a least elevation, its edges refined to the microsecond."""

    rise: Instant
    """Above, and a microsecond before not; the first sample where the pass had `begun`."""
    highest: Instant
    """The highest point, sought to a millisecond."""
    set: Instant
    """Above, and a microsecond after not; the last sample where the pass was `still` going on."""
    begun: bool
    """Whether it was above at the first sample of all."""
    still: bool
    """Whether it was above at the last."""


class Look(NamedTuple):
    """Where a satellite stands, seen from a station."""

    azimuth: float
    """Degrees from north by east, 0 to 360."""
    elevation: float
    """Degrees above the plane across the ellipsoid's normal, without refraction."""
    range: float
    """Distance in km."""


class Satellite:
    """A satellite opened from two lines.

    It keeps the place of its resonance integrator between requests, which shortens the way and never
    changes a number: every row is the one that a satellite newly opened and asked only that time would
    give. Any threads may ask it; they take turns.

    >>> satellite = Satellite.open("1 00005U 58002B   00179.78495062  .00000023  00000-0  28098-4 0  4753",
    ...                            "2 00005  34.2682 348.7242 1859667 331.7664  19.3264 10.82419157413667")
    >>> satellite.at(Microseconds.from_minutes(360)).position
    (-7154.031202015704, -3783.1768250365726, -3536.194122942216)
    """

    __slots__ = ("_lines", "_memory")

    #: The most samples of one call for windows, and its longest step in seconds.
    SAMPLES_LIMIT = SAMPLES_LIMIT
    STEP_LIMIT = STEP_LIMIT

    def __init__(self, line1: Text, line2: Text) -> None:
        self._memory = Memory(line1, line2)
        self._lines = octets(line1, "line 1"), octets(line2, "line 2")

    @classmethod
    def open(cls, line1: Text, line2: Text) -> Satellite:
        """Reads and opens two lines; or a refusal 1 to 8."""
        return cls(line1, line2)

    def __reduce__(self) -> tuple[Any, ...]:
        return type(self), self._lines

    def __repr__(self) -> str:
        return f"<Satellite {self.record.number} of {self.epoch.date()}>"

    @property
    def record(self) -> Record:
        """The record of its lines."""
        return read(*self._lines)

    @property
    def epoch(self) -> Instant:
        """The instant of the epoch, which the satellite keeps."""
        return Instant(self._memory.epoch)

    @overload
    def at(self, times: Time) -> State: ...

    @overload
    def at(self, times: Sequence[Time]) -> Rows: ...

    def at(self, times: Any) -> Any:
        """Position and velocity at a time, or at each of a sequence of times.

        A time is a `Microseconds` or timedelta since the epoch, or an `Instant` or a datetime with a
        time zone; a sequence may also be a NumPy array of timedelta64 or datetime64 (UTC) in whole
        microseconds. One time that is refused raises its refusal, 9 to 15; a row of a sequence does so
        where it is looked at. More than 1,024 times are asked in lists of so many.
        """
        if isinstance(times, _TIMES):
            row = self.request(times).row
            if isinstance(row, Refused):
                raise row
            return row
        given = self._many(times)
        rooms = Rooms(len(given))
        return Rows(rooms, rooms.fill(self._memory, given))

    def request(self, time: Time) -> Answer:
        """Asks for one time: its state or its refusal, 9 to 15, and the strides taken."""
        answer, (x, y, z, vx, vy, vz) = self._memory.request(self._since(time))
        strides, number = Strides(_answer.count(answer)), _answer.refusal(answer)
        if number:
            return Answer(_of_row(number), strides)
        return Answer(State((x, y, z), (vx, vy, vz), _answer.detail(answer)), strides)

    def _many(self, times: Any) -> Any:
        """Microseconds since the epoch, one after the other in memory."""
        if numpy is not None and isinstance(times, numpy.ndarray):
            return _of_array(times, self._memory.epoch)
        if isinstance(times, (str, bytes)) or not hasattr(times, "__iter__"):
            raise TypeError(_NO_TIME.format(type(times).__name__))
        return array("q", [self._since(time) for time in times])

    def _since(self, time: Any) -> int:
        """Microseconds since the epoch; what no i64 holds becomes the farthest, which is refused as well."""
        if isinstance(time, Microseconds):
            return time.count
        if isinstance(time, datetime.timedelta):
            return held(time // datetime.timedelta(microseconds=1))
        if isinstance(time, datetime.datetime):
            time = Instant.from_datetime(time)
        if isinstance(time, Instant):
            return time.since(self.epoch).count
        raise TypeError(_NO_TIME.format(type(time).__name__))

    def windows(
        self, station: Sequence[float], start: Union[Instant, datetime.datetime], step: int, samples: int
    ) -> Windows:
        """The windows above a station.

        `station` is its Earth-fixed x, y, z in km, `start` the first sample's instant, or its datetime with
        a time zone, `step` the seconds from a sample to the next, `samples` how many there are. Refusal 25
        where the station is zero or not finite, 26 where the step is 0 or more than 86,400 s, 18 for more
        than 1,024 samples. A sample that is refused ends a window.
        """
        place, first = _three(station), _instant(start, "a start")
        step, samples = whole(step, "a step"), whole(samples, "a number of samples")
        answer, firsts, lasts = self._memory.windows((c_double * 3)(*place), first.count, step, samples)
        if _answer.refusal(answer):
            raise _of_windows(answer, place, step, samples)
        pairs = zip(firsts, lasts)
        return Windows([Window(Instant(a), Instant(b)) for a, b in pairs], Strides(_answer.count(answer)))

    def passes(
        self,
        latitude: float,
        longitude: float,
        height: float,
        least: float,
        start: Union[Instant, datetime.datetime],
        step: int,
        samples: int,
    ) -> Iterator[Pass]:
        """The passes over a station on the WGS-84 ellipsoid, each found as it is asked for.

        Geodetic latitude and longitude in degrees (north and east), `height` in metres, `least` the least
        elevation in degrees; `start` the first sample's instant, or its datetime with a time zone, `step`
        the seconds from a sample to the next, `samples` how many there are, any number up to 4,294,967,295.
        Up is the ellipsoid's normal; a sample that is refused is not above, samples end with the calendar,
        and a pass between two samples is not seen. The satellite stays as it was. Refusal 25 where the
        station or the least elevation is out of range, 26 where the step is 0 or more than 86,400 s.

        >>> satellite = Satellite.open("1 06251U 62025E   06176.82412014  .00008885  00000-0  12808-3 0  3985",
        ...                            "2 06251  58.0579  54.0425 0030035 139.1568 221.1854 15.56387291  6774")
        >>> greenwich = 51.4779, -0.0015, 46
        >>> passes = list(satellite.passes(*greenwich, 10, satellite.epoch, 60, 2880))
        >>> len(passes), str(passes[0].rise.datetime)
        (11, '2006-06-26 11:24:08.489641+00:00')
        >>> round(satellite.look(*greenwich, passes[0].rise).azimuth, 3)
        192.582
        """
        station = [_float(number) for number in (latitude, longitude, height, least)]
        first = _instant(start, "a start")
        step = whole(step, "a step")
        samples = whole(samples, "a number of samples", range(2**32))
        answer, _ = self._memory.next_pass((c_double * 4)(*station), first.count, step, 0)
        if _answer.refusal(answer):
            raise _of_passes(answer, station, step)
        return self._passes(station, first.count, step, samples)

    def _passes(self, station: list[float], start: int, step: int, samples: int) -> Iterator[Pass]:
        while True:
            answer, found = self._memory.next_pass((c_double * 4)(*station), start, step, samples)
            if _answer.refusal(answer):
                _answer.foreign(answer)
            if not found:
                return
            rise, highest, down, start = found
            what, samples = _answer.place(answer), _answer.count(answer)
            yield Pass(Instant(rise), Instant(highest), Instant(down), bool(what & 2), bool(what & 4))

    def look(
        self, latitude: float, longitude: float, height: float, instant: Union[Instant, datetime.datetime]
    ) -> Look:
        """Azimuth, elevation and range at an instant, or at a datetime with a time zone, seen from a station.

        Latitude, longitude and height as in `passes`. The satellite stays as it was. Refusal 25 where they
        are out of range, 6 where the instant lies outside 1957-2056, 9 to 15 as of a row.
        """
        station = [_float(number) for number in (latitude, longitude, height)]
        at = _instant(instant, "an instant")
        answer, numbers = self._memory.look((c_double * 3)(*station), at.count)
        if answer:
            raise _of_look(answer, station, at)
        return Look(*numbers)


_TIMES = (Microseconds, Instant, datetime.timedelta, datetime.datetime)
_NO_TIME = (
    "a time is Microseconds or a timedelta since the epoch, or an Instant or a datetime with a time zone, "
    "or a sequence of those; {} is none"
)


def _three(station: Any) -> list[float]:
    """Three floats; what is no number at all is no station, and what is not finite is for the library."""
    try:
        numbers = [_float(number) for number in station]
    except TypeError:
        raise TypeError("a station is three numbers, its Earth-fixed x, y, z in km") from None
    if len(numbers) != 3:
        raise ValueError(f"a station is three numbers, not {len(numbers)}")
    return numbers


def _instant(given: Any, what: str) -> Instant:
    if isinstance(given, datetime.datetime):
        given = Instant.from_datetime(given)
    if not isinstance(given, Instant):
        raise TypeError(f"{what} is an Instant or a datetime, not {type(given).__name__}")
    return given


def _float(value: Any) -> float:
    if isinstance(value, float):
        return float(value)
    return real(value, "a coordinate")


def _of_array(times: Any, epoch: int) -> Any:
    """The int64 times of a NumPy array that carries its unit, in whole microseconds."""
    kind = times.dtype.kind
    if times.ndim != 1 or kind not in "mM" or numpy.datetime_data(times.dtype)[0] == "generic":
        raise TypeError("an array of times has one dimension and the type timedelta64 or datetime64 with a unit")
    if numpy.isnat(times).any():
        raise ValueError("a time is not a time (NaT)")
    given = times.astype(f"{kind}8[us]")
    if (given.astype(times.dtype) != times).any():
        raise ValueError("a time is no whole number of microseconds, or too far away to count them")
    counts = given.astype(numpy.int64)
    if kind == "M":
        start = int(numpy.datetime64("1957-01-01", "us").astype(numpy.int64)) + epoch
        counts = counts.clip(-(2**62), 2**62) - start
    return numpy.ascontiguousarray(counts)


def _of_row(number: int) -> Refused:
    if not 9 <= number <= 15:
        _answer.foreign(number)
    return Refused(number, "the time is beyond 3,652 days from the epoch" if number == 9 else SENTENCES[number])


def _of_windows(answer: int, station: list[float], step: int, samples: int) -> Refused:
    words = {
        25: f"the station {station} is zero or not finite",
        26: f"the step is {step} s; it may be 1 to {STEP_LIMIT}",
        18: f"{samples} samples are more than {SAMPLES_LIMIT}",
    }
    if answer not in words:
        _answer.foreign(answer)
    return Refused(answer, words[answer])


_RANGES = "latitude -90 to 90, longitude -180 to 360 degrees, height -10,000 to 100,000 m"


def _of_passes(answer: int, station: list[float], step: int) -> Refused:
    words = {
        25: f"the station {station} is out of range: {_RANGES}, least elevation 0 to 90 degrees",
        26: f"the step is {step} s; it may be 1 to {STEP_LIMIT}",
    }
    if answer not in words:
        _answer.foreign(answer)
    return Refused(answer, words[answer])


def _of_look(answer: int, station: list[float], at: Instant) -> Refused:
    if answer == 25:
        return Refused(25, f"the station {station} is out of range: {_RANGES}")
    if answer == 6:
        return Refused(6, f"the instant {at.count} lies outside 1957-2056")
    return _of_row(answer)
