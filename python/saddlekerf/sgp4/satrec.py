"""One satellite by sgp4's names."""

from __future__ import annotations

from math import nan, pi, sqrt
from typing import Any

from .._arrays import numpy
from .._checked import Text, held, octets
from .._memory import Rooms, Unopened, opened
from ..julian import DAY, START, instant, instants_of, minutes, pairs
from ..record import Record, read
from ..refusal import Refused
from ..reports import report
from .errors import ERRORS
from .rows import Asked, marked

WGS72OLD, WGS72, WGS84 = range(3)

Vector = tuple[float, float, float]
_NANS = (nan, nan, nan)

_RADIANS = pi / 180.0
_REVOLUTIONS = 1440.0 / (2.0 * pi)  # revolutions a day of one radian a minute


class Satrec:
    """A satellite opened from two lines; any threads may ask it, they take turns.

    >>> satellite = Satrec.twoline2rv("1 00005U 58002B   00179.78495062  .00000023  00000-0  28098-4 0  4753",
    ...                               "2 00005  34.2682 348.7242 1859667 331.7664  19.3264 10.82419157413667")
    >>> error, position, velocity = satellite.sgp4_tsince(360)
    >>> error, position
    (0, (-7154.031202015704, -3783.1768250365726, -3536.194122942216))
    """

    __slots__ = ("_lines", "_memory", "_record", "_refusal")

    _lines: tuple[bytes, bytes]
    _memory: Asked
    _record: Record
    _refusal: int

    # The constants that the proofs are about, in sgp4's names and units.
    whichconst = WGS72
    operationmode = "i"
    mu = 398600.8
    radiusearthkm = 6378.135
    j2 = 0.001082616
    j3 = -0.00000253881
    j4 = -0.00000165597
    j3oj2 = j3 / j2
    xke = 60.0 / sqrt(radiusearthkm * radiusearthkm * radiusearthkm / mu)
    tumin = 1.0 / xke

    def __init__(self) -> None:
        raise NotImplementedError(
            "a Satrec of saddlekerf comes from Satrec.twoline2rv alone: the library is proved for what lines say"
        )

    def sgp4init(self, *elements: Any, **more: Any) -> None:
        """Not had: the library opens lines."""
        Satrec()

    @classmethod
    def twoline2rv(cls, line1: Text, line2: Text, whichconst: int = WGS72) -> Satrec:
        """Opens two lines; refusals 1 to 6 are raised. White space behind the lines is taken off.

        A pair that reads and does not open has its `error` from the start, 5 or 8, and every answer has it.
        """
        if whichconst != WGS72:
            raise NotImplementedError("other gravity constants than WGS72 are not had: the library is proved for these")
        one, two = _stripped(line1), _stripped(line2)
        satellite = cls.__new__(cls)
        satellite._record = read(one, two)
        satellite._lines = octets(one, "line 1"), octets(two, "line 2")
        satellite._memory = opened(one, two)
        satellite._refusal = satellite._unopened
        return satellite

    @property
    def _unopened(self) -> int:
        """The refusal of opening, 0 where there was none."""
        return self._memory.number if isinstance(self._memory, Unopened) else 0

    def __reduce__(self) -> tuple[Any, ...]:
        return Satrec.twoline2rv, self._lines

    def sgp4(self, jd: float, fr: float) -> tuple[int, Vector, Vector]:
        """Error, position in km and velocity in km/s (TEME) at a Julian date and fraction, in UTC.

        The exact sum of the two becomes the nearest microsecond, ties to even.
        """
        return self._asked(instant(jd, fr) - self._memory.epoch)

    def sgp4_tsince(self, tsince: float) -> tuple[int, Vector, Vector]:
        """The same at a number of minutes since the epoch, to the nearest microsecond."""
        return self._asked(minutes(tsince))

    def _asked(self, time: int) -> tuple[int, Vector, Vector]:
        answer, (x, y, z, vx, vy, vz) = self._memory.request(held(time))
        self._refusal = refusal = answer & 255
        return (ERRORS[refusal], _NANS, _NANS) if refusal else (0, (x, y, z), (vx, vy, vz))

    def sgp4_array(self, jd: Any, fr: Any) -> tuple[Any, Any, Any]:
        """Errors, positions and velocities at many times: arrays of n, of n × 3 and of n × 3.

        `jd` and `fr` are NumPy arrays, or sequences, of one length. Without NumPy the three are lists.
        """
        if numpy is None:
            return _listed([self.sgp4(*pair) for pair in pairs(jd, fr)])
        times = instants_of(jd, fr) - self._memory.epoch
        rooms = Rooms(len(times))
        rooms.fill(self._memory, times)
        errors, states = rooms.refusals, rooms.states
        if len(times):
            self._refusal = errors.item(-1)
            marked(errors, states)
        return errors, states[:, :3], states[:, 3:]

    @property
    def error(self) -> int:
        """The error of the last request, 0 where it was answered."""
        return ERRORS[self._refusal]

    @property
    def refusal(self) -> int:
        """The library's own number for it."""
        return self._refusal

    @property
    def record(self) -> Record:
        """The exact record, whole numbers."""
        return self._record

    # ---- the elements, in sgp4's names and units ----

    @property
    def satnum(self) -> int:
        return self._record.number

    @property
    def satnum_str(self) -> str:
        """Five places as in the lines: from 100000 on with a letter."""
        return self._lines[0][2:7].decode("ascii")

    @property
    def classification(self) -> str:
        return self._record.classification

    @property
    def intldesg(self) -> str:
        return self._record.designator

    @property
    def epochyr(self) -> int:
        """The last two digits of the year."""
        return self._record.year % 100

    @property
    def epochdays(self) -> float:
        """Day of the year, 1.0 being January 1, 0h."""
        return self._record.day / 10**8

    @property
    def jdsatepoch(self) -> float:
        """Julian date of the midnight before the epoch."""
        return START + (self._record.epoch.count // DAY)

    @property
    def jdsatepochF(self) -> float:
        """The fraction of a day from there to the epoch."""
        return self._record.day % 10**8 / 10**8

    @property
    def ndot(self) -> float:
        """Half the first derivative of the mean motion, radians a minute squared."""
        return self._record.ndot / 10**8 / (_REVOLUTIONS * 1440.0)

    @property
    def nddot(self) -> float:
        """A sixth of the second derivative of the mean motion, radians a minute cubed."""
        return self._record.nddot.value / (_REVOLUTIONS * 1440.0 * 1440)

    @property
    def bstar(self) -> float:
        """B*, per Earth radius."""
        return self._record.bstar.value

    @property
    def ephtype(self) -> int:
        return self._record.ephemeris_type

    @property
    def elnum(self) -> int:
        return self._record.element_number

    @property
    def inclo(self) -> float:
        """Inclination in radians."""
        return self._record.inclination_degrees * _RADIANS

    @property
    def nodeo(self) -> float:
        """Right ascension of the ascending node in radians."""
        return self._record.node_degrees * _RADIANS

    @property
    def ecco(self) -> float:
        return self._record.eccentricity_ratio

    @property
    def argpo(self) -> float:
        """Argument of perigee in radians."""
        return self._record.perigee_degrees * _RADIANS

    @property
    def mo(self) -> float:
        """Mean anomaly in radians."""
        return self._record.anomaly_degrees * _RADIANS

    @property
    def no_kozai(self) -> float:
        """Mean motion in radians a minute, as the lines have it."""
        return self._record.motion_revolutions / _REVOLUTIONS

    no = no_kozai

    @property
    def revnum(self) -> int:
        return self._record.revolution

    @property
    def method(self) -> str:
        """n near Earth, d in deep space; refusal 7 or 8 where the pair does not open."""
        if self._unopened:
            raise Refused(self._unopened)
        counts = report(b"\n".join(self._lines))
        return "n" if counts.near else "d"

    def __getattr__(self, name: str) -> Any:
        words = "a Satrec of saddlekerf has no {}: the library does not tell the model's inner numbers"
        raise AttributeError(words.format(name))


def _stripped(line: Text) -> Text:
    """A line without white space behind it, text as text, so that refusals quote what was given."""
    return line.rstrip() if isinstance(line, str) else octets(line, "a line").rstrip()


def _listed(rows: list[tuple[int, Vector, Vector]]) -> tuple[list[int], list[Vector], list[Vector]]:
    return [row[0] for row in rows], [row[1] for row in rows], [row[2] for row in rows]
