"""The record of a pair: read from two lines, written as two lines."""

from __future__ import annotations

import datetime
from ctypes import Array, addressof, c_char, c_int64, c_uint64
from typing import NamedTuple

from . import _answer
from ._checked import INT64, Text, octets, whole
from ._library import FIELDS, LINE, PRINT_ROOM, library
from .instant import Instant
from .refusal import Refused, of_fields, of_lines, plain

_Numbers = c_int64 * FIELDS


class Exponential(NamedTuple):
    """mantissa × 10^(exponent - 5): a signed mantissa of five digits with the point before them."""

    mantissa: int
    exponent: int

    @property
    def value(self) -> float:
        """The number as a float, rounded once."""
        return float(f"{self.mantissa}e{self.exponent - 5}")


class Record(NamedTuple):
    """The fields of a two-line element set, each a whole number in its last decimal place.

    The numbers are exact; the properties say the same in degrees, revolutions and as a datetime, each
    rounded once. `record._replace(number=339999)` is a record with another number.

    >>> record = read("1 00005U 58002B   00179.78495062  .00000023  00000-0  28098-4 0  4753",
    ...               "2 00005  34.2682 348.7242 1859667 331.7664  19.3264 10.82419157413667")
    >>> record.inclination, record.inclination_degrees, record.designator
    (342682, 34.2682, '58002B')
    >>> record.epoch.datetime.isoformat()
    '2000-06-27T18:50:19.733568+00:00'
    """

    number: int
    """Catalogue number, at most 339999; in a line from 100000 on with a letter (Alpha-5)."""
    classification: str
    """U, C or S."""
    launch: int
    """Designator: launch year and number as five digits, 58002; 0 where it is blank."""
    piece: str
    """Designator: three characters, letters first and then blanks."""
    year: int
    """Epoch: 1957 to 2056."""
    day: int
    """Epoch: day of the year in 1E-8 days; January 1, 0h, is 100000000."""
    ndot: int
    """Half the first derivative of the mean motion, 1E-8 revolutions a day squared."""
    nddot: Exponential
    """A sixth of the second derivative of the mean motion, revolutions a day cubed."""
    bstar: Exponential
    """B*, per Earth radius."""
    ephemeris_type: int
    element_number: int
    inclination: int
    """1E-4 degrees."""
    node: int
    """Right ascension of the ascending node, 1E-4 degrees."""
    eccentricity: int
    """1E-7."""
    perigee: int
    """Argument of perigee, 1E-4 degrees."""
    anomaly: int
    """Mean anomaly, 1E-4 degrees."""
    motion: int
    """Mean motion, 1E-8 revolutions a day."""
    revolution: int
    """Revolution number at epoch."""

    @property
    def designator(self) -> str:
        """The international designator without trailing blanks, empty where it is blank."""
        return f"{self.launch:05}{self.piece}".rstrip() if self.piece.strip() else ""

    @property
    def epoch(self) -> Instant:
        """The epoch; refusal 6 where it is no day of 1957-2056."""
        days, part = divmod(self.day, 10**8)
        return Instant.from_date(self.year, days, part * 864)

    @property
    def epoch_datetime(self) -> datetime.datetime:
        return self.epoch.datetime

    @property
    def inclination_degrees(self) -> float:
        return self.inclination / 10**4

    @property
    def node_degrees(self) -> float:
        return self.node / 10**4

    @property
    def perigee_degrees(self) -> float:
        return self.perigee / 10**4

    @property
    def anomaly_degrees(self) -> float:
        return self.anomaly / 10**4

    @property
    def eccentricity_ratio(self) -> float:
        return self.eccentricity / 10**7

    @property
    def motion_revolutions(self) -> float:
        """Revolutions a day."""
        return self.motion / 10**8

    @property
    def ndot_revolutions(self) -> float:
        """Revolutions a day squared."""
        return self.ndot / 10**8

    def write(self) -> tuple[str, str]:
        """Both lines, which read as this record again; refusal 16 outside layout or ranges."""
        numbers = _Numbers(*_numbers(self))
        return _written(numbers, 1), _written(numbers, 2)


def read(line1: Text, line2: Text) -> Record:
    """Reads a pair of lines, any bytes without a line end; or a refusal 1 to 6.

    >>> read("1 00005U", "")
    Traceback (most recent call last):
    saddlekerf.refusal.Refused: refusal 1: line 1 has 8 bytes; a line has 69 (its last one is 'U')
    """
    one, two = octets(line1, "line 1"), octets(line2, "line 2")
    numbers = _Numbers()
    answer = library.record(one, len(one), two, len(two), addressof(numbers), FIELDS)
    if answer:
        raise of_lines(answer, line1, line2)
    return _record(numbers[:])


def form(line1: Text, line2: Text) -> Record:
    """The fields of a pair that is well formed, in their ranges or not; or a refusal 1 to 5.

    `meaning` judges the ranges: one after the other they are `read`.
    """
    one, two = octets(line1, "line 1"), octets(line2, "line 2")
    numbers = _Numbers()
    answer = library.form(one, len(one), two, len(two), addressof(numbers), FIELDS)
    if answer:
        raise of_lines(answer, line1, line2)
    return _record(numbers[:])


def meaning(fields: Record) -> Record:
    """The same fields, in their ranges; refusal 6 for one that is not, 16 where no line has them."""
    values = _numbers(fields)
    numbers = _Numbers(*values)
    answer = library.meaning(addressof(numbers), FIELDS)
    if answer:
        raise of_fields(answer, values)
    return fields


def checksum(text: Text) -> int:
    """The checksum digit of any bytes: of a line's first 68 it is what column 69 has to show."""
    given = octets(text, "a text")
    return int(library.checksum(given, len(given)))


def printed(line1: Text, line2: Text) -> str:
    """The fields of a pair as the program print_pair prints them, or `refused` and the number."""
    one, two = octets(line1, "line 1"), octets(line2, "line 2")
    room = (c_char * PRINT_ROOM)()
    answer = library.print(one, len(one), two, len(two), addressof(room), PRINT_ROOM)
    if answer & 0xFFFFFFFF:
        raise plain(answer, 17)
    return room.raw[: _answer.count(answer)].decode("ascii")


def epoch(line1: Text, line2: Text) -> Instant:
    """The epoch of a pair; or a refusal 1 to 6."""
    one, two = octets(line1, "line 1"), octets(line2, "line 2")
    room = c_uint64()
    answer = library.epoch(one, len(one), two, len(two), addressof(room))
    if answer:
        raise of_lines(answer, line1, line2)
    return Instant(room.value)


def _record(n: list[int]) -> Record:
    return Record(
        n[0], chr(n[1]), n[2], chr(n[3]) + chr(n[4]) + chr(n[5]), n[6], n[7], n[8],
        Exponential(n[9], n[10]), Exponential(n[11], n[12]), *n[13:],
    )  # fmt: skip


def _numbers(record: Record) -> list[int]:
    """The 22 numbers in the order of include/saddlekerf.h."""
    if not isinstance(record, Record):
        raise TypeError(f"a record is a Record, not {type(record).__name__}")
    texts = record.classification, record.piece
    if not all(isinstance(text, str) for text in texts) or tuple(map(len, texts)) != (1, 3):
        raise Refused(16, "a record's classification is one character, its piece three")
    exponentials = record.nddot, record.bstar
    if not all(isinstance(pair, tuple) and len(pair) == 2 for pair in exponentials):
        raise TypeError("a record's nddot and bstar are an Exponential each")
    values = (
        record.number, ord(texts[0]), record.launch, *map(ord, texts[1]), *record[4:7], *record.nddot,
        *record.bstar, *record[9:],
    )  # fmt: skip
    return [whole(value, "a number of a record", INT64) for value in values]


def _written(numbers: Array[c_int64], line: int) -> str:
    room = (c_char * LINE)()
    answer = library.write(addressof(numbers), FIELDS, line, addressof(room), LINE)
    if answer != LINE << 32:
        raise plain(answer, 16)
    return room.raw.decode("ascii")
