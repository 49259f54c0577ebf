"""Published habits that break the layout, repaired; never a digit, a point or a checksum."""

from __future__ import annotations

from typing import NamedTuple

from ._checked import Text, octets
from ._library import LINE


class Repair(NamedTuple):
    """What was repaired: the line, 1 or 2, the first column of it, and the habit."""

    line: int
    column: int
    habit: str

    def __str__(self) -> str:
        return f"line {self.line}, column {self.column}: {self.habit}"


CARRIAGE_RETURN = "carriage return taken off"
TRAILING_BLANKS = "trailing blanks taken off"
EPHEMERIS_TYPE = "blank ephemeris type made 0"
LEADING_BLANKS = "leading blanks of the catalogue number made 0"
LOWER_CASE = "lower case of the designator made upper case"

_NUMBER = slice(2, 7)
_LAUNCH = slice(9, 14)
_LETTERS = slice(14, 17)
_TYPE = slice(62, 63)


def mend(line1: Text, line2: Text) -> tuple[bytes, bytes, list[Repair]]:
    """Both lines with the published habits repaired, and what was repaired.

    Carriage returns and blanks past column 69 are taken off, a blank ephemeris type becomes 0, leading
    blanks of a catalogue number become 0, and lower case of the designator becomes upper case. None of
    them counts in a checksum. What else breaks the layout stays, and reading refuses it.
    """
    repairs: list[Repair] = []
    one, two = octets(line1, "line 1"), octets(line2, "line 2")
    one = _number(1, _end(1, one, repairs), repairs)
    two = _number(2, _end(2, two, repairs), repairs)
    letters = one[_LETTERS]
    if one[_LAUNCH].isdigit() and letters != letters.upper():
        at = next(i for i, byte in enumerate(letters) if chr(byte).islower())
        repairs.append(Repair(1, _LETTERS.start + 1 + at, LOWER_CASE))
        one = _put(one, _LETTERS, letters.upper())
    if one[_TYPE] == b" ":
        repairs.append(Repair(1, _TYPE.start + 1, EPHEMERIS_TYPE))
        one = _put(one, _TYPE, b"0")
    return one, two, repairs


def _end(number: int, line: bytes, repairs: list[Repair]) -> bytes:
    """What follows column 69, where it is nothing but blanks and carriage returns, is taken off."""
    rest = line[LINE:]
    if not rest or rest.strip(b" \r"):
        return line
    for byte, habit in ((b"\r", CARRIAGE_RETURN), (b" ", TRAILING_BLANKS)):
        if byte in rest:
            repairs.append(Repair(number, LINE + 1 + rest.index(byte), habit))
    return line[:LINE]


def _number(number: int, line: bytes, repairs: list[Repair]) -> bytes:
    places = line[_NUMBER]
    digits = places.lstrip(b" ")
    if digits == places or len(places) != 5 or not digits.isdigit():
        return line
    repairs.append(Repair(number, _NUMBER.start + 1, LEADING_BLANKS))
    return _put(line, _NUMBER, digits.rjust(5, b"0"))


def _put(line: bytes, places: slice, text: bytes) -> bytes:
    return line[: places.start] + text + line[places.stop :]
