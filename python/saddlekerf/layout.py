"""The layout of the two lines: which field a column belongs to, and what may stand in it.

The library alone judges lines. This table only says, of a column that it refused, what it would have
taken there; the tests hold it against the library, byte for byte.
"""

from __future__ import annotations

import string
from typing import NamedTuple

DIGITS = frozenset(string.digits.encode())
LETTERS = frozenset(string.ascii_uppercase.encode())
FIRST_PLACE = DIGITS | LETTERS - frozenset(b"IO")
BLANK = frozenset(b" ")


class Span(NamedTuple):
    """A field of a line: its first column, a code for each of its columns, and what it is."""

    first: int
    form: str
    name: str

    @property
    def last(self) -> int:
        return self.first + len(self.form) - 1

    @property
    def columns(self) -> str:
        return f"column {self.first}" if self.first == self.last else f"columns {self.first}-{self.last}"


class Place(NamedTuple):
    """A column: the field that it belongs to, and the bytes that may stand there."""

    span: Span
    bytes: frozenset[int]
    words: str


# The codes: 9 a digit, r a right-set place before the last, A the first place of a catalogue number, U
# the class, i to n the designator's places, s a sign, e the sign of an exponent; others stand for themselves.
_CATALOGUE = "A9999"
_ANGLE = "rr9.9999"
_EXPONENTIAL = "s99999e9"

SPANS: dict[int, tuple[Span, ...]] = {
    1: (
        Span(1, "1", "the line's number"),
        Span(3, _CATALOGUE, "the catalogue number"),
        Span(8, "U", "the classification"),
        Span(10, "ijjjjkmn", "the designator"),
        Span(19, "99", "the epoch's year"),
        Span(21, "999.99999999", "the epoch's day"),
        Span(34, "s.99999999", "half the first derivative of the mean motion"),
        Span(45, _EXPONENTIAL, "a sixth of the second derivative of the mean motion"),
        Span(54, _EXPONENTIAL, "B*"),
        Span(63, "9", "the ephemeris type"),
        Span(65, "rrr9", "the element number"),
        Span(69, "9", "the checksum"),
    ),
    2: (
        Span(1, "2", "the line's number"),
        Span(3, _CATALOGUE, "the catalogue number"),
        Span(9, _ANGLE, "the inclination"),
        Span(18, _ANGLE, "the right ascension of the node"),
        Span(27, "9999999", "the eccentricity"),
        Span(35, _ANGLE, "the argument of perigee"),
        Span(44, _ANGLE, "the mean anomaly"),
        Span(53, "r9.99999999", "the mean motion"),
        Span(64, "rrrr9", "the revolution number"),
        Span(69, "9", "the checksum"),
    ),
}

_PLAIN: dict[str, tuple[frozenset[int], str]] = {
    "9": (DIGITS, "a digit"),
    "A": (FIRST_PLACE, "a digit, or a letter A-Z without I and O"),
    "U": (frozenset(b"UCS"), "U, C or S"),
    ".": (frozenset(b"."), "a point"),
    "s": (frozenset(b" +-"), "a blank, + or -"),
    "e": (frozenset(b"+-"), "+ or -"),
    "1": (frozenset(b"1"), "the digit 1"),
    "2": (frozenset(b"2"), "the digit 2"),
}


def span_at(line: int, column: int) -> Span:
    """The field of a column; a blank that separates two is a field of its own."""
    for span in SPANS[line]:
        if span.first <= column <= span.last:
            return span
    return Span(column, " ", "the blank between two fields")


def may_stand(line: int, column: int, before: bytes) -> Place:
    """What may stand in a column of a line whose earlier columns are `before` and break no rule."""
    span = span_at(line, column)
    code = span.form[column - span.first]
    if code in _PLAIN:
        return Place(span, *_PLAIN[code])
    return Place(span, *_after(code, before[span.first - 1 : column - 1]))


def _after(code: str, field: bytes) -> tuple[frozenset[int], str]:
    """What may stand after the first columns of its own field."""
    if code == " ":
        return BLANK, "a blank"
    if code == "r":
        if field.strip():
            return DIGITS, "a digit (a blank never follows a digit)"
        return DIGITS | BLANK, "a digit or a blank"
    if code == "i":
        return DIGITS | BLANK, "a digit, or blanks throughout"
    if field[:1] == b" ":
        return BLANK, "a blank (the designator began with one)"
    if code == "j":
        return DIGITS, "a digit"
    if code == "k":
        return LETTERS, "a letter A-Z"
    if code == "n" and field[-1:] == b" ":
        return BLANK, "a blank (letters come first)"
    return LETTERS | BLANK, "a letter A-Z or a blank"
