"""Refusals: the exception, and the sentence that each of them says."""

from __future__ import annotations

from functools import partial
from typing import Optional, Union

from . import _answer
from ._checked import Text, octets, shown
from ._library import library
from .layout import may_stand

#: The fields of refusal 6 by their numbers, under the labels of the program judge_pair.
FIELDS = {1: "day", 2: "inclination", 3: "node", 4: "perigee", 5: "anomaly", 6: "motion"}

#: What each refusal says where nothing more is known.
SENTENCES = {
    1: "a line is not 69 bytes",
    2: "column 1 is not the line's number",
    3: "a column breaks the layout",
    4: "the checksum differs",
    5: "the catalogue numbers of the lines differ",
    6: "a field is out of its range, or an instant lies outside 1957-2056",
    7: "the perigee at epoch lies below one Earth radius",
    8: "a number of the opened satellite is not finite",
    9: "the time, or the move, is beyond 3,652 days",
    10: "the mean motion is at most 0",
    11: "the mean eccentricity is 1 or more or below -0.001, or the semi-major axis below 0.95",
    12: "the perturbed eccentricity is below 0 or above 1",
    13: "the semi-latus rectum is below 0",
    14: "the radius is below one Earth radius: the satellite has decayed",
    15: "a number of the state is not finite",
    16: "the record is outside layout or ranges",
    17: "the lent memory is too short",
    18: "more than 1,024 times or samples, or more than 256 offers or entries",
    19: "all 64 places of the roster hold other catalogue numbers",
    20: "the roster's pair of this catalogue number has a later epoch",
    21: "the roster has no pair of this catalogue number",
    22: "the bytes are no roster, or the row is not its own",
    23: "the text has more than 4,096 pairs",
    24: "the text has an odd number of lines",
    25: "the station is zero, not finite or out of range",
    26: "the step is 0 or more than 86,400 s",
    27: "an offer is outside the calendar, does not end after it starts, or bids more than 1,000,000,000 cents",
    28: "an entry names no offer",
    29: "an entry names an offer that an earlier one names",
    30: "an entry's offer clashes with that of an earlier one",
    31: "the total is not the sum of the bids",
}


class Refused(ValueError):
    """Something is not answered, with what comes back.

    `number` is the refusal's number, the same in C, in Rust and in what the programs print. What the
    library tells with it is in `line` and `column` (refusals 1 to 4, columns counted from 1), `field`
    (refusal 6 of lines) and `place` (the offer of refusal 27, the entry of 28 to 30, counted from 0); what
    it does not tell is None. `sentence` says it in words.
    """

    def __init__(
        self,
        number: int,
        sentence: Optional[str] = None,
        *,
        line: Optional[int] = None,
        column: Optional[int] = None,
        field: Optional[str] = None,
        place: Optional[int] = None,
    ) -> None:
        self.number = number
        self.sentence = SENTENCES[number] if sentence is None else sentence
        self.line = line
        self.column = column
        self.field = field
        self.place = place
        super().__init__(f"refusal {number}: {self.sentence}")

    def __reduce__(self) -> tuple[object, ...]:
        told = {name: getattr(self, name) for name in ("line", "column", "field", "place")}
        return partial(Refused, **told), (self.number, self.sentence)


def of_lines(answer: int, line1: Text, line2: Text) -> Refused:
    """The refusal of two lines, 1 to 8, as they were given."""
    number, line, place = _answer.refusal(answer), _answer.detail(answer), _answer.place(answer)
    one, two = shown(line1), shown(line2)
    if answer in (7, 8):
        return Refused(answer)
    if answer == 5:
        return Refused(5, f"line 1 has the catalogue number {_part(one, 3, 7)}, line 2 has {_part(two, 3, 7)}")
    if number == 6 and answer == 6 | place << 16 and place in FIELDS:
        return Refused(6, _range(FIELDS[place], one, two), field=FIELDS[place])
    given = one if line == 1 else two
    if answer == number | line << 8 and line in (1, 2) and number in _OF_A_LINE:
        return Refused(number, _OF_A_LINE[number](line, given), line=line)
    if answer == 3 | line << 8 | place << 16 and line in (1, 2) and 1 <= place <= len(given):
        return Refused(3, _column(line, place, given), line=line, column=place)
    _answer.foreign(answer)


def of_fields(answer: int, numbers: list[int]) -> Refused:
    """The refusal of a record's numbers: 16, or 6 with the field."""
    number, place = _answer.refusal(answer), _answer.place(answer)
    if answer == 16:
        return Refused(16)
    if number == 6 and place in FIELDS and answer == 6 | place << 16:
        return Refused(6, _out_of_range(FIELDS[place], numbers), field=FIELDS[place])
    _answer.foreign(answer)


def plain(answer: int, *numbers: int) -> Refused:
    """A refusal that comes back with nothing, one of those named."""
    if answer not in numbers:
        _answer.foreign(answer)
    return Refused(answer)


# ---- sentences ----

Given = Union[str, bytes]

_NAMED = {0: "NUL", 9: "a tab", 10: "a newline", 13: "a carriage return", 32: "a blank"}


def quoted(text: Given, index: int) -> str:
    """A character of a line as it was given, or a byte of it."""
    one = text[index]
    byte = ord(one) if isinstance(one, str) else one
    if byte in _NAMED:
        return _NAMED[byte]
    if 32 < byte < 127 or isinstance(one, str) and one.isprintable():
        return f"'{chr(byte)}'"
    return f"the byte {byte:#04x}"


def _part(text: Given, first: int, last: int) -> str:
    """Columns of a line as text."""
    part = text[first - 1 : last]
    return part if isinstance(part, str) else part.decode("ascii", "backslashreplace")


def _length(line: int, text: Given) -> str:
    length = len(text)
    words = f"line {line} has {length} {'byte' if length == 1 else 'bytes'}; a line has 69"
    return words + f" (its last one is {quoted(text, length - 1)})" if length else words


def _start(line: int, text: Given) -> str:
    return f"line {line} begins with {quoted(text, 0)}; column 1 has to be the digit {line}"


def _column(line: int, column: int, text: Given) -> str:
    place = may_stand(line, column, octets(text[: column - 1], "a line"))
    where = "" if place.span.form == " " else f" of {place.span.name} ({place.span.columns})"
    return f"line {line}, column {column}{where} is {quoted(text, column - 1)}; {place.words} may stand there"


def _checksum(line: int, text: Given) -> str:
    digit = library.checksum(octets(text[:68], "a line"), 68)
    return f"the checksum of line {line}, column 69, is {quoted(text, 68)}; columns 1-68 add up to {digit}"


_OF_A_LINE = {1: _length, 2: _start, 4: _checksum}

_RANGES = {
    "inclination": (2, 9, 16, 15, 4, "inclination", "0 to 180.0000 degrees"),
    "node": (2, 18, 25, 16, 4, "right ascension of the node", "0 to 359.9999 degrees"),
    "perigee": (2, 35, 42, 18, 4, "argument of perigee", "0 to 359.9999 degrees"),
    "anomaly": (2, 44, 51, 19, 4, "mean anomaly", "0 to 359.9999 degrees"),
    "motion": (2, 53, 63, 20, 8, "mean motion", "more than 0 revolutions a day"),
}


def _range(field: str, line1: Given, line2: Given) -> str:
    if field == "day":
        short = int(_part(line1, 19, 20))
        return _day(short + (1900 if short >= 57 else 2000), _part(line1, 21, 32), " (line 1, columns 21-32)")
    line, first, last, _, _, name, may = _RANGES[field]
    value = _part(line1 if line == 1 else line2, first, last).strip()
    return f"the {name} (line {line}, columns {first}-{last}) is {value}; it may be {may}"


def _out_of_range(field: str, numbers: list[int]) -> str:
    if field == "day":
        return _day(numbers[6], f"{numbers[7] // 10**8:03}.{numbers[7] % 10**8:08}", "")
    _, _, _, at, places, name, may = _RANGES[field]
    return f"the {name} is {numbers[at] // 10**places}.{numbers[at] % 10**places:0{places}}; it may be {may}"


def _day(year: int, day: str, where: str) -> str:
    last = 366 if year % 4 == 0 else 365
    return f"the epoch's day{where} is {day}; {year} has the days 001.00000000 to {last}.99999999"
