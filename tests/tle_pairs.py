#!/usr/bin/env python3
"""An independent reader of two-line sets, and whole and damaged pairs to try it on.

Written from document 01 ("The two lines", "Refusal numbers"), from wishes 1 and
3 of document 02 (letters in catalogue numbers, the last day of a year) and from
nothing else. A field is the list of its lawful shapes; a column breaks the layout when no shape of its field
agrees with the line up to it.

  tle_pairs.py --write INPUT EXPECTED [--seed N] [--random N]
      writes pairs of lines, each ended by a newline (any other byte may stand in
      a line), and for each pair its answer on one line:
          ok
          refused 1 LINE          not 69 bytes
          refused 2 LINE          column 1
          refused 3 LINE COLUMN   layout
          refused 4 LINE          checksum
          refused 5               catalogue numbers
          refused 6 FIELD         day, inclination, node, perigee, anomaly, motion
  tle_pairs.py --read INPUT
      prints the answers for the pairs of a file.
  tle_pairs.py
      prints how many pairs there are of each answer.

`--published FILE` names the published test set (SGP4-VER.TLE); without it the
copies beside this program are looked for.
"""

import argparse
import itertools
import random
import sys
from collections import Counter
from pathlib import Path

LENGTH = 69

# ------------------------------------------------------------------ the layout

# Wish 1: the first of a catalogue number's five places may be a letter, A-Z
# without I and O, standing for 10 to 33.
LETTERS = [letter for letter in "ABCDEFGHIJKLMNOPQRSTUVWXYZ" if letter not in "IO"]
FIRST_PLACES = {place: value for value, place in enumerate([*"0123456789", *LETTERS])}

PLACES = {
    "d": b"0123456789",
    "N": "".join(FIRST_PLACES).encode(),
    "L": b"ABCDEFGHIJKLMNOPQRSTUVWXYZ",
    "U": b"UCS",
    "s": b" +-",
    "e": b"+-",
    "_": b" ",
    ".": b".",
    "1": b"1",
    "2": b"2",
}


def right_set(width, rest=""):
    """Blanks first, then digits, at least one; `rest` follows the last place."""
    return ["_" * blanks + "d" * (width - blanks) + rest for blanks in range(width)]


NUMBER = ["Ndddd"]
DESIGNATOR = ["_" * 8, "dddddL__", "dddddLL_", "dddddLLL"]
DAY = ["ddd." + "d" * 8]
HALF_DERIVATIVE = ["s." + "d" * 8]
EXPONENTIAL = ["sddddded"]
ANGLE = right_set(3, ".dddd")
MOTION = right_set(2, "." + "d" * 8)

# Per line: first column, lawful shapes. Columns not named are blank.
LAYOUT = {
    1: {1: ["1"], 3: NUMBER, 8: ["U"], 10: DESIGNATOR, 19: ["dd"], 21: DAY,
        34: HALF_DERIVATIVE, 45: EXPONENTIAL, 54: EXPONENTIAL, 63: ["d"],
        65: right_set(4), 69: ["d"]},
    2: {1: ["2"], 3: NUMBER, 9: ANGLE, 18: ANGLE, 27: ["d" * 7], 35: ANGLE,
        44: ANGLE, 53: MOTION, 64: right_set(5), 69: ["d"]},
}


def agreeing(shape, text):
    """How many leading bytes of the text agree with the shape."""
    pairs = zip(shape, text)
    return sum(1 for _ in itertools.takewhile(lambda p: p[1] in PLACES[p[0]], pairs))


def broken_column(which, line):
    """The first column at which no lawful line agrees so far; None if there is none."""
    column = 1
    while column <= LENGTH:
        shapes = LAYOUT[which].get(column, ["_"])
        width = len(shapes[0])
        text = line[column - 1:column - 1 + width]
        reach = max(agreeing(shape, text) for shape in shapes)
        if reach < width:
            return column + reach
        column += width
    return None


# ------------------------------------------------------------------ the reader

def checksum(line):
    body = line[:LENGTH - 1]
    return (sum(byte - 48 for byte in body if 48 <= byte <= 57) + body.count(b"-")) % 10


def judge_line(which, line):
    if len(line) != LENGTH:
        return f"refused 1 {which}"
    if line[:1] != b"%d" % which:
        return f"refused 2 {which}"
    column = broken_column(which, line)
    if column is not None:
        return f"refused 3 {which} {column}"
    if checksum(line) != line[LENGTH - 1] - 48:
        return f"refused 4 {which}"
    return None


def whole(line, first, last):
    """The digits of columns first to last as a whole number in the last place."""
    return int(line[first - 1:last].replace(b".", b"").replace(b" ", b"0"))


def catalogue(line):
    """The catalogue number in columns 3 to 7."""
    return FIRST_PLACES[chr(line[2])] * 10000 + whole(line, 4, 7)


def full_year(two_digits):
    """57-99 are 1957-1999, 00-56 are 2000-2056."""
    return two_digits + (1900 if two_digits >= 57 else 2000)


def last_day(year):
    """Wish 3: a common year ends at day 365.99999999; each year that 4 divides is a leap year, 2000 too."""
    return 365 if year % 4 else 366


def broken_range(line1, line2):
    day, year = whole(line1, 21, 32), full_year(whole(line1, 19, 20))
    if not 1_00000000 <= day < (last_day(year) + 1) * 1_00000000:
        return "day"
    if whole(line2, 9, 16) > 180_0000:
        return "inclination"
    for field, first, last in (("node", 18, 25), ("perigee", 35, 42), ("anomaly", 44, 51)):
        if whole(line2, first, last) >= 360_0000:
            return field
    if whole(line2, 53, 63) == 0:
        return "motion"
    return None


def judge(line1, line2):
    for which, line in ((1, line1), (2, line2)):
        refusal = judge_line(which, line)
        if refusal:
            return refusal
    if catalogue(line1) != catalogue(line2):
        return "refused 5"
    field = broken_range(line1, line2)
    return f"refused 6 {field}" if field else "ok"


# ------------------------------------------------------------------ the pairs

EXAMPLE1 = dict(number="00005", classification="U", designator="58002B  ", year="00",
                day="179.78495062", ndot=" .00000023", nddot=" 00000-0", bstar=" 28098-4",
                type="0", set=" 475")
EXAMPLE2 = dict(number="00005", inclination=" 34.2682", node="348.7242", eccentricity="1859667",
                perigee="331.7664", anomaly=" 19.3264", motion="10.82419157", revolution="41366")


def summed(text):
    """A line of 68 places with its checksum put after it."""
    body = text if isinstance(text, bytes) else text.encode("latin-1")
    return body + b"%d" % checksum(body)


def line1(**fields):
    f = EXAMPLE1 | fields
    return summed("1 {number}{classification} {designator} {year}{day} {ndot} {nddot} {bstar} "
                  "{type} {set}".format(**f))


def line2(**fields):
    f = EXAMPLE2 | fields
    return summed("2 {number} {inclination} {node} {eccentricity} {perigee} {anomaly} "
                  "{motion}{revolution}".format(**f))


EXAMPLE = line1(), line2()


def put(line, column, value, mended=True):
    """The line with one byte replaced; mended, its checksum holds again."""
    damaged = line[:column - 1] + bytes([value]) + line[column:]
    return summed(damaged[:LENGTH - 1]) if mended and column < LENGTH else damaged


class Draw:
    """Random lawful fields."""

    def __init__(self, rng):
        self.rng = rng

    def digits(self, n):
        return "".join(self.rng.choice("0123456789") for _ in range(n))

    def right_set(self, value, width, rest=""):
        """Sometimes with zeros where blanks could stand."""
        text = str(value)
        zeros = self.rng.randint(len(text), width) if self.rng.random() < 0.3 else len(text)
        return text.rjust(zeros, "0").rjust(width) + rest

    def angle(self, below=360):
        return self.right_set(self.rng.randrange(below), 3, "." + self.digits(4))

    def exponential(self):
        mantissa = "00000" if self.rng.random() < 0.2 else self.digits(5)
        return self.rng.choice(" +-") + mantissa + self.rng.choice("+-") + self.digits(1)

    def designator(self):
        piece = "".join(self.rng.choice("ABCDEFGHIJKLMNOPQRSTUVWXYZ")
                        for _ in range(self.rng.randint(1, 3)))
        return " " * 8 if self.rng.random() < 0.15 else self.digits(5) + piece.ljust(3)

    def fields1(self, number):
        rng = self.rng
        last = lambda year: last_day(full_year(int(year)))
        return dict(number=number, classification=rng.choice("UCS"), designator=self.designator(),
                    year=(year := self.digits(2)), day="%03d.%s" % (rng.randint(1, last(year)), self.digits(8)),
                    ndot=rng.choice(" +-") + "." + self.digits(8), nddot=self.exponential(),
                    bstar=self.exponential(), type=self.digits(1),
                    set=self.right_set(rng.randrange(10 ** rng.randint(1, 4)), 4))

    def fields2(self, number):
        rng = self.rng
        return dict(number=number, inclination=self.angle(180), node=self.angle(),
                    eccentricity=self.digits(7), perigee=self.angle(), anomaly=self.angle(),
                    motion=self.right_set(rng.randrange(100), 2, "." + self.digits(7) + "1"),
                    revolution=self.right_set(rng.randrange(10 ** rng.randint(1, 5)), 5))

    def number(self):
        """Half of them with a letter."""
        first = self.rng.choice(LETTERS) if self.rng.random() < 0.5 else self.digits(1)
        return first + self.digits(4)

    def pair(self):
        number = self.number()
        return line1(**self.fields1(number)), line2(**self.fields2(number))


def published_pairs(path):
    lines = [line for line in path.read_bytes().split(b"\n") if line[:1] in (b"1", b"2")]
    for first, second in zip(lines[0::2], lines[1::2]):
        yield first.rstrip(b"\r")[:LENGTH], second.rstrip(b"\r")[:LENGTH]


DAMAGE = b",.:;/09AIOZaioz \t-+_*~@\x00\x01\r\x0b\x7f\x80\xa0\xb2\xb9\xff"


def damaged_columns(draw):
    """Each column of each line, four ways: three mended, one with the old checksum."""
    rng = draw.rng
    for column in range(1, LENGTH + 1):
        for which in (0, 1):
            for turn in range(4):
                pair = list((line1(), line2()) if turn == 0 else draw.pair())
                old = pair[which][column - 1]
                value = rng.choice([b for b in DAMAGE if b != old])
                pair[which] = put(pair[which], column, value, mended=turn < 3)
                yield tuple(pair)


def blanked_and_signed_columns():
    """Each column of the example made blank, a digit, a minus, a plus or a letter."""
    for column in range(2, LENGTH):
        for value in b" 7-+A":
            if EXAMPLE[0][column - 1] != value:
                yield put(EXAMPLE[0], column, value), EXAMPLE[1]
            if EXAMPLE[1][column - 1] != value:
                yield EXAMPLE[0], put(EXAMPLE[1], column, value)


def designators():
    lawful = ["        ", "58002B  ", "58002BC ", "58002BCD", "00000A  ", "99999ZZZ"]
    malformed = [
        "58002   ", "58002 B ", "58002  B", "58002B C", "58002b  ", "58002Bc ", "58002BCd",
        "5800B   ", "5800 B  ", "580 2B  ", "58 02B  ", "5 002B  ", " 8002B  ", "       A",
        "      A ", "     A  ", "    A   ", " 58002B ", "A8002B  ", "58002B1 ", "58002B 1",
        "58002BC1", "580021  ", "58002-  ", "58002B- ", "58002B +", "58002B.A", "5800.B  ",
        "-8002B  ", "58002[  ", "58002@  ", "58002B[ ", "58002BC@", "58002\xc1  ", "5800\xb2B  ",
        "58002\tB ", "       0", "0       ", "58002B\t ", "58002BC\x00",
    ]
    for text in lawful + malformed:
        yield line1(designator=text), EXAMPLE[1]


def right_set_fields():
    """A blank after a digit, a missing last digit, signs and points out of place."""
    angles = ["1 3.4567", "12 .4567", " 1 .4567", "   .4567", "1  .4567", "  3.456 ", "  3. 567",
              "  3 4567", "  3,4567", " -3.4567", "-13.4567", " +3.4567", "12.34567", "  .34567",
              "003.4567", " 03.4567", "0 3.4567", "  0.0000", "000.0000", "  3.45 7", "  3.4 67"]
    for text in angles:
        for field in ("inclination", "node", "perigee", "anomaly"):
            yield EXAMPLE[0], line2(**{field: text})
    for text in ("1 .23456789", "  .23456789", "1. 3456789", " 1.2345678 ", " 1.23 56789",
                 "01.23456789", "-1.23456789", " 1,23456789", "1.234567890", "99.99999999",
                 " 0.00000001", "00.00000001"):
        yield EXAMPLE[0], line2(motion=text.ljust(11)[:11])
    for text in ("1 345", "12 45", "123 5", "1234 ", "    1", "00001", "     ", " 1 34", "1    ",
                 "   0 ", "0    ", "0   0", "-   1", "   -1", "+0001", "99999", "  +1 ", " 1.23"):
        yield EXAMPLE[0], line2(revolution=text)
    for text in ("1 34", "12 4", "123 ", "   1", "0001", "    ", " 1 3", "1   ", "  0 ", "0  0",
                 "-  1", "  -1", "+001", "9999", " 1.2", "   ,"):
        yield line1(set=text), EXAMPLE[1]


def exponentials():
    """Zero and other mantissas with every sign and exponent, and malformed ones."""
    for sign in " +-":
        for exponent in ("-0", "+0", "-1", "+1", "-9", "+9", "-5", "+5"):
            yield line1(nddot=sign + "00000" + exponent), EXAMPLE[1]
            yield line1(bstar=sign + "00000" + exponent), EXAMPLE[1]
            yield line1(bstar=sign + "12345" + exponent, nddot=sign + "00001" + exponent), EXAMPLE[1]
    for text in (" 00000 0", " 00000- ", " 0000 -0", " 000000-", "0.0000-0", " .0000-0", "  0000-0",
                 "        ", " 28098e4", " 28098-A", "028098-4", "*28098-4", " 28O98-4"):
        yield line1(nddot=text), EXAMPLE[1]
        yield line1(bstar=text), EXAMPLE[1]
    for text in ("+.00000023", "-.00000023", "-.00000000", "+.00000000", "0.00000023", " 000000023",
                 " .0000002 ", "  .0000023", " .000 0023", "*.00000023", " ,00000023", "--00000023"):
        yield line1(ndot=text), EXAMPLE[1]
    for sign in " +-":
        yield line1(ndot=sign + ".00000023", nddot=sign + "10000+1", bstar=sign + "28098+0"), EXAMPLE[1]


def other_fields():
    for text in ("00", "56", "57", "99", " 0", "5 ", "  ", "5A", "-5", "+5", "0."):
        yield line1(year=text), EXAMPLE[1]
    for text in ("U", "C", "S", "u", "c", "s", " ", "A", "T", "0", "-", "V", "B", "D", "R"):
        yield line1(classification=text), EXAMPLE[1]
    for text in ("0", "9", "4", " ", "A", "-", "+", "."):
        yield line1(type=text), EXAMPLE[1]
    for text in (" 79.78495062", "1 9.78495062", "17 .78495062", "179 78495062", "179,78495062",
                 "179.7849506 ", "179. 8495062", "179.78 95062", "  9.78495062", "+79.78495062"):
        yield line1(day=text), EXAMPLE[1]
    for text in ("185966 ", " 859667", "18 9667", ".859667", "18596.7", "-859667", "0000000", "9999999"):
        yield EXAMPLE[0], line2(eccentricity=text)
    for text in ("    5", "0000 ", "0 005", "A0005", "0000A", "-0005", "0O005"):
        yield line1(number=text), line2(number=text)
        yield EXAMPLE[0], line2(number=text)


def checksums(draw):
    for off in range(1, 10):
        for which in (0, 1):
            for pair in (EXAMPLE, draw.pair()):
                pair = list(pair)
                last = (pair[which][LENGTH - 1] - 48 + off) % 10
                pair[which] = put(pair[which], LENGTH, 48 + last)
                yield tuple(pair)
    # `+` counted as 1, and `-` not counted: each sum is off by the signs.
    plus = line1(ndot="+.00000023", nddot="+00000+0", bstar="+28098+4")
    minus = line1(ndot="-.00000023", nddot="-00000-0", bstar="-28098-4")
    for line in (plus, minus):
        yield line, EXAMPLE[1]
        for off in (5, 3, 2, 1):
            for last in ((line[68] - 48 + off) % 10, (line[68] - 48 - off) % 10):
                yield put(line, LENGTH, 48 + last), EXAMPLE[1]
    # A comma for the point leaves the sum as it was.
    yield EXAMPLE[0], put(EXAMPLE[1], 12, ord(","))
    for value in b" -+.A,\xff\x00:/":
        yield put(EXAMPLE[0], LENGTH, value), EXAMPLE[1]
        yield EXAMPLE[0], put(EXAMPLE[1], LENGTH, value)


def lengths(draw):
    for length in (0, 1, 2, 34, 67, 68, 70, 71, 100, 150):
        for which in (0, 1):
            pair = list(EXAMPLE)
            pair[which] = pair[which][:length].ljust(length)
            yield tuple(pair)
            other = list(draw.pair())
            other[which] = (other[which] + b"0123456789" * 9)[:length]
            yield tuple(other)
    yield b"", b""
    yield EXAMPLE[0] + b"\r", EXAMPLE[1] + b"\r"
    yield EXAMPLE[0], EXAMPLE[1] + b"\r"
    yield b" " + EXAMPLE[0], EXAMPLE[1]
    yield EXAMPLE[0], EXAMPLE[1][1:]


def first_columns():
    for value in b"0239 -+A\x00\xb1l":
        yield put(EXAMPLE[0], 1, value), EXAMPLE[1]
        yield put(EXAMPLE[0], 1, value, mended=False), EXAMPLE[1]
    for value in b"0139 -+A\x00\xb2z":
        yield EXAMPLE[0], put(EXAMPLE[1], 1, value)
        yield EXAMPLE[0], put(EXAMPLE[1], 1, value, mended=False)
    yield EXAMPLE[1], EXAMPLE[0]
    yield EXAMPLE[0], EXAMPLE[0]
    yield EXAMPLE[1], EXAMPLE[1]
    yield b" " * LENGTH, b" " * LENGTH
    yield EXAMPLE[0], b"2" * LENGTH
    yield b"1" * LENGTH, EXAMPLE[1]


def numbers():
    for text in ("00006", "00015", "00105", "01005", "10005", "99999", "00000", "50000"):
        yield EXAMPLE[0], line2(number=text)
        yield line1(number=text), EXAMPLE[1]
        yield line1(number=text), line2(number=text)
    # Differing numbers come before ranges, and after every fault of line 2.
    yield line1(day="000.00000000"), line2(number="00006")
    yield EXAMPLE[0], line2(number="00006", inclination="999.9999")
    yield line1(number="00007"), put(EXAMPLE[1], 40, ord("x"))
    yield line1(number="00007"), put(EXAMPLE[1], LENGTH, ord("8"))


LETTERED = ["A0000", "H9999", "J0000", "N9999", "P0000", "Z9999"]


def letters():
    """Wish 1: letters in the first place, other bytes there, letters further on, numbers that differ."""
    for text in LETTERED + [letter + "0005" for letter in LETTERS]:
        yield line1(number=text), line2(number=text)
    others = [byte + "0005" for byte in "IOiojaz @[`{/:-+.,\x00\x80\xc1"]
    for text in others + ["0A000", "00B00", "000C0", "0000Z", "AA000", "Z999Z", "A000I", "Ao000", "A 000"]:
        yield line1(number=text), line2(number=text)
        yield EXAMPLE[0], line2(number=text)
        yield line1(number="A0000"), line2(number=text)
    for one, two in itertools.permutations(["00000", "10000", "80000"] + LETTERED, 2):
        yield line1(number=one), line2(number=two)
    # Letters add nothing to the checksum: not 1, not the number that they stand for.
    for text in LETTERED:
        value = FIRST_PLACES[text[0]]
        for off in sorted({1, value % 10, value // 10 + value % 10} - {0}):
            pair = line1(number=text), line2(number=text)
            off1, off2 = (put(line, LENGTH, 48 + (line[68] - 48 + off) % 10) for line in pair)
            yield off1, pair[1]
            yield pair[0], off2


BEYOND = dict(inclination=["180.0001", "181.0000", "360.0000", "999.9999"],
              node=["360.0000", "360.0001", "400.0000", "999.9999"],
              perigee=["360.0000", "360.0001", "999.9999"],
              anomaly=["360.0000", "360.0001", "999.9999"],
              motion=[" 0.00000000", "00.00000000"])
WITHIN = dict(inclination=["180.0000", "179.9999", "  0.0000", "000.0000", "  0.0001"],
              node=["359.9999", "  0.0000", "180.0001"],
              perigee=["359.9999", "  0.0000", "180.0001"],
              anomaly=["359.9999", "  0.0000", "180.0001"],
              motion=[" 0.00000001", "99.99999999", " 1.00000000", "10.00000000"])
DAYS = ["000.00000000", "000.99999999", "367.00000000", "367.00000001", "400.00000000",
        "999.99999999", "000.00000001", "001.00000000", "060.00000000", "366.50000000"]
LAST_DAYS = ["365.99999999", "366.00000000", "366.99999999", "367.00000000"]


def days():
    """Wish 3: the ends of years, at both ends of the calendar and around 2000."""
    years = [*range(1957, 1966), *range(1995, 2006), *range(2051, 2057)]
    for year, text in itertools.product(years, LAST_DAYS):
        yield line1(year="%02d" % (year % 100), day=text), EXAMPLE[1]
    # The fields of line 2 come after the day, the layout, checksums and numbers before it.
    short = dict(year="01", day="366.50000000")
    for field, texts in BEYOND.items():
        yield line1(**short), line2(**{field: texts[0]})
    yield line1(**short), line2(number="00006")
    yield line1(**short), put(EXAMPLE[1], 12, ord(","))
    yield put(line1(**short), LENGTH, ord("0")), EXAMPLE[1]


def ranges():
    for table in (BEYOND, WITHIN):
        for field, texts in table.items():
            for text in texts:
                yield EXAMPLE[0], line2(**{field: text})
    for text in DAYS:
        for year in ("00", "56", "57", "99", "01"):
            yield line1(day=text, year=year), EXAMPLE[1]
    # Every set of fields out of range together: the first in column order counts.
    fields = list(BEYOND)
    for size in range(2, len(fields) + 1):
        for some in itertools.combinations(fields, size):
            broken = {field: BEYOND[field][0] for field in some}
            yield EXAMPLE[0], line2(**broken)
    for field in fields:
        yield line1(day="367.00000000"), line2(**{field: BEYOND[field][0]})
        # The layout and the checksum come before the ranges.
        damaged = line2(**{field: BEYOND[field][0]})
        yield EXAMPLE[0], put(damaged, 64, ord("x"))
        yield EXAMPLE[0], put(damaged, LENGTH, 48 + (damaged[68] - 47) % 10)
        yield line1(day="000.99999999"), put(damaged, 69, ord(" "))


def several(draw, count):
    """Two to six damages at once, in one line or in both."""
    rng = draw.rng
    for _ in range(count):
        pair = list(draw.pair())
        for _ in range(rng.randint(2, 6)):
            which = rng.randint(0, 1)
            column = rng.randint(1, LENGTH)
            pair[which] = put(pair[which], column, rng.choice(DAMAGE), mended=rng.random() < 0.8)
        if rng.random() < 0.1:
            which = rng.randint(0, 1)
            pair[which] = pair[which][:rng.randint(0, LENGTH)]
        yield tuple(pair)


def random_bytes(draw, count):
    """Lines of no sense, some with the right column 1."""
    rng = draw.rng
    letters = [b for b in range(256) if b != 10]
    for _ in range(count):
        first = bytes(rng.choice(letters) for _ in range(LENGTH))
        second = bytes(rng.choice(b"0123456789 .+-") for _ in range(LENGTH))
        if rng.random() < 0.5:
            first = b"1 " + first[2:]
        yield first, b"2 " + second[2:]
        yield EXAMPLE[0], b"2 00005 " + second[8:]


def whole_pairs(draw, count):
    for _ in range(count):
        yield draw.pair()


def edge_columns(draw, count):
    """Damage that keeps to the layout's own bytes: blanks, digits, signs, points."""
    rng = draw.rng
    for _ in range(count):
        pair = list(draw.pair())
        which = rng.randint(0, 1)
        pair[which] = put(pair[which], rng.randint(2, LENGTH), rng.choice(b" 0123456789+-."),
                          mended=rng.random() < 0.9)
        yield tuple(pair)


def pairs(published, seed, count):
    draw = Draw(random.Random(seed))
    yield EXAMPLE
    yield from published_pairs(published)
    yield from damaged_columns(draw)
    yield from blanked_and_signed_columns()
    yield from designators()
    yield from right_set_fields()
    yield from exponentials()
    yield from other_fields()
    yield from checksums(draw)
    yield from lengths(draw)
    yield from first_columns()
    yield from numbers()
    yield from letters()
    yield from ranges()
    yield from days()
    yield from whole_pairs(draw, count)
    yield from edge_columns(draw, count)
    yield from several(draw, count)
    yield from random_bytes(draw, max(1, count // 10))


# ------------------------------------------------------------------ the program

def find_published(named):
    here = Path(__file__).resolve().parent
    places = [Path(named)] if named else [here / "SGP4-VER.TLE",
                                          here / "vectors" / "SGP4-VER.TLE",
                                          here.parent / "bench" / "vectors" / "SGP4-VER.TLE"]
    for place in places:
        if place.is_file():
            return place
    sys.exit("tle_pairs.py: no SGP4-VER.TLE found; name it with --published")


def read_pairs(data):
    lines = data.split(b"\n")
    if lines[-1] == b"":
        lines.pop()
    return itertools.zip_longest(lines[0::2], lines[1::2], fillvalue=b"")


def main():
    parser = argparse.ArgumentParser(description=__doc__.split("\n")[0])
    parser.add_argument("--write", nargs=2, metavar=("INPUT", "EXPECTED"))
    parser.add_argument("--read", metavar="INPUT")
    parser.add_argument("--published", metavar="FILE")
    parser.add_argument("--seed", type=int, default=58002)
    parser.add_argument("--random", type=int, default=200,
                        help="how many pairs of each random kind (200)")
    options = parser.parse_args()

    if options.read:
        for pair in read_pairs(Path(options.read).read_bytes()):
            print(judge(*pair))
        return
    drawn = list(pairs(find_published(options.published), options.seed, options.random))
    assert not any(b"\n" in line for pair in drawn for line in pair)
    answers = [judge(*pair) for pair in drawn]
    if options.write:
        Path(options.write[0]).write_bytes(b"".join(a + b"\n" + b + b"\n" for a, b in drawn))
        Path(options.write[1]).write_text("".join(answer + "\n" for answer in answers))
    else:
        print(len(drawn), "pairs")
        kinds = Counter(" ".join(a.split()[:2]) for a in answers)
        for kind, total in sorted(kinds.items()):
            print(total, kind)


if __name__ == "__main__":
    main()
