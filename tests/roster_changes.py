#!/usr/bin/env python3
"""What changed between two rosters, written from document 02 (wishes 7 and 8) and from nothing else, over the
rosters of roster_calls.py.

  roster_changes.py --write INPUT EXPECTED
      writes steps of two lines each, as rust/tests/stored/changes.rs reads them, and
      for each comparison its answer, the listing, and how many bytes of the room
      stayed.
  roster_changes.py --files FIRST SECOND EXPECTED
      writes two rosters and the listing that what_changed prints of them.
"""

import argparse
import random
import sys
from pathlib import Path

sys.dont_write_bytecode = True
from roster_calls import PLACE, PLACES, SIZE, filled, held, instant, packed, pair, places, spelt, with_row
from tle_pairs import EXAMPLE, Draw, catalogue, line1, line2

# ------------------------------------------------------------------ the listing


def scaled(field):
    """Mantissa and exponent as they are printed; a zero mantissa has exponent 0."""
    mantissa = int(field[1:6]) * (-1 if field[0] == "-" else 1)
    return f"{mantissa} {int(field[6:8]) if mantissa else 0}"


def fields(bytes_of_pair):
    """The printing program's labels in its order, each with its value: a whole number, or what is shown."""
    text = bytes_of_pair.decode()
    one, two = text[:69], text[69:]
    count = lambda s: int(s.replace(".", "").replace(" ", "") or "0")
    sign = -1 if one[33] == "-" else 1
    return [
        ("class", one[7]),
        ("designator", one[9:17].strip() or "-"),
        ("epoch", instant(bytes_of_pair)),
        ("ndot", sign * int(one[35:43])),
        ("nddot", scaled(one[44:52])),
        ("bstar", scaled(one[53:61])),
        ("type", int(one[62])),
        ("set", count(one[64:68])),
        ("inclination", count(two[8:16])),
        ("node", count(two[17:25])),
        ("eccentricity", int(two[26:33])),
        ("perigee", count(two[34:42])),
        ("anomaly", count(two[43:51])),
        ("motion", count(two[52:63])),
        ("revolution", count(two[63:68])),
    ]


def differing(number, a, b):
    for (label, x), (_, y) in zip(fields(a), fields(b)):
        if x != y:
            yield f"{number} {label} " + (f"{y - x}" if isinstance(x, int) else f"{x} {y}")


def listing(first, second):
    """The lines of two rosters given as lists of pairs."""
    one = {catalogue(p): p for p in first}
    two = {catalogue(p): p for p in second}
    lines = []
    for number in sorted(one.keys() | two.keys()):
        if number not in two:
            lines.append("first " + one[number].decode())
        elif number not in one:
            lines.append("second " + two[number].decode())
        else:
            lines += differing(number, one[number], two[number])
    return "".join(line + "\n" for line in lines)


def row(buffer, damaged):
    """The row of a buffer, filled; where it is damaged, its last instant is 1."""
    instants = filled(buffer, [0] * PLACES)[2]
    return instants[:-1] + [1] if damaged else instants


def compared(first, second, room, mark=b""):
    """The answer, and what is written. Each roster has its row; that of the one marked is damaged."""
    pairs = with_row(first, row(first, mark == b"<")), with_row(second, row(second, mark == b">"))
    for which, found in zip(("first", "second"), pairs):
        if found is None:
            return f"refused 22 {which}", ""
    text = listing(*pairs)
    return (f"written {len(text)}", text) if len(text) <= room else ("refused 17", "")


# ------------------------------------------------------------------ the steps


class Steps:
    def __init__(self):
        self.given = b""
        self.expected = ""
        self.calls = 0

    def step(self, one, two=b""):
        assert b"\n" not in one + two
        self.given += one + b"\n" + two + b"\n"

    def load(self, mark, buffer):
        self.step(mark + b"=%d" % len(buffer))
        for i in range(0, len(buffer), PLACE):
            if some := buffer[i:i + PLACE].rstrip(b"\0"):
                self.step(mark + b"@%d" % i, some)

    def rosters(self, first, second):
        self.first, self.second = first, second
        self.load(b"<", first)
        self.load(b">", second)

    def compare(self, room, mark=b""):
        self.step(b"?%d" % room, mark)
        answer, text = compared(self.first, self.second, room, mark)
        self.expected += f"{answer}\n{text}kept {room - len(text)}\n"
        self.calls += 1

    def rooms(self, first, second):
        """Room enough, exactly enough, one byte short, none."""
        self.rosters(first, second)
        _, text = compared(first, second, SIZE * 3)
        for room in sorted({SIZE * 3, len(text) + 1, len(text), max(len(text) - 1, 0), 0}, reverse=True):
            self.compare(room)

    def pairs(self, first, second):
        self.rooms(packed(first), packed(second))


def one(number, **changed):
    return spelt(*pair(number, **changed))


# every field, given two values that differ, in both orders
FIELDS = [
    dict(classification=("U", "S")), dict(designator=("58002B  ", "        ")), dict(designator=("58002B  ", "58002BA ")),
    dict(day=("179.78495062", "179.78495063")), dict(year=("00", "56")),
    dict(ndot=(" .00000023", "-.00000023")), dict(ndot=(" .99999999", "-.99999999")),
    dict(nddot=(" 00000-0", " 12345-9")), dict(nddot=("-99999+9", " 99999+9")), dict(bstar=(" 28098-4", " 28098-5")),
    dict(bstar=(" 28098-4", "-28098-4")), dict(type=("0", "9")), dict(set=(" 475", "   0")), dict(set=("9999", "   0")),
    dict(inclination=(" 34.2682", "180.0000")), dict(node=("359.9999", "  0.0000")), dict(eccentricity=("1859667", "0000000")),
    dict(perigee=("331.7664", "331.7663")), dict(anomaly=("  0.0000", "359.9999")),
    dict(motion=("10.82419157", " 0.00000001")), dict(motion=("99.99999999", " 0.00000001")), dict(revolution=("41366", "    0")),
]


def each_field(steps):
    """Every field differing alone, up and down, across zero and at the ends of its range."""
    for field in FIELDS:
        (name, (x, y)), = field.items()
        a, b = one(5, **{name: x}), one(5, **{name: y})
        steps.rosters(packed([a]), packed([b]))
        steps.compare(100)
        steps.rosters(packed([b]), packed([a]))
        steps.compare(100)


def epochs(steps):
    """Microseconds across a year, a leap day and the whole calendar."""
    dates = [("57", "001.00000000"), ("99", "365.99999999"), ("00", "001.00000000"), ("00", "366.99999999"), ("56", "366.99999999")]
    for before, after in zip(dates, dates[1:] + dates[:1]):
        a, b = (one(123456, year=year, day=day) for year, day in (before, after))
        steps.rosters(packed([a]), packed([b]))
        steps.compare(64)


def some(draw, numbers):
    return [spelt(line1(**draw.fields1(places(n))), line2(**draw.fields2(places(n)))) for n in numbers]


def rosters(steps, draw):
    """None in common, all in common, some; empty ones; equal ones."""
    rng = draw.rng
    few = sorted(rng.sample(range(340000), 6))
    steps.pairs([], [])
    steps.pairs(some(draw, few), [])
    steps.pairs([], some(draw, few))
    same = some(draw, few)
    steps.pairs(same, same)
    steps.pairs(some(draw, few), some(draw, few))
    steps.pairs(some(draw, few[0::2]), some(draw, few[1::2]))
    steps.pairs(some(draw, few[:4]), some(draw, few[2:]))
    steps.pairs(some(draw, few[2:]), some(draw, few[:4]))
    steps.pairs(some(draw, (0, 5, 99999, 100000, 339999)), some(draw, (5, 6, 99999, 339998, 339999)))


def longest(numbers):
    """Each field as long as it can be: 382 bytes for each number of six digits."""
    a = dict(classification="U", designator="99999ABC", year="56", day="366.99999999", ndot=" .99999999", nddot="-99999-9", bstar="-99999-9",
             type="9", set="9999", inclination="180.0000", node="359.9999", eccentricity="9999999", perigee="359.9999", anomaly="359.9999",
             motion="99.99999999", revolution="99999")
    b = dict(classification="S", designator="99999ABD", year="57", day="001.00000000", ndot="-.99999999", nddot="-99998-9", bstar="-99998-9",
             type="0", set="   0", inclination="  0.0000", node="  0.0000", eccentricity="0000000", perigee="  0.0000", anomaly="  0.0000",
             motion=" 0.00000001", revolution="    0")
    return [one(n, **a) for n in numbers], [one(n, **b) for n in numbers]


def full(steps):
    """64 pairs in both, every line as long as it can be: the room that is never too short, and one byte less."""
    first, second = longest(range(100000, 100000 + PLACES))
    assert len(listing(first, second)) == 24448
    steps.rooms(packed(first), packed(second))


def damaged(steps):
    """22 for either, the first looked at first; before 17."""
    whole = packed([one(10), one(20)])
    bad = [b"", whole[:-1], whole + b"\0", bytes(PLACE) + whole[:-PLACE], packed([one(20)]) [:PLACE] + packed([one(10)])[:-PLACE],
           whole[:68] + b"?" + whole[69:], whole[:-1] + b" ", packed([one(10), spelt(*pair(20, year="01", day="366.50000000"))])]
    for buffer in bad:
        assert held(buffer) is None
        for first, second in ((buffer, whole), (whole, buffer), (buffer, buffer)):
            steps.rosters(first, second)
            steps.compare(10)
            steps.compare(0)


def rows(steps):
    """Wish 8: 22 also for a row that is not the roster's, of either; the first is looked at first, both before 17."""
    whole = packed([one(10, year="57", day="001.00000000"), one(20)])
    for first, second in ((whole, whole), (packed([]), whole), (whole[:-1], whole), (whole, whole[:-1])):
        steps.rosters(first, second)
        for mark in (b"<", b">", b""):
            steps.compare(10000, mark)
            steps.compare(0, mark)


def write(given, expected):
    steps = Steps()
    draw = Draw(random.Random(21))
    each_field(steps)
    epochs(steps)
    rosters(steps, draw)
    full(steps)
    damaged(steps)
    rows(steps)
    given.write_bytes(steps.given)
    expected.write_text(steps.expected)
    print(steps.calls, "comparisons,", len(steps.given), "bytes")


def write_files(first, second, expected):
    """Two days of a roster: one pair gone, one new, one with newer elements, one as it was."""
    old = [one(5), one(7, year="26", day="318.50000000"), one(25544, year="26", day="318.25000000"), one(339999)]
    new = [one(5), one(25544, year="26", day="319.31250000", node="348.7101", bstar="-10000-4", set=" 476", revolution="41381"),
           one(30000), one(339999, classification="C", designator="        ")]
    first.write_bytes(packed(old))
    second.write_bytes(packed(new))
    expected.write_text(listing(old, new))


def main():
    parser = argparse.ArgumentParser()
    group = parser.add_mutually_exclusive_group(required=True)
    group.add_argument("--write", nargs=2, type=Path, metavar=("INPUT", "EXPECTED"))
    group.add_argument("--files", nargs=3, type=Path, metavar=("FIRST", "SECOND", "EXPECTED"))
    given = parser.parse_args()
    if given.write:
        write(*given.write)
    else:
        write_files(*given.files)


if __name__ == "__main__":
    main()
