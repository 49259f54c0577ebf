#!/usr/bin/env python3
"""Calls on a roster and the row of instants beside it, and all of both after each.

A roster of its own, written from document 02 (wishes 2, 3 and 8) and from nothing else,
over the reader of tle_pairs.py and the spelling of written_lines.py.

  roster_calls.py --write INPUT EXPECTED
      writes steps of two lines each, as rust/tests/stored/roster.rs reads them, and
      for each call its answer and the buffer afterwards: by places of 138 bytes, a
      zero as `~`, what is not printable as `\\` and two hexadecimal digits, and
      then how many zeros are left; then the row's instants, and how many zeros
      are left of it.
"""

import argparse
import random
import sys
from datetime import date
from pathlib import Path

sys.dont_write_bytecode = True
from tle_pairs import EXAMPLE, FIRST_PLACES, Draw, catalogue, judge, line1, line2, put, summed
from written_lines import first, second

PLACE = 138
PLACES = 64
SIZE = PLACE * PLACES
EMPTY = bytes(SIZE)

# ------------------------------------------------------------------ the roster


def spelt(one, two):
    """The pair as we write it."""
    return (first(one.decode()) + second(two.decode())).encode()


def instant(pair):
    """The epoch in microseconds from 1957 January 1, 0h."""
    year = int(pair[18:20])
    year += 1900 if year >= 57 else 2000
    days = (date(year, 1, 1) - date(1957, 1, 1)).days
    return days * 86_400_000_000 + (int(pair[20:23] + pair[24:32]) - 100_000_000) * 864


def held(buffer):
    """The pairs of a roster; None where the buffer is none."""
    if len(buffer) != SIZE:
        return None
    used = -(-len(buffer.rstrip(b"\0")) // PLACE)
    pairs = [buffer[i * PLACE:(i + 1) * PLACE] for i in range(used)]
    for pair in pairs:
        one, two = pair[:69], pair[69:]
        if judge(one, two) != "ok" or spelt(one, two) != pair:
            return None
    numbers = [catalogue(pair) for pair in pairs]
    return pairs if all(a < b for a, b in zip(numbers, numbers[1:])) else None


def packed(pairs):
    return b"".join(sorted(pairs, key=catalogue)).ljust(SIZE, b"\0")


def row_of(pairs):
    """The row beside a roster: the instant of each pair, and 0 past the last."""
    return [instant(pair) for pair in pairs] + [0] * (PLACES - len(pairs))


def with_row(buffer, row):
    """The pairs of a roster whose row this is."""
    pairs = held(buffer)
    return pairs if pairs is not None and row == row_of(pairs) else None


def both(pairs):
    pairs = sorted(pairs, key=catalogue)
    return packed(pairs), row_of(pairs)


def lodged(buffer, row, one, two):
    answer = judge(one, two)
    if answer != "ok":
        return answer, buffer, row
    pairs = with_row(buffer, row)
    if pairs is None:
        return "refused 22", buffer, row
    new = spelt(one, two)
    others = [pair for pair in pairs if catalogue(pair) != catalogue(new)]
    if any(instant(new) < instant(pair) for pair in pairs if pair not in others):
        return "refused 20", buffer, row
    if len(others) == PLACES:
        return "refused 19", buffer, row
    return "ok", *both(others + [new])


def withdrawn(buffer, row, number):
    pairs = with_row(buffer, row)
    if pairs is None:
        return "refused 22", buffer, row
    others = [pair for pair in pairs if catalogue(pair) != number]
    return ("ok", *both(others)) if len(others) < len(pairs) else ("refused 21", buffer, row)


def filled(buffer, row):
    pairs = held(buffer)
    if pairs is None or len(row) != PLACES:
        return "refused 22", buffer, row
    return "ok", buffer, row_of(pairs)


# ------------------------------------------------------------------ the steps


def shown(place):
    def byte(b):
        if b == 0:
            return "~"
        return chr(b) if 32 <= b <= 125 and b != 92 else f"\\{b:02x}"
    return "".join(byte(b) for b in place)


class Steps:
    """What is given, what is expected, and the buffer and the row so far."""

    def __init__(self):
        self.given = b""
        self.expected = ""
        self.buffer = EMPTY
        self.row = [0] * PLACES

    def step(self, one, two=b""):
        assert b"\n" not in one + two
        self.given += one + b"\n" + two + b"\n"

    def tell(self, answer, buffer, row):
        self.buffer, self.row = buffer, row
        used = -(-len(buffer.rstrip(b"\0")) // PLACE)
        places = [buffer[i * PLACE:(i + 1) * PLACE] for i in range(used)]
        zeros = len(buffer) - sum(map(len, places))
        before = max((i + 1 for i, t in enumerate(row) if t), default=0)
        instants = [f"instant {t}" for t in row[:before]]
        lines = [answer, *map(shown, places), f"zeros {zeros}", *instants, f"after {len(row) - before}"]
        self.expected += "".join(f"{line}\n" for line in lines)

    def length(self, size):
        self.step(b"=%d" % size)
        self.buffer = bytes(size)
        self.row = [0] * PLACES

    def put(self, at, some):
        for i in range(0, len(some), 69):
            part = some[i:i + 69]
            self.step(b"@%d" % (at + i), part)
            self.buffer = self.buffer[:at + i] + part + self.buffer[at + i + len(part):]

    def load(self, buffer):
        """A buffer that no call made, kept without a row."""
        self.length(len(buffer))
        self.put(0, buffer.rstrip(b"\0"))

    def set(self, place, instant):
        """An instant that no call put into the row."""
        self.step(b"#%d" % place, b"%d" % instant)
        self.row = self.row[:place] + [instant] + self.row[place + 1:]

    def cut(self, width):
        """A row of another length: the first places of a longer one whose others are 0."""
        self.step(b"*%d" % width)
        self.row = (self.row + [0] * width)[:width]

    def lodge(self, one, two):
        assert one[:1] not in (b"=", b"@", b"#", b"*", b"+", b"-")
        self.step(one, two)
        self.tell(*lodged(self.buffer, self.row, one, two))

    def withdraw(self, number):
        self.step(b"-%d" % number)
        self.tell(*withdrawn(self.buffer, self.row, number))

    def fill(self):
        self.step(b"+")
        self.tell(*filled(self.buffer, self.row))


def places(number):
    """The five places of a catalogue number."""
    return [*FIRST_PLACES][number // 10000] + "%04d" % (number % 10000)


def pair(number, year="00", day="179.78495062", **fields):
    at = places(number)
    names = ("inclination", "node", "eccentricity", "perigee", "anomaly", "motion", "revolution")
    second_line = {name: fields.pop(name) for name in names if name in fields}
    return line1(number=at, year=year, day=day, **fields), line2(number=at, **second_line)


# The example of document 01 spelt in other ways than ours, and of the same record.
OTHER = (summed("1 00005U 58002B   00179.78495062 +.00000023 +00000+0 +28098-4 0 0475"),
         summed("2 00005 034.2682 348.7242 1859667 331.7664 019.3264 10.8241915741366"))


def one_number(steps):
    """Lodged, replaced by equal and later epochs, refused for an older, withdrawn."""
    steps.length(SIZE)
    steps.withdraw(5)
    steps.lodge(*EXAMPLE)
    steps.lodge(*OTHER)
    steps.lodge(*pair(5, set=" 476", node="  0.0000"))
    steps.lodge(*pair(5, day="179.78495061"))
    steps.lodge(*pair(5, day="179.78495063", bstar="-00000+0"))
    steps.lodge(*EXAMPLE)
    steps.lodge(*pair(5, year="99", day="365.99999999"))
    steps.lodge(*pair(5, year="01", day="001.00000000"))
    for number in (4, 6, 0, 99999, 100000, 5 + 2 ** 32, 2 ** 64 - 1):
        steps.withdraw(number)
    steps.withdraw(5)
    steps.withdraw(5)
    steps.lodge(*EXAMPLE)


def instants(steps):
    """Epochs are compared as instants: the last of a year is older than January 1 of the next."""
    steps.length(SIZE)
    steps.lodge(*pair(7, year="57", day="365.99999999"))
    steps.lodge(*pair(7, year="58", day="001.00000000"))
    steps.lodge(*pair(7, year="58", day="001.00000000", type="1"))
    steps.lodge(*pair(7, year="57", day="365.99999999"))
    steps.lodge(*pair(7, year="99", day="100.00000000"))
    steps.lodge(*pair(7, year="00", day="366.99999999"))
    steps.lodge(*pair(7, year="56", day="366.99999999"))
    steps.lodge(*pair(7, year="57", day="001.00000000"))


def order(steps, draw):
    """Numbers in any order, taken out at the front, in between and at the end."""
    steps.length(SIZE)
    for number in (500, 20, 99999, 0, 300, 180000, 21, 339999, 100000, 19, 179999):
        at = places(number)
        steps.lodge(line1(**draw.fields1(at)), line2(**draw.fields2(at)))
    for number in (0, 300, 22, 99999, 20, 340000, 180000, 339999):
        steps.withdraw(number)
    steps.lodge(*pair(300, year="56"))
    for number in (19, 21, 300, 100000, 500, 179999, 500):
        steps.withdraw(number)


def refusals_of_reading(steps):
    """1 to 6 come first, also where the buffer is no roster."""
    unread = [
        (EXAMPLE[0][:68], EXAMPLE[1]), (EXAMPLE[0], EXAMPLE[1] + b" "), (b"", b""),
        (EXAMPLE[1], EXAMPLE[0]), (EXAMPLE[0], put(EXAMPLE[1], 12, ord(","))),
        (EXAMPLE[0], put(EXAMPLE[1], 69, ord("0"))), (EXAMPLE[0], line2(number="00006")),
        pair(5, day="000.99999999"), pair(5, year="01", day="366.50000000"), pair(5, inclination="180.0001"), pair(5, node="360.0000"),
        pair(5, perigee="360.0000"), pair(5, anomaly="360.0000"), pair(5, motion=" 0.00000000"),
    ]
    for buffer in (packed([spelt(*EXAMPLE)]), b"?" + bytes(SIZE - 1), bytes(SIZE - 1)):
        steps.load(buffer)
        steps.fill()
        for one, two in unread:
            steps.lodge(one, two)
        steps.lodge(*EXAMPLE)


def full(steps, draw):
    """64 places: another number is 19, one that is there is replaced or older, and room is made."""
    numbers = sorted(draw.rng.sample(range(1, 339999), PLACES))
    pairs = [spelt(*pair(number, year="06", day="%03d.00000000" % (i + 1))) for i, number in enumerate(numbers)]
    steps.load(packed(pairs))
    steps.lodge(*pair(numbers[0], year="07"))
    steps.fill()
    steps.lodge(*pair(0))
    steps.lodge(*pair(339999, year="56"))
    steps.lodge(*pair(numbers[0], year="07"))
    steps.lodge(*pair(numbers[63], year="05"))
    steps.lodge(*pair(numbers[63], year="08"))
    steps.withdraw(numbers[31])
    steps.lodge(*pair(0))
    steps.lodge(*pair(99999))
    steps.withdraw(numbers[63])
    steps.lodge(*pair(99999))
    steps.withdraw(numbers[1])


def damaged(steps):
    """22 for every buffer that is no roster; what stands there stays."""
    three = [spelt(*pair(number, year="06")) for number in (10, 20, 30)]
    whole = packed(three)

    def with_bytes(at, some):
        return whole[:at] + some + whole[at + len(some):]

    # Stored before wish 3: day 366 of a common year. 2004 and 2000 are leap years.
    late = [spelt(*pair(20, year=year, day="366.50000000")) for year in ("01", "06", "55")]
    for year in ("00", "04"):
        assert held(packed([three[0], spelt(*pair(20, year=year, day="366.50000000")), three[2]]))

    mended = summed(three[1][:8] + b"C" + three[1][9:68])
    buffers = [
        b"", b"\0", whole[:-1], whole + b"\0", whole[:3 * PLACE], bytes(SIZE - PLACE), bytes(SIZE + PLACE),
        with_bytes(3 * PLACE, b" "), with_bytes(SIZE - 1, b" "), with_bytes(SIZE - 1, b"\1"),
        with_bytes(3 * PLACE - 1, b"\0"), with_bytes(2 * PLACE + 68, b"\0"), with_bytes(0, b"\0"),
        packed([]) [:PLACE] + packed(three[1:])[:SIZE - PLACE],
        three[0] + bytes(PLACE) + three[1] + three[2] + bytes(SIZE - 4 * PLACE),
        b"".join([three[0], three[2], three[1]]).ljust(SIZE, b"\0"),
        b"".join([three[1], three[0], three[2]]).ljust(SIZE, b"\0"),
        b"".join([three[0], three[0], three[1]]).ljust(SIZE, b"\0"),
        b"".join([three[0], spelt(*pair(10, year="07"))]).ljust(SIZE, b"\0"),
        b"".join(OTHER).ljust(SIZE, b"\0"), (EXAMPLE[0] + OTHER[1]).ljust(SIZE, b"\0"),
        (OTHER[0] + EXAMPLE[1]).ljust(SIZE, b"\0"),
        with_bytes(PLACE + 68, b"?"), with_bytes(PLACE, mended), with_bytes(PLACE + 69, three[0][69:]),
        whole[69:] + bytes(69), three[0][:69].ljust(SIZE, b"\0"),
        *[packed([three[0], pair, three[2]]) for pair in late], packed([late[0]]),
    ]
    for buffer in buffers:
        assert held(buffer) is None, buffer
        steps.load(buffer)
        steps.lodge(*pair(20, year="07"))
        steps.withdraw(20)
        steps.fill()
    steps.load(whole)
    steps.fill()
    steps.withdraw(20)


def rows(steps):
    """Wish 8: 22 for a row that is not the roster's, which stays; one that is filled, whatever it held."""
    three = [spelt(*pair(number, year="06", day=day)) for number, day in ((10, "001.00000000"), (20, "300.50000000"), (30, "100.25000000"))]
    right = row_of(three)
    changed = [{0: right[0] + 1}, {1: right[1] - 1}, {2: 0}, {0: right[1], 1: right[0]}, {3: 1}, {63: 1}, {63: 2 ** 64 - 1}, {0: 2 ** 64 - 1},
               {1: right[1] + 864}, {i: 0 for i in range(3)}, {0: 0, 1: right[0], 2: right[1], 3: right[2]}]
    steps.load(packed(three))
    steps.fill()
    for change in changed:
        for place, value in change.items():
            steps.set(place, value)
        steps.lodge(*pair(20, year="07"))
        steps.withdraw(10)
        steps.fill()
    # other lengths, the fitting ones in front
    for width in (63, 65, 0, 3, 1, 70):
        steps.cut(width)
        steps.lodge(*pair(20, year="07"))
        steps.withdraw(20)
        steps.fill()
        steps.cut(PLACES)
        steps.fill()
    steps.withdraw(10)
    steps.withdraw(30)
    # a row of anything, filled for an empty roster and for one of 64
    steps.length(SIZE)
    for place in range(0, PLACES, 7):
        steps.set(place, 10 ** 15 + place)
    steps.withdraw(5)
    steps.fill()
    steps.withdraw(5)


def instant_zero(steps):
    """1957 January 1, 0h is the instant 0: its place is no empty one, in front, in between and at the end."""
    zero = dict(year="57", day="001.00000000")
    steps.length(SIZE)
    steps.lodge(*pair(20, **zero))
    steps.lodge(*pair(10, year="06"))
    steps.lodge(*pair(30, **zero))
    steps.lodge(*pair(5, **zero))
    steps.lodge(*pair(10, **zero))
    steps.lodge(*pair(20, type="1", **zero))
    steps.lodge(*pair(30, year="57", day="001.00000001"))
    steps.lodge(*pair(30, **zero))
    steps.fill()
    for number in (5, 10, 7, 30, 20, 20):
        steps.withdraw(number)
    # kept without a row: all zeros are its own
    steps.load(packed([spelt(*pair(number, **zero)) for number in (1, 2)]))
    steps.withdraw(1)
    steps.lodge(*pair(3))
    steps.set(0, 1)
    steps.withdraw(2)


def main():
    parser = argparse.ArgumentParser()
    parser.add_argument("--write", nargs=2, type=Path, metavar=("INPUT", "EXPECTED"), required=True)
    given, expected = parser.parse_args().write
    steps = Steps()
    draw = Draw(random.Random(8832))
    one_number(steps)
    instants(steps)
    order(steps, draw)
    refusals_of_reading(steps)
    full(steps, draw)
    damaged(steps)
    rows(steps)
    instant_zero(steps)
    given.write_bytes(steps.given)
    expected.write_text(steps.expected)


if __name__ == "__main__":
    main()
