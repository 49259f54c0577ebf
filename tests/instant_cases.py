#!/usr/bin/env python3
"""Prints test cases for the arithmetic on instants, one per line.

Written from document 01 (headings "Instants" and "Numbers the model rests on"),
from wishes 3 and 12 of document 02 (the last day of a year, two moves) and from routine gstime of
document 002, and from nothing else: the calendar is
Python's own, every number is a whole number or a fraction, and each f64
operation is the exact result rounded once by Python's int / int.

A line is the name of an operation, its arguments and its results, separated by
one blank. Every number has 16 lower-case hexadecimal digits: signed 64-bit
numbers in two's complement, f64 numbers as their bit patterns.

  epoch YEAR DAY8 OK INSTANT      YEAR and the day of the year in 10^-8 days
                                  (January 1, 0h is 100000000); OK is 1 where
                                  the year is 1957-2056 and has the day,
                                  otherwise 0, with INSTANT 0
  split INSTANT YEAR DAY MICROS   calendar year, day of the year from 1,
                                  microseconds of that day; zeros for an
                                  instant outside 1957-2056
  move INSTANT SPAN REFUSAL NEW   refusal 9, then 6; NEW is 0 when refused
  twice INSTANT FIRST SECOND NEW  moved by one span and then by another; where a
                                  move is refused NEW is its refusal's number with a
                                  minus sign
  back INSTANT SPAN REFUSAL NEW   moved by a span and then by as much the other way
  since INSTANT EPOCH REFUSAL MICROS
                                  INSTANT less EPOCH; refusal 6, with MICROS 0,
                                  where either is outside 1957-2056
  minutes MICROS F64              MICROS / 60,000,000 rounded once
  days INSTANT REFUSAL F64        days since 1949 December 31, 0h
  jd INSTANT REFUSAL F64          Julian date
  gst INSTANT REFUSAL F64         Greenwich angle, 0 to two pi

The last three have refusal 6, and 0 for the number, where the instant is outside
1957-2056.

`minutes` goes over all of i64. Past 2^53, where a count is no longer an f64, it
has cases in which a count rounded first and then divided gives another number.

The output is the same on every run. `--seed N` draws other random cases.
"""

import argparse
import math
import random
import struct
from datetime import date
from fractions import Fraction

FIRST_YEAR, LAST_YEAR = 1957, 2056
DAY = 86_400_000_000                # microseconds
LAST_DIGIT = 864                    # microseconds in 10^-8 day
ONE_DAY8 = 100_000_000              # a day in 10^-8 days
SPAN_LIMIT = 3652 * DAY


def days_before(year):
    """Days from 1957 January 1 to January 1 of the year."""
    return date(year, 1, 1).toordinal() - date(FIRST_YEAR, 1, 1).toordinal()


def days_in(year):
    return days_before(year + 1) - days_before(year)


END = days_before(LAST_YEAR + 1) * DAY


# ---------------------------------------------------------------- operations

def epoch(year, day8):
    if not FIRST_YEAR <= year <= LAST_YEAR:
        return 0, 0
    if not ONE_DAY8 <= day8 < (days_in(year) + 1) * ONE_DAY8:
        return 0, 0
    return 1, days_before(year) * DAY + (day8 - ONE_DAY8) * LAST_DIGIT


def inside(instant):
    return 0 <= instant < END


def split(instant):
    if not inside(instant):
        return 0, 0, 0
    whole, micros = divmod(instant, DAY)
    day = date.fromordinal(date(FIRST_YEAR, 1, 1).toordinal() + whole)
    return day.year, day.timetuple().tm_yday, micros


def move(instant, span):
    if abs(span) > SPAN_LIMIT:
        return 9, 0
    if not (inside(instant) and inside(instant + span)):
        return 6, 0
    return 0, instant + span


def twice(instant, first, second):
    for span in (first, second):
        refusal, instant = move(instant, span)
        if refusal:
            return -refusal
    return instant


def back(instant, span):
    refusal, there = move(instant, span)
    return move(there, -span) if refusal == 0 else (refusal, 0)


def since(instant, epoch):
    if not (inside(instant) and inside(epoch)):
        return 6, 0
    return 0, instant - epoch


# f64 numbers are fractions here; each operation rounds its exact result once.

def rounded(exact):
    exact = Fraction(exact)
    return Fraction(exact.numerator / exact.denominator)


def add(a, b):
    return rounded(a + b)


def mul(a, b):
    return rounded(a * b)


def div(a, b):
    return rounded(Fraction(a) / Fraction(b))


def remainder(a, b):
    """The exact remainder, with the sign of a."""
    return a - b * math.trunc(a / b)


def literal(text):
    return rounded(Fraction(text))


PI = Fraction(math.pi)
TWO_PI = mul(2, PI)
DEG2RAD = div(PI, 180)


def minutes(micros):
    return rounded(Fraction(micros, 60_000_000))


def epoch_days(instant):
    return add(rounded(Fraction(instant, DAY)), 2558)


def julian_date(instant):
    return add(epoch_days(instant), literal("2433281.5"))


def greenwich(instant):
    t = div(add(julian_date(instant), -2451545), 36525)
    cubic = mul(mul(mul(literal("-6.2e-6"), t), t), t)
    square = mul(mul(literal("0.093104"), t), t)
    rate = add(mul(876600, 3600), literal("8640184.812866"))
    seconds = add(add(add(cubic, square), mul(rate, t)), literal("67310.54841"))
    angle = remainder(div(mul(seconds, DEG2RAD), 240), TWO_PI)
    return add(angle, TWO_PI) if angle < 0 else angle


# --------------------------------------------------------------------- cases

def number(n):
    return format(n & (2**64 - 1), "016x")


def bits(x):
    return format(struct.unpack("<Q", struct.pack("<d", float(x)))[0], "016x")


def leap(year):
    return days_in(year) == 366


def epoch_cases(rng):
    for year in range(FIRST_YEAR, LAST_YEAR + 1):
        yield year, ONE_DAY8
        for last in (365, 366):                         # that of this year, and of others
            yield year, (last + 1) * ONE_DAY8 - 1
            yield year, (last + 1) * ONE_DAY8
        yield year, 59 * ONE_DAY8                       # February 28
        yield year, 60 * ONE_DAY8                       # February 29 or March 1
    for year in (1957, 1960, 2000, 2055, 2056):
        for day8 in (0, 1, ONE_DAY8 - 1, ONE_DAY8 + 1, 366 * ONE_DAY8 + 1, 366 * ONE_DAY8 + ONE_DAY8 // 2,
                     367 * ONE_DAY8 + 1, 999 * ONE_DAY8, 2**32, 2**63 - 1, 2**63, 2**64 - 1):
            yield year, day8
    for year in (0, 1, 56, 57, 99, 1956, 2057, 2**16 + 1957, 2**32 + 1957,
                 2**63 - 1, 2**63, 2**64 - 1):
        yield year, ONE_DAY8
        yield year, 179_78495062
    yield 2000, 179_78495062                            # the example of 002
    for _ in range(60):
        yield rng.randint(FIRST_YEAR, LAST_YEAR), rng.randrange(ONE_DAY8, 367 * ONE_DAY8)
    for _ in range(20):
        yield rng.getrandbits(64), rng.getrandbits(64)


OUTSIDE = (END, END + 1, END + DAY, 2**53, 2**62, 2**63 - 1, 2**63, 2**64 - 1)


def inside_cases(rng):
    """Instants inside the calendar."""
    yield from (0, 1, DAY - 1, DAY, END - 1, END - DAY, END - DAY - 1)
    for year in range(FIRST_YEAR, LAST_YEAR + 1):
        yield days_before(year) * DAY
        yield days_before(year + 1) * DAY - 1
        if leap(year):
            yield (days_before(year) + 59) * DAY        # February 29
            yield (days_before(year) + 60) * DAY        # March 1
    yield epoch(2000, 179_78495062)[1]
    for _ in range(60):
        yield rng.randrange(END)


def move_cases(rng):
    limit = SPAN_LIMIT
    extreme = (2**63 - 1, -2**63, -2**63 + 1, 2**62, limit + 1, -limit - 1)
    spans = (0, 1, -1, DAY, -DAY, limit - 1, limit, 1 - limit, -limit) + extreme
    middle = epoch(2000, 179_78495062)[1]
    instants = (0, 1, limit - 1, limit, limit + 1, middle,
                END - limit - 1, END - limit, END - limit + 1, END - 2, END - 1,
                END, END + 1, 2**63 - 1, 2**63, 2**64 - 1)
    for instant in instants:
        for span in spans:
            yield instant, span
    for instant in (5 * DAY, middle):
        for target in (-1, 0, 1, END - 1, END, END + 1):
            yield instant, target - instant
    for target in (-1, 0, 1, END - 1, END, END + 1):    # to and across both ends
        for _ in range(4):
            span = rng.randint(1, limit)
            if target > 1:
                yield target - span, span
            else:
                yield target + span, -span
    for _ in range(60):
        yield rng.randrange(END), rng.randint(-limit, limit)
    for _ in range(20):
        yield rng.randrange(END), rng.getrandbits(64) - 2**63


def twice_cases(rng):
    limit = SPAN_LIMIT
    spans = (0, 1, -1, DAY, -DAY, limit, -limit, limit + 1, -limit - 1, 2**63 - 1, -2**63)
    instants = (0, 1, DAY, limit, limit + 1, END // 2, END - limit, END - 1, END, 2**64 - 1)
    for instant in instants:
        for first in spans:
            for second in spans:
                yield instant, first, second
    for _ in range(200):                                # each span and their sum in range, the middle at an end
        instant, middle = rng.randrange(limit), rng.choice((0, -1, 1))
        yield instant, middle - instant, rng.randrange(limit)
        yield END - 1 - instant, instant + middle, -rng.randrange(limit)
    for _ in range(200):
        yield rng.randrange(END), rng.randint(-limit, limit), rng.randint(-limit, limit)


def since_cases(rng):
    middle = epoch(2000, 179_78495062)[1]
    ends = (0, 1, middle, SPAN_LIMIT, SPAN_LIMIT + 1, END - 2, END - 1) + OUTSIDE
    for instant in ends:
        for start in ends:
            yield instant, start
    for _ in range(60):
        yield rng.randrange(END), rng.randrange(END)


def minutes_cases(rng):
    yield from (0, 1, -1, 59_999_999, 60_000_000, 60_000_001, -60_000_000,
                SPAN_LIMIT, -SPAN_LIMIT, SPAN_LIMIT + 1, -SPAN_LIMIT - 1,
                43_200_000_000, -43_200_000_000, 1440 * 60_000_000,
                2**53, -2**53, 2**53 - 1, 2**63 - 1, -2**63)
    for _ in range(60):
        yield rng.randint(-SPAN_LIMIT, SPAN_LIMIT)
    for _ in range(60):
        size = rng.randint(1, 63)
        yield rng.randint(-2**size, 2**size - 1)
    found = 0
    while found < 40:                                   # rounding twice would show
        micros = rng.randint(-2**63, 2**63 - 1) >> rng.randint(0, 9)
        if float(micros) / 60e6 != micros / 60_000_000:
            found += 1
            yield micros


def angle_cases(rng):
    yield from (0, 1, DAY - 1, DAY, END - 1, END - DAY)
    for year in range(FIRST_YEAR, LAST_YEAR + 1, 3):
        yield days_before(year) * DAY
    noon_2000 = days_before(2000) * DAY + DAY // 2      # T is zero here
    yield from (noon_2000 - 1, noon_2000, noon_2000 + 1)
    yield epoch(2000, 179_78495062)[1]
    for _ in range(80):
        yield rng.randrange(END)


def cases(seed):
    rng = random.Random(seed)
    for year, day8 in epoch_cases(rng):
        ok, instant = epoch(year, day8)
        yield "epoch", [number(year), number(day8), number(ok), number(instant)]
    for instant in (*inside_cases(rng), *OUTSIDE):
        yield "split", [number(n) for n in (instant, *split(instant))]
    for instant, span in move_cases(rng):
        yield "move", [number(n) for n in (instant, span, *move(instant, span))]
    for micros in minutes_cases(rng):
        yield "minutes", [number(micros), bits(minutes(micros))]
    for instant in (*angle_cases(rng), *OUTSIDE):
        for name, of in (("days", epoch_days), ("jd", julian_date), ("gst", greenwich)):
            answer = [number(0), bits(of(instant))] if inside(instant) else [number(6), number(0)]
            yield name, [number(instant), *answer]
    for instant, first, second in twice_cases(rng):
        yield "twice", [number(n) for n in (instant, first, second, twice(instant, first, second))]
        yield "back", [number(n) for n in (instant, first, *back(instant, first))]
    for instant, start in since_cases(rng):
        yield "since", [number(n) for n in (instant, start, *since(instant, start))]


def main():
    parser = argparse.ArgumentParser(description=__doc__.split("\n")[0])
    parser.add_argument("--seed", type=int, default=1957)
    seed = parser.parse_args().seed
    for operation, numbers in cases(seed):
        print(operation, *numbers)


if __name__ == "__main__":
    main()
