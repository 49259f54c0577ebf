#!/usr/bin/env python3
"""Pairs whose form is judged alone, their fields as whole numbers, and what such numbers mean.

Written from document 01 ("The two lines", "Refusal numbers"), from wishes 1, 3
and 9 of document 02 and from nothing else. A pair's form has refusals 1 to 5, or
yields its fields. Numbers that no accepted form yields are refused with 16, then
the first field out of its range with 6; fewer than 22 numbers with 17.

  field_numbers.py --write INPUT EXPECTED
      writes the pairs, and for each its refusal, or its 22 numbers and what is
      answered for them, for 21 of them, and for all of them with each number in
      turn replaced by each of VALUES.
"""

import argparse
import sys
from pathlib import Path

sys.dont_write_bytecode = True
from tle_pairs import EXAMPLE, catalogue, full_year, judge_line, last_day, line1, line2, put, whole

VALUES = [
    -2**63 + 1, -100000000, -99999999, -100000, -99999, -10, -9, -1, 0, 1, 9, 10,
    32, 48, 64, 65, 67, 83, 84, 85, 90, 91, 97, 321,
    1956, 1957, 2001, 2056, 2057, 9999, 10000, 99999, 100000, 339999, 340000,
    1800000, 1800001, 3599999, 3600000, 9999999, 10000000, 99999999, 100000000,
    36500000000, 36599999999, 36600000000, 36699999999, 36700000000,
    99999999999, 100000000000, 9999999999, 10000000000, 2**32, 2**32 + 5, 2**63 - 2, 2**63 - 1,
]


def form(first, second):
    """The refusal of the form of two lines; None where there is none."""
    for which, line in ((1, first), (2, second)):
        refusal = judge_line(which, line)
        if refusal:
            return refusal
    return None if catalogue(first) == catalogue(second) else "refused 5"


def signed(line, sign, first, last):
    n = whole(line, first, last)
    return -n if line[sign - 1:sign] == b"-" else n


def scaled(line, first):
    """Mantissa and exponent; a zero mantissa has exponent 0."""
    mantissa = signed(line, first, first + 1, first + 5)
    return [mantissa, signed(line, first + 6, first + 7, first + 7) if mantissa else 0]


def designator(line):
    text = line[9:17]
    return [0 if text[:5] == b"     " else int(text[:5]), *text[5:]]


def numbers(first, second):
    """The fields in the order of the printed pair, each in its last decimal place."""
    return [catalogue(first), first[7], *designator(first), full_year(whole(first, 19, 20)), whole(first, 21, 32),
            signed(first, 34, 36, 43), *scaled(first, 45), *scaled(first, 54), whole(first, 63, 63),
            whole(first, 65, 68), whole(second, 9, 16), whole(second, 18, 25), whole(second, 27, 33),
            whole(second, 35, 42), whole(second, 44, 51), whole(second, 53, 63), whole(second, 64, 68)]


def letter(n):
    return 65 <= n <= 90


def yielded(ns):
    """Whether some lawful lines have these fields."""
    (number, kind, launch, a, b, c, year, day, ndot, m1, e1, m2, e2, kept, count,
     inclination, node, eccentricity, perigee, anomaly, motion, revolution) = ns
    blank = launch == 0 and a == b == c == 32
    piece = (0 <= launch <= 99999 and letter(a) and (letter(b) or b == 32)
             and (c == 32 or letter(c) and letter(b)))
    powers = all(abs(m) <= 99999 and abs(e) <= 9 and (m != 0 or e == 0) for m, e in ((m1, e1), (m2, e2)))
    # Z9999 is 339999; two digits of a year; places before and after each point
    places = ((number, 339999), (day, 999_99999999), (kept, 9), (count, 9999), (inclination, 999_9999),
              (node, 999_9999), (eccentricity, 9999999), (perigee, 999_9999), (anomaly, 999_9999),
              (motion, 99_99999999), (revolution, 99999))
    return (kind in b"UCS" if 0 <= kind <= 255 else False) and (blank or piece) and 1957 <= year <= 2056 \
        and abs(ndot) <= 99999999 and powers and all(0 <= n <= most for n, most in places)


def meaning(ns):
    if len(ns) < 22:
        return "refused 17"
    if not yielded(ns):
        return "refused 16"
    if not 1_00000000 <= ns[7] < (last_day(ns[6]) + 1) * 1_00000000:
        return "refused 6 day"
    if ns[15] > 180_0000:
        return "refused 6 inclination"
    for field, at in (("node", 16), ("perigee", 18), ("anomaly", 19)):
        if ns[at] >= 360_0000:
            return f"refused 6 {field}"
    return "ok" if ns[20] else "refused 6 motion"


def pairs():
    yield EXAMPLE
    yield (line1(designator=" " * 8, nddot="-00000+5", bstar="+12345+9", ndot="-.99999999", classification="C"),
           line2(inclination="180.0001"))
    yield (line1(number="Z9999", designator="98067ABC", year="56", day="000.00000000", type="9", set="9999"),
           line2(number="Z9999", node="999.9999", motion=" 0.00000000", revolution="    0"))
    yield (line1(number="A0000", year="57", day="365.99999999", classification="S", designator="00000AB ", bstar="-00001-9"),
           line2(number="A0000", eccentricity="0000000", perigee="360.0000", anomaly="000.0000"))
    # Refusals of the form, some with ranges broken too.
    yield EXAMPLE[0], line2(number="00006", inclination="999.9999")
    yield put(EXAMPLE[0], 1, ord("2")), EXAMPLE[1]
    yield line1(day="000.00000000"), put(EXAMPLE[1], 12, ord(","))
    yield EXAMPLE[0], put(line2(node="400.0000"), 69, ord("0"))


def answers(first, second):
    refusal = form(first, second)
    if refusal:
        return [refusal]
    ns = numbers(first, second)
    changed = [ns[:at] + [value] + ns[at + 1:] for at in range(22) for value in VALUES]
    return [" ".join(map(str, ns)), *map(meaning, [ns, ns[:21], *changed])]


def main():
    parser = argparse.ArgumentParser(description=__doc__.split("\n")[0])
    parser.add_argument("--write", nargs=2, metavar=("INPUT", "EXPECTED"), required=True)
    options = parser.parse_args()
    drawn = list(pairs())
    Path(options.write[0]).write_bytes(b"".join(a + b"\n" + b + b"\n" for a, b in drawn))
    Path(options.write[1]).write_text("".join(line + "\n" for pair in drawn for line in answers(*pair)))


if __name__ == "__main__":
    main()
