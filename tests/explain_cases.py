#!/usr/bin/env python3
"""A text of pairs, and what `explain` tells of it.

The sentences are those of docs/FIELDS.md. Which refusal a pair has, and at which
column, is what the reader of tle_pairs.py finds; what may stand in a column is
read off the shapes of its field there; whether a pair opens, and to what, is
worked out from document 002's first steps, as in report_texts.py.

  explain_cases.py --program INPUT EXPECTED
      writes the text that explain is run on, and what it prints.
  explain_cases.py --explain
      prints what is told of standard input.
"""

import argparse
import sys
from datetime import datetime, timedelta
from pathlib import Path

sys.dont_write_bytecode = True
from report_texts import DEEP, LAST, LOW, NEAR, OPPOSITE, RADIUS, REFUSED, kind, lines_of, pair, recovered
from tle_pairs import LAYOUT, checksum, full_year, judge, line1, put, whole

ROOM = 4096     # a longer line is not held
SHOWN = 80      # columns of a line that are shown

# ------------------------------------------------------------------ lines and bytes

def visible(text):
    return "".join(chr(b) if 32 <= b <= 126 else "?" for b in text)


def shown(line):
    return "    " + visible(line[:SHOWN]) + "\n"


def marked(line, first, last):
    return shown(line) + "    " + " " * (first - 1) + "^" * (last - first + 1) + "\n"


def named(byte):
    if byte == 32:
        return "a blank"
    return f"'{chr(byte)}'" if 32 < byte <= 126 else f"byte {byte}"


PHRASES = {
    "_": "a blank", ".": "a point", "1": "a 1", "2": "a 2", "d": "a digit", "s": "a blank, + or -",
    "e": "+ or -", "U": "U, C or S", "N": "a digit, or a letter A-Z but I and O,",
}


def allowed(which, column):
    """What the shapes of the column's field have at its place."""
    first = max((c for c in LAYOUT[which] if c <= column), default=1)
    shapes = LAYOUT[which][first]
    if column >= first + len(shapes[0]):
        return PHRASES["_"]         # between two fields
    places = {shape[column - first] for shape in shapes}
    if len(places) == 1:
        return PHRASES[places.pop()]
    if column == first:
        return "a blank or a digit"
    if which == 1 and first == 10:  # the designator
        if column < 15:
            return "a digit, or after a blank a blank,"
        return "a letter A-Z, or after a blank a blank," if column == 15 else "a blank, or after another byte a letter A-Z,"
    return "a digit, or a blank after a blank,"


# ------------------------------------------------------------------ a pair

FIELDS = {
    "day": (1, 21, 32, "it may be 1.00000000 to 365.99999999, in a leap year to 366.99999999."),
    "inclination": (2, 9, 16, "it may be 0.0000 to 180.0000 degrees."),
    "node": (2, 18, 25, "it may be 0.0000 to 359.9999 degrees."),
    "perigee": (2, 35, 42, "it may be 0.0000 to 359.9999 degrees."),
    "anomaly": (2, 44, 51, "it may be 0.0000 to 359.9999 degrees."),
    "motion": (2, 53, 63, "it must be above 0.00000000 revolutions a day."),
}


def column_fault(number, which, line, column):
    return (f"refusal {number}: in column {column} of line {which} stands {named(line[column - 1])} "
            f"where only {allowed(which, column)} may stand.\n" + marked(line, column, column))


def length_fault(which, line):
    end = ", the last a carriage return (its text ends lines with CR LF)" if line[-1:] == b"\r" else ""
    column = min(len(line), 69) + 1
    return f"refusal 1: line {which} has {len(line)} bytes where 69 are due{end}.\n" + marked(line, column, column)


def checksum_fault(which, line):
    digits = sum(int(chr(b)) for b in line[:68] if chr(b).isdigit())
    return (f"refusal 4: in column 69 of line {which} stands {named(line[68])} where the checksum {checksum(line)} is due: "
            f"the digits of columns 1 to 68 add up to {digits} and the minus signs to {line[:68].count(b'-')}.\n"
            + marked(line, 69, 69))


def range_fault(field, lines):
    which, first, last, limits = FIELDS[field]
    line = lines[which - 1]
    return (f"refusal 6: in columns {first} to {last} of line {which} the {field} is {visible(line[first - 1:last])}; {limits}\n"
            + marked(line, first, last))


def resonance(two):
    """002's dsinit: a day's and half a day's resonance, by the recovered motion in radians a minute."""
    motion, _ = recovered(two)
    if 0.0034906585 < motion < 0.0052359877:
        return ", one-day resonance"
    if 8.26e-3 <= motion <= 9.24e-3 and int(two[26:33]) >= 5000000:
        return ", half-day resonance"
    return ""


def depth(two):
    """How far below the ground the perigee lies, to the nearest tenth: no pair here lies near a half."""
    _, axis = recovered(two)
    km = (1 - axis * (1 - int(two[26:33]) / 1e7)) * RADIUS
    assert abs(km * 10 % 1 - 0.5) > 1e-6
    return f"{km:.1f}"


def date_of(one):
    """The epoch's date and time of day: one of the day's last digit is 864 microseconds."""
    start = datetime(full_year(int(one[18:20])), 1, 1)
    return start + timedelta(int(one[20:23]) - 1, microseconds=int(one[24:32]) * 864)


def opened(one, two):
    if kind(two) == "unopened":
        if two[8:16] == b"180.0000":
            return "refusal 8: opening it gives a number that is not finite.\n"
        return f"refusal 7: at the epoch the perigee lies {depth(two)} km below the ground.\n"
    first = "0123456789ABCDEFGHJKLMNPQRSTUVWXYZ".index(chr(one[2]))
    seconds = 86400 * 10 ** 8 // whole(two, 53, 63)
    sort = "near Earth" if kind(two) == "near" else "deep space" + resonance(two)
    return (f"well: satellite {first * 10000 + int(one[3:7])}, epoch {date_of(one):%Y-%m-%d %H:%M:%S.%f} (day {one[20:32].decode()}), "
            f"period {seconds // 60} min {seconds % 60} s, {sort}.\n")


def explained(one, two):
    answer = judge(one, two).split()
    if answer == ["ok"]:
        return opened(one, two)
    number = int(answer[1])
    if number == 5:
        return (f"refusal 5: columns 3 to 7 have {visible(one[2:7])} in line 1 and {visible(two[2:7])} in line 2.\n"
                + marked(one, 3, 7) + marked(two, 3, 7))
    if number == 6:
        return range_fault(answer[2], (one, two))
    which = int(answer[2])
    line = (one, two)[which - 1]
    if number == 1:
        return length_fault(which, line)
    if number == 4:
        return checksum_fault(which, line)
    return column_fault(number, which, line, 1 if number == 2 else int(answer[3]))


# ------------------------------------------------------------------ a text

def walk(text):
    """The pairs of a text, each with the numbers of its lines, and what is said of lines in none."""
    waits = None

    def alone():
        return f"line {waits[0]} is a line 1 without a line 2 after it:\n" + shown(waits[1])

    for number, line in enumerate(lines_of(text), 1):
        if len(line) > ROOM:
            yield f"line {number} is too long to be held; it begins:\n" + shown(line)
        elif not line.strip(b" \t\r"):
            yield f"line {number} is blank.\n"
        elif line[:2] == b"1 " or line[:2] != b"2 " and len(line) == 69 and not waits:
            if waits:
                yield alone()
            waits = number, line
        elif waits:
            yield waits[0], number, waits[1], line
            waits = None
        elif line[:2] == b"2 ":
            yield f"line {number} is a line 2 without a line 1 before it:\n" + shown(line)
        else:
            yield f"line {number} is no line of a pair and is taken for a name:\n" + shown(line)
    if waits:
        yield alone()


def explain(text):
    told, pairs, well = [], 0, 0
    for step in walk(text):
        if isinstance(step, tuple):
            first, second, one, two = step
            sentence = explained(one, two)
            step = f"lines {first} and {second}: {sentence}"
            pairs, well = pairs + 1, well + sentence.startswith("well")
        told.append(step)
    return "".join(told) + f"lines {len(lines_of(text))}, pairs {pairs}, well {well}\n"


def texts():
    """Every sentence, and every phrase for a column of either line."""
    stationary = pair("24208", inclination="  3.8536", eccentricity="0026640", motion=" 0.99272667", year="06", day="177.04061740")
    slow = pair("04632", inclination=" 11.4628", eccentricity="1450506", motion=" 1.20231981", year="04", day="031.91070959")
    out = [b"VANGUARD 1", *NEAR, b"", b"0 MOLNIYA 2-14", *DEEP, *stationary, *slow, *LAST, *LOW, *OPPOSITE]
    for lines in REFUSED.values():
        out += lines
    for column in range(1, 70):
        out += [put(NEAR[0], column, ord("x")), NEAR[1], NEAR[0], put(NEAR[1], column, ord("x"))]
    for field, text in (("inclination", "190.0000"), ("node", "360.0000"), ("perigee", "999.9999"), ("anomaly", "400.0000"),
                        ("motion", " 0.00000000")):
        out += pair(**{field: text})
    out += [*pair(year="01", day="366.50000000"), *pair(day="000.99999999")]
    out += [line1(bstar="-28098-4")[:68] + b"0", NEAR[1], put(NEAR[0], 25, 9), NEAR[1], NEAR[0], put(NEAR[1], 20, 0xc3)]
    out += [NEAR[0] + b"\r", NEAR[1] + b"\r", b"\r", b" \t", b"DELTA\r", NEAR[0], b"", NEAR[1]]
    out += [NEAR[0], NEAR[0], NEAR[1], NEAR[1], b"1 ", b"2 ", b"1", b"x" * 69, NEAR[1], b"x" * 70, b"y" * 4096, b"z" * 4097, *NEAR]
    out += [NEAR[0], b"q" * 5000, NEAR[1], NEAR[0] + b"0" * 40, NEAR[1], NEAR[0]]
    return b"\n".join(out)


def main():
    parser = argparse.ArgumentParser(description=__doc__, formatter_class=argparse.RawDescriptionHelpFormatter)
    parser.add_argument("--program", nargs=2, type=Path)
    parser.add_argument("--explain", action="store_true")
    asked = parser.parse_args()
    if asked.explain:
        sys.stdout.write(explain(sys.stdin.buffer.read()))
        return
    text = texts()
    if asked.program:
        asked.program[0].write_bytes(text)
        asked.program[1].write_text(explain(text), encoding="ascii")
    else:
        print(len(lines_of(text)), "lines")


if __name__ == "__main__":
    main()
