#!/usr/bin/env python3
"""Inputs of the program that prints a pair, and what it has to print of each.

Written from document 01 ("One pair, printed", "The two lines"), from wishes 1
and 3 of document 02 and from nothing else; which pairs are refused, and how, and what a
catalogue number with a letter is, are the reader's of tle_pairs.py.

  print_cases.py --write INPUT EXPECTED
      writes each input as one line, `|` for a newline and `~` for a carriage
      return, and for each what is printed, after a line `case N`.
  print_cases.py --hold PROGRAM
      runs the program on each input, at once and byte by byte; the last line is
      'N passed, M failed'.
  print_cases.py
      prints how many cases there are.
"""

import argparse
import subprocess
import sys
from pathlib import Path

sys.dont_write_bytecode = True
from tle_pairs import EXAMPLE, LAST_DAYS, LENGTH, LETTERED, catalogue, full_year, judge, line1, line2, put, whole

ONE, TWO = EXAMPLE


# ------------------------------------------------------------------ the text

def signed(line, first, last):
    """A sign and digits: a whole number in the last place."""
    size = whole(line, first + 1, last)
    return -size if line[first - 1:first] == b"-" else size


def exponential(line, first):
    """Sign, five digits, sign of the exponent, one digit; a zero has exponent 0."""
    mantissa = signed(line, first, first + 5)
    return f"{mantissa} {signed(line, first + 6, first + 7) if mantissa else 0}"


def fields(one, two):
    year = full_year(whole(one, 19, 20))
    day, units = whole(one, 21, 23), whole(one, 25, 32)
    yield "number", catalogue(one)
    yield "class", one[7:8].decode()
    yield "designator", one[9:17].decode().strip() or "-"
    yield "epoch", f"{year} {day} {units * 864}"
    yield "ndot", signed(one, 34, 43)
    yield "nddot", exponential(one, 45)
    yield "bstar", exponential(one, 54)
    yield "type", whole(one, 63, 63)
    yield "set", whole(one, 65, 68)
    yield "inclination", whole(two, 9, 16)
    yield "node", whole(two, 18, 25)
    yield "eccentricity", whole(two, 27, 33)
    yield "perigee", whole(two, 35, 42)
    yield "anomaly", whole(two, 44, 51)
    yield "motion", whole(two, 53, 63)
    yield "revolution", whole(two, 64, 68)


def printed(text):
    """Two lines, each ended by a newline or the end of input; a missing one has
    0 bytes, and later input is ignored."""
    one, two = (text.split(b"\n") + [b""])[:2]
    answer = judge(one, two).split()
    if answer[0] == "refused":
        return f"refused {answer[1]}\n"
    return "".join(f"{name} {value}\n" for name, value in fields(one, two))


# ------------------------------------------------------------------ the cases

def pair(one=ONE, two=TWO):
    return one + b"\n" + two + b"\n"


def inputs():
    yield pair() + b"a third line\n"
    yield pair()[:-1]
    # Designators, signs, years, leading blanks and zeros.
    yield pair(line1(designator=" " * 8))
    yield pair(line1(classification="C", designator="58002ABC", ndot="-.00000023",
                     nddot="-12345+9", bstar="-28098-4", type="9"))
    yield pair(line1(classification="S", designator="00067AB ", ndot="+.99999999",
                     nddot="+00000-5", bstar="+00001+0"))
    yield pair(line1(year="57", day="001.00000000"))
    yield pair(line1(year="56", day="366.99999999"))
    yield pair(line1(set="   0"),
               line2(inclination="  0.0000", node="359.9999", eccentricity="0000000",
                     perigee="000.0001", anomaly="  9.9999", motion=" 0.00000001",
                     revolution="    0"))
    yield pair(two=line2(inclination="180.0000"))
    # Lengths, missing lines, carriage returns.
    yield pair(ONE[:-1])
    yield pair(two=TWO + b" ")
    yield pair(ONE + b"\r", TWO + b"\r")
    yield ONE + b"\n"
    yield b""
    yield b"\n" + pair()
    yield pair(ONE * 4)
    # Column 1, the layout, the checksum, the numbers.
    yield pair(TWO, ONE)
    yield pair(two=put(TWO, 1, ord("1")))
    yield pair(two=put(TWO, 12, ord(",")))
    yield pair(two=TWO[:8] + b"3 4" + TWO[11:])
    yield pair(put(ONE, 15, ord("b")))
    yield pair(put(ONE, LENGTH, ord("4")))
    yield pair(two=put(TWO, LENGTH, ord("0")))
    yield pair(put(line1(ndot="+.00000023"), LENGTH, ord("4")))
    yield pair(two=line2(number="00006"))
    # Letters in catalogue numbers: the ends of each row of them, what is no first place, numbers that differ.
    for number in ["99999"] + LETTERED:
        yield pair(line1(number=number), line2(number=number))
    for byte in "IOaioz ":
        yield pair(put(ONE, 3, ord(byte)))
        yield pair(two=put(TWO, 3, ord(byte)))
    yield pair(put(ONE, 4, ord("A")))
    yield pair(line1(number="A0000"), line2(number="00000"))
    yield pair(line1(number="H9999"), line2(number="J0000"))
    yield pair(put(line1(number="A0000"), LENGTH, ord("9")), line2(number="A0000"))
    # Ranges.
    yield pair(line1(day="000.99999999"))
    for year in ("57", "99", "00", "01", "56"):
        for day in LAST_DAYS + ["366.50000000"]:
            yield pair(line1(year=year, day=day))
    for field, text in (("inclination", "180.0001"), ("node", "360.0000"), ("perigee", "360.0000"),
                        ("anomaly", "360.0000"), ("motion", " 0.00000000")):
        yield pair(two=line2(**{field: text}))
    # Which of two faults counts.
    yield pair(put(ONE, LENGTH, ord("4")), b"2")
    yield pair(two=line2(number="00006", inclination="180.0001"))


# ------------------------------------------------------------------ the program

def output(program, pieces):
    """What the program prints of an input in these pieces. It may end before it has read them all."""
    run = subprocess.Popen([program], stdin=subprocess.PIPE, stdout=subprocess.PIPE, bufsize=0)
    try:
        for piece in pieces:
            run.stdin.write(piece)
    except BrokenPipeError:
        pass
    run.stdin.close()
    text = run.stdout.read()
    run.wait()
    return text


def hold(program, cases):
    failed = 0
    for n, case in enumerate(cases, 1):
        expected = printed(case).encode()
        for pieces in ([case], [case[i:i + 1] for i in range(len(case))]):
            if output(program, pieces) != expected:
                failed += 1
                print(f"print_pair, case {n} in {len(pieces)} pieces: FAILED")
    print(f"{2 * len(cases) - failed} passed, {failed} failed")
    return failed > 0


def main():
    parser = argparse.ArgumentParser(description=__doc__.split("\n")[0])
    parser.add_argument("--write", nargs=2, metavar=("INPUT", "EXPECTED"))
    parser.add_argument("--hold", metavar="PROGRAM")
    options = parser.parse_args()
    cases = list(inputs())
    assert not any(mark in case for case in cases for mark in b"|~")
    if options.write:
        lines = (case.replace(b"\n", b"|").replace(b"\r", b"~") + b"\n" for case in cases)
        texts = (f"case {n}\n{printed(case)}" for n, case in enumerate(cases, 1))
        Path(options.write[0]).write_bytes(b"".join(lines))
        Path(options.write[1]).write_text("".join(texts))
    elif options.hold:
        sys.exit(hold(options.hold, cases))
    else:
        print(len(cases), "cases")


if __name__ == "__main__":
    main()
