#!/usr/bin/env python3
"""Texts of pairs, and the Monday report of each.

A report of its own, written from document 02 (wish 4), over the reader of
tle_pairs.py. Whether a pair is near-Earth or deep space, and whether it opens, is
worked out here from document 002's first steps (recovered mean motion, period,
perigee) and document 01's refusals 7 and 8; every pair that is used lies far from
these limits.

  report_texts.py --write INPUT EXPECTED
      writes texts in steps, and their reports. A step is a line `list SIZE TIMES PIECE`
      and SIZE bytes behind the newline: these bytes come TIMES times, each time in
      pieces of PIECE bytes, the last one shorter. Any other line ends a text.
  report_texts.py --hold PROGRAM
      runs monday_report on each of these texts, in these pieces; the last line is
      'N passed, M failed'.
  report_texts.py --program INPUT EXPECTED
      writes the text that monday_report is run on, and its report.
  report_texts.py --report
      prints the report of standard input.
"""

import argparse
import fcntl
import math
import os
import struct
import subprocess
import sys
import termios
from datetime import date, timedelta
from pathlib import Path

sys.dont_write_bytecode = True
from tle_pairs import EXAMPLE, catalogue, full_year, judge, line1, line2, put, summed

MOST = 4096

# ------------------------------------------------------------------ opening

# WGS-72, document 01
RADIUS, MU, J2 = 6378.135, 398600.8, 0.001082616
KE = 60 / math.sqrt(RADIUS ** 3 / MU)


def recovered(two):
    """Mean motion in radians a minute and semi-major axis in Earth radii, recovered."""
    motion = float(two[52:63]) * 2 * math.pi / 1440
    cosine = math.cos(math.radians(float(two[8:16])))
    eccentricity = int(two[26:33]) / 1e7
    beta = 1 - eccentricity ** 2
    axis = (KE / motion) ** (2 / 3)
    step = 0.75 * J2 * (3 * cosine ** 2 - 1) / (math.sqrt(beta) * beta)
    delta = step / axis ** 2
    other = axis * (1 - delta ** 2 - delta * (1 / 3 + 134 * delta ** 2 / 81))
    motion /= 1 + step / other ** 2
    return motion, (KE / motion) ** (2 / 3)


def kind(two):
    """near, deep or unopened, of an accepted pair."""
    motion, axis = recovered(two)
    perigee = axis * (1 - int(two[26:33]) / 1e7)
    period = 2 * math.pi / motion
    assert abs(perigee - 1) > 1e-6 and abs(period - 225) > 1e-6
    if perigee < 1:
        return "unopened"       # 7
    if two[8:16].strip() == b"180.0000":
        return "unopened"       # 8: sin i / (1 + cos i) is 0 / 0
    return "deep" if period >= 225 else "near"


# ------------------------------------------------------------------ the report

def epoch(one):
    """Year, day of the year, microseconds of the day; and the instant."""
    year, day, part = full_year(int(one[18:20])), int(one[20:23]), int(one[24:32]) * 864
    days = (date(year, 1, 1) + timedelta(day - 1) - date(1957, 1, 1)).days
    return days * 86_400_000_000 + part, (year, day, part)


def lines_of(text):
    lines = text.split(b"\n")
    return lines if lines[-1] else lines[:-1]


def report(text):
    lines = lines_of(text)
    if len(lines) // 2 > MOST:
        return "refused 23\n"
    if len(lines) % 2:
        return "refused 24\n"
    counts = dict.fromkeys(["accepted", *(f"refused {n}" for n in range(1, 7)), "near", "deep", "unopened"], 0)
    epochs = []
    for one, two in zip(lines[::2], lines[1::2]):
        answer = judge(one, two)
        if answer != "ok":
            counts[answer[:len("refused 1")]] += 1
            continue
        counts["accepted"] += 1
        counts[kind(two)] += 1
        epochs.append(epoch(one))
    shown = [f"{heading} {count}" for heading, count in counts.items()]
    if epochs:
        (first, earliest), (last, latest) = min(epochs), max(epochs)
        shown += ["earliest %d %d %d" % earliest, "latest %d %d %d" % latest, f"span {last - first}"]
    else:
        shown += ["earliest -", "latest -", "span -"]
    return "".join(line + "\n" for line in shown)


# ------------------------------------------------------------------ the pairs

def pair(number="00005", **fields):
    names = ("inclination", "node", "eccentricity", "perigee", "anomaly", "motion", "revolution")
    second = {name: fields.pop(name) for name in names if name in fields}
    return line1(number=number, **fields), line2(number=number, **second)


NEAR = EXAMPLE
DEEP = pair("08195", inclination=" 64.1586", eccentricity="6877146", motion=" 2.00491383", year="06", day="176.33215444")
LOW = pair("16609", eccentricity="9000000", year="99", day="001.00000000")       # refusal 7
OPPOSITE = pair("00180", inclination="180.0000", year="99", day="365.99999999")  # refusal 8
FIRST = pair("00057", year="57", day="001.00000000")
LAST = pair("Z9999", year="56", day="366.99999999", eccentricity="0000001", motion="15.00000000")

REFUSED = {
    1: (NEAR[0][:68], NEAR[1]),
    2: (NEAR[1], NEAR[1]),
    3: (NEAR[0], put(NEAR[1], 12, ord(","))),
    4: (NEAR[0], put(NEAR[1], 69, ord("8"))),
    5: (line1(number="00006"), NEAR[1]),
    6: pair(inclination="180.0001"),
}


def joined(*pairs):
    return b"".join(one + b"\n" + two + b"\n" for one, two in pairs)


def mixed():
    """Every heading, epochs neither rising nor falling."""
    return joined(DEEP, REFUSED[1], LOW, REFUSED[2], LAST, REFUSED[3], FIRST, REFUSED[4], NEAR,
                  REFUSED[5], OPPOSITE, REFUSED[6], DEEP, REFUSED[5])


# ------------------------------------------------------------------ the texts

class Texts:
    def __init__(self):
        self.given = b""
        self.expected = ""
        self.cases = []

    def text(self, name, *steps):
        """A text of steps: bytes, or bytes, how often they come, and the size of the pieces."""
        whole = b""
        steps = [step if isinstance(step, tuple) else (step, 1, 0) for step in steps]
        for bytes_, times, piece in steps:
            self.given += b"list %d %d %d\n" % (len(bytes_), times, piece) + bytes_
            whole += bytes_ * times
        self.given += name.encode() + b"\n"
        self.expected += report(whole)
        self.cases.append((name, steps, report(whole)))


def texts():
    t = Texts()
    near = joined(NEAR)
    t.text("empty")
    t.text("one byte", b"1")
    t.text("one newline", b"\n")
    t.text("two newlines", b"\n\n")
    t.text("one NUL byte", b"\0")
    t.text("a line and an empty one", NEAR[0] + b"\n\n")
    t.text("a pair", near)
    t.text("a pair, no last newline", near[:-1])
    t.text("a pair and one byte", near + b"x")
    t.text("a pair and a newline", near + b"\n")
    t.text("a pair with carriage returns", near.replace(b"\n", b"\r\n"))
    t.text("a pair, no last newline but a carriage return", near[:-1] + b"\r")
    t.text("NUL bytes in a pair", near.replace(b" ", b"\0"))
    for number, lines in REFUSED.items():
        t.text(f"refusal {number}", joined(lines))
    for name, lines in [("near", NEAR), ("deep", DEEP), ("refusal 7", LOW), ("refusal 8", OPPOSITE),
                        ("the first instant", FIRST), ("the last day", LAST)]:
        t.text(name, joined(lines))
    t.text("the widest span", joined(LAST, FIRST))
    t.text("the latest first", joined(DEEP, NEAR, FIRST))
    t.text("the latest in the middle", joined(NEAR, LAST, FIRST, DEEP))
    t.text("two epochs of one instant", joined(NEAR, NEAR))
    t.text("every heading", mixed())
    for piece in (1, 2, 3, 69, 70, 71, 139, 140, 141, 1000):
        t.text(f"every heading, in pieces of {piece}", (mixed(), 1, piece))
    t.text("every heading, no last newline, byte by byte", (mixed()[:-1], 1, 1))
    for size in (68, 69, 70, 71, 72):
        t.text(f"lines of {size} bytes", (b"1" * size + b"\n", 2, 1))
    t.text("lines of a million bytes", (b"2" * 1000, 1000, 0), b"\n", (b"\0" * 1000, 1000, 7), b"\n", near)
    t.text("a pair behind the 70 bytes that are kept", NEAR[0] + NEAR[0] + b"\n" + NEAR[1] + NEAR[1] + b"\n")
    t.text("4,096 pairs", (near, MOST, 0))
    t.text("4,096 pairs, no last newline", (near, MOST - 1, 0), near[:-1])
    t.text("4,096 pairs of six kinds", (joined(NEAR, DEEP, LOW, OPPOSITE, FIRST, REFUSED[3], LAST, REFUSED[1]), 512, 0))
    t.text("8,193 lines", (near, MOST, 0), NEAR[0] + b"\n")
    t.text("8,193 lines, the last one byte", (near, MOST, 0), b"1")
    t.text("4,097 pairs, 8,194 lines", (near, MOST + 1, 0))
    t.text("4,097 pairs, no last newline", (near, MOST, 0), near[:-1])
    t.text("8,195 lines", (near, MOST + 1, 0), NEAR[0] + b"\n")
    t.text("4,096 empty pairs", (b"\n", 2 * MOST, 0))
    t.text("8,193 empty lines", (b"\n", 2 * MOST + 1, 0))
    t.text("65,536 empty lines", (b"\n", 65536, 0))
    t.text("65,537 empty lines", (b"\n", 65536, 0), b"\n")
    return t


# ------------------------------------------------------------------ the program

def unread(pipe):
    return struct.unpack("i", fcntl.ioctl(pipe, termios.FIONREAD, b"\0" * 4))[0]


def feed(run, steps):
    """Where a step has a size of pieces, each is written once the one before it has been read; without one the step is
    written whole."""
    for bytes_, times, piece in steps:
        if not piece:
            run.stdin.write(bytes_ * times)
            continue
        for at in list(range(0, len(bytes_), piece)) * times:
            while unread(run.stdin) and run.poll() is None:
                os.sched_yield()
            run.stdin.write(bytes_[at:at + piece])
        while unread(run.stdin) and run.poll() is None:
            os.sched_yield()


def hold(program):
    failed = 0
    cases = texts().cases
    for name, steps, expected in cases:
        run = subprocess.Popen([program], stdin=subprocess.PIPE, stdout=subprocess.PIPE, bufsize=0)
        try:
            feed(run, steps)
        except BrokenPipeError:
            pass
        if run.communicate()[0].decode() != expected:
            failed += 1
            print(f"monday_report, {name}: FAILED")
    print(f"{len(cases) - failed} passed, {failed} failed")
    return failed > 0


def main():
    words = argparse.ArgumentParser(description=__doc__, formatter_class=argparse.RawDescriptionHelpFormatter)
    words.add_argument("--write", nargs=2, metavar=("INPUT", "EXPECTED"))
    words.add_argument("--hold", metavar="PROGRAM")
    words.add_argument("--program", nargs=2, metavar=("INPUT", "EXPECTED"))
    words.add_argument("--report", action="store_true")
    words = words.parse_args()
    if words.write:
        made = texts()
        Path(words.write[0]).write_bytes(made.given)
        Path(words.write[1]).write_text(made.expected)
    if words.hold:
        sys.exit(hold(words.hold))
    if words.program:
        Path(words.program[0]).write_bytes(mixed()[:-1])
        Path(words.program[1]).write_text(report(mixed()[:-1]))
    if words.report:
        sys.stdout.write(report(sys.stdin.buffer.read()))


if __name__ == "__main__":
    main()
