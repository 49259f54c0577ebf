#!/usr/bin/env python3
"""What ephemeris reads, and the lines that it has to print.

Written from the program's description. Rows are those of bench/vectors/published-rows.txt,
bit for bit; a bit pattern becomes a decimal by Python's decimal, exactly and then rounded
once to even, an instant a date by datetime.

  ephemeris_cases.py --write INPUT EXPECTED
      writes what the program is run on, and what it prints.
  ephemeris_cases.py --cases FOLDER
      writes many cases: NAME.in, NAME.out and NAME.err, standard error.
  ephemeris_cases.py
      tells what the cases have met.
"""

import re
import struct
import sys
from collections import Counter
from datetime import datetime, timedelta
from decimal import Context, Decimal, ROUND_HALF_EVEN
from pathlib import Path

sys.dont_write_bytecode = True
import case_files
from published_rows import pairs
from tle_pairs import judge

ROOT = Path(__file__).resolve().parent.parent
STRIDE = 43_200_000_000             # microseconds
FARTHEST = 3652 * 86_400_000_000
FIRST, END = datetime(1957, 1, 1), datetime(2057, 1, 1)
EXACT = Context(prec=1200)
LINE = 65536                        # bytes of a line that are held
TIMES = 1100                        # of one line

sys.set_int_max_str_digits(0)
met = Counter()
FOUND = pairs((ROOT / "bench/vectors/published-rows.txt").read_text())

# ------------------------------------------------------------------ cells

def fixed(pattern, places):
    """An f64 as a decimal, rounded once; zero has no sign."""
    value = Decimal(struct.unpack(">d", bytes.fromhex(pattern))[0])
    rounded = value.quantize(Decimal(1).scaleb(-places), ROUND_HALF_EVEN, EXACT)
    met["below zero" if rounded < 0 else "above zero" if rounded else "zero"] += 1
    return f"{abs(rounded) if not rounded else rounded:f}"


def dated(instant):
    return instant.strftime("%Y-%m-%d %H:%M:%S.%f") if FIRST <= instant < END else "- -"


def epoch_of(line1):
    year = int(line1[18:20])
    units = int(line1[20:23]) * 10 ** 8 + int(line1[24:32])
    return datetime(year + (1900 if year >= 57 else 2000), 1, 1) + timedelta(microseconds=(units - 10 ** 8) * 864)


# ------------------------------------------------------------------ a satellite

class Satellite:
    """A published pair: its rows by their times, and the saved position of a resonant one."""

    def __init__(self, pair, rows):
        self.epoch = epoch_of(pair[0])
        self.rows = {int(time): row.split()[1:8] for time, row, _ in rows}
        self.resonant = any(int(strides) for _, _, strides in rows)
        self.side, self.at = 1, 0

    def taken(self, time):
        """Strides: onward from the saved position, or from the epoch again."""
        if not self.resonant:
            return 0
        side, need = (1 if time >= 0 else -1), abs(time) // STRIDE
        if side != self.side or need < self.at:
            self.at = 0
        steps, self.side, self.at = need - self.at, side, need
        return steps

    def line(self, time, when, comma):
        refusal, values, strides = "9", [], 0
        if abs(time) <= FARTHEST:
            refusal, *values = self.rows[time]
            strides = self.taken(time)
        met["refused with " + refusal if refusal != "0" else "rows"] += 1
        cells = ["-"] * 6
        if refusal == "0":
            cells = [fixed(value, 6 if i < 3 else 9) for i, value in enumerate(values)]
        return (", "[not comma]).join([when, refusal, *cells, str(strides)])

    def after(self, time):
        """The date of a time; none beyond 3,652 days."""
        return dated(self.epoch + timedelta(microseconds=time)) if abs(time) <= FARTHEST else "- -"


for pair, _, rows in FOUND:         # the rule of the strides gives the published ones
    satellite = Satellite(pair, rows) if rows else None
    for time, row, strides in rows:
        assert satellite.taken(int(time)) == int(strides), (pair, time)

# ------------------------------------------------------------------ a line

SECONDS = r"(\d{1,9}(?:\.\d{1,6})?)"


def micros(text):
    return int(Decimal(text).scaleb(6))


def instant_of(year, day, time):
    if not 1957 <= year <= 2056 or time >= 86_400_000_000 or not 1 <= day <= (366 if year % 4 == 0 else 365):
        return None
    return datetime(year, 1, 1) + timedelta(days=day - 1, microseconds=time)


def asked(line, satellite):
    """The times of a line, each with its date, or what is wrong with it."""
    if re.fullmatch(r"one -?\d+|list(?: -?\d+)*", line, re.ASCII):
        times = [int(word) for word in line.split()[1:]]
        if len(times) > TIMES:
            return "too many times in a line"
        return [(time, satellite.after(time)) for time in times]
    if line.startswith("grid "):
        grid = re.fullmatch(f"grid (-?){SECONDS} {SECONDS} (\\d+)", line, re.ASCII)
        if not grid or not 0 < micros(grid[3]) <= 86_400_000_000 or not 1 <= int(grid[4]) <= 10 ** 7:
            return "no grid START STEP COUNT in seconds"
        start = micros(grid[2]) * (-1 if grid[1] else 1)
        times = [start + i * micros(grid[3]) for i in range(int(grid[4]))]
        return [(time, satellite.after(time)) for time in times]
    if line.startswith("at "):
        words = re.fullmatch(r"at (\d+) (\d+) (\d+)", line, re.ASCII)
        instant = words and instant_of(*map(int, words.groups()))
        if not instant:
            return "no instant YEAR DAY MICROSECONDS"
        span = instant - satellite.epoch
        return [((span.days * 86400 + span.seconds) * 10 ** 6 + span.microseconds, dated(instant))]
    return "no request"


def split(text):
    """Lines; the last counts without a newline if it has a byte, and one that is too long is empty."""
    lines = text.split(b"\n")
    if not lines[-1]:
        lines.pop()
    return [line.decode("latin-1") if len(line) <= LINE else "" for line in lines]


def answer(text):
    """What is printed, and what is said."""
    lines, number = split(text), 0
    comma = lines[:1] == ["commas"]
    number += comma
    pair = (lines[number:number + 2] + ["", ""])[:2]
    number += 2
    known = [(refusals, rows) for lines_, refusals, rows in FOUND if lines_ == pair]
    if not known:
        refusal = judge(*(line.encode("latin-1") for line in pair))
        assert refusal != "ok", pair
        return f"refused {refusal.split()[1]}\n", ""
    refusals = known[0][0]
    if refusals:
        return refusals[0] + "\n", ""
    satellite = Satellite(pair, [row for _, rows in known for row in rows])     # a pair may stand there twice
    names = ["date time", "refusal", "x_km", "y_km", "z_km", "vx_km_s", "vy_km_s", "vz_km_s", "strides"]
    printed, said = [(", "[not comma]).join(names)], []
    for number, line in enumerate(lines[number:], number + 1):
        times = asked(line, satellite)
        met[times if isinstance(times, str) else line.split()[0]] += 1
        if isinstance(times, str):
            said.append(f"line {number}: {times}")
        else:
            printed += [satellite.line(time, when, comma) for time, when in times]
    met["commas" if comma else "blanks"] += 1
    return "".join(line + "\n" for line in printed), "".join(line + "\n" for line in said)


# ------------------------------------------------------------------ the cases

def of(number):
    return next((pair, [int(time) for time, _, _ in rows]) for pair, _, rows in FOUND if pair[0][2:7] == number)


def text(*lines):
    return "".join(line + "\n" for line in lines).encode("latin-1")


def at(pair, time):
    span = epoch_of(pair[0]) + timedelta(microseconds=time)
    start = datetime(span.year, 1, 1)
    day = (span - start).days
    return f"at {span.year} {day + 1} {(span - start - timedelta(days=day)) // timedelta(microseconds=1)}"


def seconds(time):
    return f"{Decimal(time).scaleb(-6):f}"


def equal_steps(times):
    return len(times) > 2 and len({b - a for a, b in zip(times, times[1:])}) == 1 and 0 < times[1] - times[0] <= 86_400_000_000


def published():
    for place, (pair, refusals, rows) in enumerate(FOUND, 1):
        times, name = [int(time) for time, _, _ in rows], f"pair {place}"
        if refusals:
            yield name, text(*pair, "one 0")
            continue
        for commas in ([], ["commas"]):
            yield f"{name} one by one {commas}", text(*commas, *pair, *(f"one {time}" for time in times))
        yield f"{name} as a list", text(*pair, "list" + "".join(f" {time}" for time in times))
        yield f"{name} by instants", text(*pair, *(at(pair, time) for time in times))
        yield f"{name} backward", text(*pair, *(f"one {time}" for time in reversed(times)))
        if equal_steps(times):
            yield f"{name} as a grid", text(*pair, f"grid {seconds(times[0])} {seconds(times[1] - times[0])} {len(times)}")


def main_case():
    pair, times = of("09880")
    one = STRIDE
    return text(*pair, "one 0", f"list {one} {2 * one} 0", "grid 0 43200 3", "grid 43200.000000 43200 2", at(pair, one), "at 2026 321 43200000000",
                f"one -{FARTHEST + 1}", f"list {3 * one} {FARTHEST + 1} {one}", "list")


def far():
    pair, times = of("00005")
    yield "both ends", text(*pair, f"one {FARTHEST + 1}", f"one -{FARTHEST + 1}", "one 0", "one 999999999999999999", "one -9999999999999999999999")
    yield "a grid from far before", text(*pair, "grid -999999999.999999 86400 2", "grid 999999999.999999 0.000001 3")
    yield "instants far away", text(*pair, "at 1957 1 0", "at 2056 366 86399999999", "at 2010 179 67819733568", at(pair, 0))
    yield "many rows of one time", text(*pair, "list" + " 0" * 1100, "list" + " 0" * 1101, "list" + " 0" * 500)
    yield "rows that fill the room", text(*pair, *["list" + " 0" * 1000] * 3)


def bad():
    pair, times = of("00005")
    for line in ("", " ", "one", "one 0 0", "one  0", "one +5", "list ", "list 0 x", "ones 0", "One 0", " one 0", "one 0 ", "one 0\r", "commas", "rows",
                 "grid", "grid ", "grid 0", "grid 0 60", "grid 0 60 ", "grid 0 60 10 5", "grid 0  60 10", "grid 0 0 10", "grid 0 0.000000 10", "grid 0 -60 10",
                 "grid 0 60 0", "grid 0 60 10000001", "grid 0 86400.000001 1", "grid 0 86401 1", "grid 1000000000 60 1", "grid 0.0000001 60 1",
                 "grid 0. 60 1", "grid .5 60 1", "grid - 60 1", "grid --1 60 1", "grid +1 60 1", "grid 0 1e3 1", "grid 0 60 1.0", "grid 0 60 -1", "grid 0 60 1\r",
                 "grid 0 60 " + "9" * 30, "gridded 0 60 1", "at", "at ", "at 2000", "at 2000 179", "at 2000 179 0 0", "at 2000  179 0", "at 1956 1 0", "at 2057 1 0",
                 "at 2001 366 0", "at 2000 367 0", "at 2000 0 0", "at 2000 179 86400000000", "at 2000 179 -1", "at 2000 179 0.5", "at 00 179 0",
                 "at 2000 179 " + "9" * 30, "one 0\xff", "one\t0", "one 0\0"):
        yield f"a bad line {line!r}", text(*pair, "one 0", line, "one 21600000000")
    yield "a line too long", text(*pair, "one 0", "one " + "0" * 65533, "one 0")
    yield "a line as long as may be", text(*pair, "one " + "0" * 65532)
    yield "many bad lines", text("commas", *pair, "x", "one 0", "", "grid", "at")


def shapes():
    pair, times = of("00005")
    whole = text(*pair, "one 0", "one 21600000000")
    yield "no last newline", whole[:-1]
    yield "nothing", b""
    yield "a newline", b"\n"
    yield "the word alone", b"commas\n"
    yield "one line", text(pair[0])
    yield "one line behind the word", text("commas", pair[0])
    yield "a pair alone", text(*pair)
    yield "a pair alone, commas", text("commas", *pair)[:-1]
    yield "the word twice", text("commas", "commas", *pair)
    yield "the word behind the pair", text(*pair, "commas", "one 0")
    yield "another word", text("Commas", *pair)
    yield "carriage returns", whole.replace(b"\n", b"\r\n")
    yield "the lines the other way round", text(pair[1], pair[0], "one 0")
    yield "a byte changed", whole.replace(b"58002B", b"58003B")
    yield "a longer line 1", text(pair[0] + " ", pair[1], "one 0")
    yield "leading zeros", text(*pair, "one 000", "grid 000 021600 0003", "grid -0 21600.0 2", "at 02000 0179 0067819733568")


GROUPS = [published, far, bad, shapes]


def cases():
    found = [case for group in GROUPS for case in group()]
    assert len({name for name, _ in found}) == len(found)
    return found


WANTED = ["rows", "refused with 9", "one", "list", "grid", "at", "commas", "blanks", "below zero", "above zero", "no request",
          "no grid START STEP COUNT in seconds", "no instant YEAR DAY MICROSECONDS", "too many times in a line"]


if __name__ == "__main__":
    case_files.main(sys.modules[__name__])
