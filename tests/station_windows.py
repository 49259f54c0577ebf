#!/usr/bin/env python3
"""What station_windows reads, and the windows that it has to print.

Written from document 02 (wish 10), document 01 and the program's description.
Positions come from near_earth.py, or are the published ones; the Greenwich angle
is worked out in whole fractions, and the frame turned by complex numbers. These
have digits of their own, so that every sample has to be 0.01 km above or below the
station's horizon, or the maker stops.

  station_windows.py --write INPUT EXPECTED
      writes what the program is run on, and what it prints.
  station_windows.py --cases FOLDER
      writes many cases: NAME.in, NAME.out and NAME.err, standard error.
  station_windows.py
      tells what the cases have met.
"""

import cmath
import math
import re
import sys
from collections import Counter
from datetime import date, timedelta
from fractions import Fraction
from itertools import groupby

sys.dont_write_bytecode = True
import case_files
from near_earth import Near, published
from report_texts import LOW, OPPOSITE, REFUSED, epoch, kind, pair, recovered
from tle_pairs import judge

DAY = 86_400_000_000                # microseconds
END = 36525 * DAY                   # 2057 January 1, 0h
FARTHEST = 3652 * DAY
STRIDE = DAY // 2
CLEAR = 0.01                        # km

met = Counter()

# ------------------------------------------------------------------ the sky

def greenwich(instant):
    """The Greenwich angle in radians: the 1982 polynomial."""
    t = (Fraction(instant, DAY) + Fraction("2435839.5") - 2451545) / 36525
    seconds = (Fraction("67310.54841") + (876600 * 3600 + Fraction("8640184.812866")) * t
               + Fraction("0.093104") * t ** 2 - Fraction("6.2e-6") * t ** 3)
    return math.radians(float(seconds % 86400) / 240)


def earth_fixed(position, instant):
    x, y, z = position
    turned = complex(x, y) * cmath.exp(-1j * greenwich(instant))
    return turned.real, turned.imag, z


SOMEWHERE = None                    # within a million kilometres


def visible(position, instant, station):
    if position is SOMEWHERE:
        assert math.hypot(*station) > 2e6
        return False
    away = [p - s for p, s in zip(earth_fixed(position, instant), station)]
    height = sum(a * s for a, s in zip(away, station)) / math.hypot(*station)
    assert abs(height) > CLEAR, (position, instant, station, height)
    return height > 0


def positions(one, two):
    """Where the satellite of a pair that opens is, by its time: a position or a refusal."""
    if kind(two) == "near":
        return Near(one, two).at
    number = int(one[2:7])
    if number in MADE:
        return lambda time: SOMEWHERE
    return POSITIONS[number].__getitem__


def resonant(two):
    motion, _ = recovered(two)
    eccentricity = int(two[26:33]) / 1e7
    for limit in (0.0034906585, 0.0052359877, 8.26e-3, 9.24e-3):
        assert abs(motion / limit - 1) > 1e-6
    if 0.0034906585 < motion < 0.0052359877:
        return "one-day"
    return "half-day" if 8.26e-3 <= motion <= 9.24e-3 and eccentricity >= 0.5 else None


# ------------------------------------------------------------------ the call

def strides_of(times, two):
    """Document 01: m less the m of the time before, if no larger, and 0 or on the same side; else m."""
    total, last = 0, 0
    for time in times:
        m = abs(time) // STRIDE if resonant(two) else 0
        before = abs(last) // STRIDE
        resumes = before <= m and (before == 0 or (last < 0) == (time < 0))
        total += m - before if resumes else m
        last = time
    return total


def sample(instant, begin, station, at):
    """Whether a sample is visible, and its time since the epoch where it is in range."""
    time = instant - begin
    if instant >= END:
        met["refused with 6"] += 1
        return False, None
    if abs(time) > FARTHEST:
        met["refused with 9"] += 1
        return False, None
    where = at(time)
    if isinstance(where, int):
        met[f"refused with {where}"] += 1
        return False, time
    return visible(where, instant, station), time


def windows(one, two, station, start, step, samples):
    """The printed windows and strides, or a refusal."""
    if not any(station):
        return "refused 25\n"
    if not 1 <= step <= 86400:
        return "refused 26\n"
    if samples > 1024:
        return "refused 18\n"
    begin, _ = epoch(one)
    at = positions(one, two)
    instants = [start + i * step * 1_000_000 for i in range(samples)]
    seen = [sample(instant, begin, station, at) for instant in instants]
    text, place = "", 0
    for is_visible, run in groupby(seen, key=lambda pair: pair[0]):
        length = len(list(run))
        if is_visible:
            first, last = instants[place], instants[place + length - 1]
            text += "window %d %d %d %d %d %d %d\n" % (*split(first), *split(last), length)
            note(place, length, samples)
            ended(instants, place + length, begin, at)
        place += length
    if samples and not text:
        met["none"] += 1
    return text + f"strides {strides_of([time for _, time in seen if time is not None], two)}\n"


def note(place, length, samples):
    met["windows"] += 1
    met["of one sample"] += length == 1 < samples
    met["all"] += length == samples > 1
    met["at the first sample"] += place == 0 and length < samples
    met["at the last sample"] += place + length == samples and length < samples


def ended(instants, after, begin, at):
    """What ends a window that is not the last sample's, but for the horizon."""
    if after == len(instants):
        return
    instant = instants[after]
    if instant >= END:
        met["ended by the calendar"] += 1
    elif abs(instant - begin) > FARTHEST:
        met["ended by ten years"] += 1
    elif isinstance(where := at(instant - begin), int):
        met[f"ended by {where}"] += 1


def split(instant):
    day, part = divmod(instant, DAY)
    found = date(1957, 1, 1) + timedelta(day)
    return found.year, found.timetuple().tm_yday, part


# ------------------------------------------------------------------ the program's lines

LONGEST = 4096
LARGEST = 10 ** 18 - 1


def whole(line):
    """A whole number, or None."""
    return min(int(line), LARGEST) if re.fullmatch(rb"[0-9]+", line) else None


def read_station(line):
    words = line.split(b" ")
    if len(words) != 3 or not all(re.fullmatch(rb"-?[0-9]{1,9}(\.[0-9]{1,6})?", word) for word in words):
        return None
    return [float(word) for word in words]


def read_start(line):
    words = [whole(word) for word in line.split(b" ")]
    if len(words) != 3 or None in words:
        return None
    year, day, part = words
    if not (1957 <= year <= 2056 and 1 <= day <= (365 if year % 4 else 366) and part < DAY):
        return None
    return (date(year, 1, 1) - date(1957, 1, 1)).days * DAY + (day - 1) * DAY + part


READERS = [(read_station, "no station"), (read_start, "no start"), (whole, "no step"), (whole, "no number of samples")]


def answer(text):
    """Standard output and standard error for an input."""
    lines = (text.split(b"\n") + [b""] * 6)[:6]
    values, said = [], ""
    for number, (reader, name) in enumerate(READERS, 3):
        line = lines[number - 1]
        values.append(None if len(line) > LONGEST else reader(line))
        if values[-1] is None:
            said += f"line {number}: {name}\n"
            met[name] += 1
    if said:
        return "", said
    one, two = lines[:2]
    judged = judge(one, two)
    if judged != "ok":
        return judged[:len("refused 1")] + "\n", ""
    if kind(two) == "unopened":
        return ("refused 8\n" if two[8:16] == b"180.0000" else "refused 7\n"), ""
    printed = windows(one, two, *values)
    if printed.startswith("refused"):
        met[printed.strip()] += 1
    return printed, ""


# ------------------------------------------------------------------ the cases

SET = {number: lines[:2] for number, lines in published().items()}
POSITIONS = {number: lines[2] for number, lines in published().items()}
GREENWICH = "3980.574 0 4966.855"
NORTH, SOUTH = "0 0 6356.752", "-0 0.0 -6356.752"
EQUATOR = "6378.135 0 0"

# One revolution in some 93 minutes without drag, on the calendar's last day.
LATE = pair("99999", year="56", day="366.50000000", bstar=" 00000-0", ndot=" .00000000", inclination=" 51.6000",
            eccentricity="0001000", motion="15.50000000")
KEPT = pair("00010", year="06", day="176.82412014", bstar=" 00000-0", ndot=" .00000000", inclination=" 65.0000",
            eccentricity="0010000", motion="15.00000000")
# Its mean perigee is above one Earth radius, its radius there below.
GRAZING = pair("00014", year="06", day="176.00000000", bstar=" 00000-0", ndot=" .00000000", inclination=" 10.0000",
               eccentricity="0300000", perigee=" 90.0000", anomaly="180.0000", motion="16.27000000")

# Resonant pairs that nobody published, to be looked at from where none can be seen: their strides count.
ONE_DAY = pair("00024", year="56", day="360.00000000", inclination="  3.8536", eccentricity="0026640",
               motion=" 1.00778054")
HALF_DAY = pair("00012", year="06", day="176.33215444", inclination=" 64.1586", eccentricity="6877146",
                motion=" 2.00491383")
MADE = {24, 12}
FAR = "0 3000000 0"


def asked(lines, station, start, step, samples):
    """An input: a pair, a station and the rest; the start may be an instant."""
    if isinstance(start, int):
        start = "%d %d %d" % split(start)
    rest = [station, start, step, samples]
    return b"".join(line + b"\n" for line in [*lines, *(str(word).encode() for word in rest)])


def begins(lines):
    return epoch(lines[0])[0]


def beneath(lines, time, length=6378.135):
    """A station of a length under the satellite at a time, to the metre."""
    found = earth_fixed(positions(*lines)(time), begins(lines) + time)
    return " ".join("%.3f" % (length * x / math.hypot(*found)) for x in found)


def first_window(lines, station, start, step, samples):
    """The first and the last instant of the first window found, and the number of its samples."""
    printed = windows(*lines, read_station(station.encode()), start, step, samples)
    words = [int(word) for word in printed.splitlines()[0].split()[1:]]
    back = lambda date: read_start(b"%d %d %d" % tuple(date))
    return back(words[:3]), back(words[3:6]), words[6]


def main_case():
    """The 1,024 minutes after the epoch of a near-Earth satellite, above Greenwich."""
    return asked(SET[6251], GREENWICH, begins(SET[6251]), 60, 1024)


def lawful():
    near, polar, late, kept = SET[6251], SET[28057], LATE, KEPT
    start = begins(near)
    yield "a day above Greenwich", main_case()
    yield "never above the north pole", asked(near, NORTH, start, 90, 960)
    yield "a day above the north pole", asked(polar, NORTH, begins(polar), 90, 960)
    yield "a day above the south pole", asked(polar, SOUTH, begins(polar), 90, 960)
    yield "a day above the equator", asked(polar, EQUATOR, begins(polar), 90, 960)
    yield "a day above the equator, turned", asked(near, "0 -6378.135 -0.0", start, 90, 960)
    yield "a day from space, higher", asked(near, "0 42164.2 0", start, 90, 960)
    yield "a day from space, lower", asked(polar, "4000 4000 3500", begins(polar), 60, 1024)
    yield "every other sample", asked(kept, beneath(kept, 0, 1), begins(kept), 2880, 5)
    yield "from the centre, nearly", asked(near, "0 0 0.5", start, 600, 100)
    yield "from far away", asked(near, "-999999999.999999 0 0", start, 600, 100)
    yield "samples before the epoch", asked(near, GREENWICH, start - DAY, 60, 1024)
    yield "samples on both sides of the epoch", asked(near, GREENWICH, start - DAY // 4, 60, 720)
    first, last, count = first_window(near, GREENWICH, start, 60, 1024)
    yield "all", asked(near, GREENWICH, first, 60, count)
    yield "a window at both ends", asked(near, GREENWICH, last - 120_000_000, 60, 90)
    yield "none", asked(near, GREENWICH, last + 60_000_000, 60, 30)
    yield "one sample, visible", asked(near, GREENWICH, first, 86400, 1)
    yield "one sample, not visible", asked(near, GREENWICH, last + 600_000_000, 86400, 1)
    yield "one-sample windows", asked(near, beneath(near, 0), start, 5500, 20)
    yield "no samples", asked(near, GREENWICH, start, 60, 0)
    yield "a second a step", asked(near, GREENWICH, first - 60_000_000, 1, 700)
    yield "a day a step", asked(near, GREENWICH, start, 86400, 10)
    yield "the last minutes of 2056", asked(late, beneath(late, DAY // 2 - 60_000_000), END - 600_000_000, 60, 20)
    yield "the last instant of 2056", asked(late, beneath(late, DAY // 2 - 1), END - 1, 1, 5)
    yield "a second after 2056 alone", asked(late, GREENWICH, END - 1, 1, 1024)
    yield "the calendar's days", asked(late, beneath(late, 0, 1), begins(late), 86400, 1024)
    yield "ten years after the epoch", asked(
        kept, beneath(kept, FARTHEST), begins(kept) + FARTHEST - 300_000_000, 60, 12)
    yield "ten years before the epoch", asked(
        kept, beneath(kept, -FARTHEST), begins(kept) - FARTHEST - 300_000_000, 60, 12)
    yield "ten years and a microsecond", asked(kept, beneath(kept, FARTHEST), begins(kept) + FARTHEST + 1, 60, 12)
    yield "far from the epoch", asked(kept, GREENWICH, "1957 1 0", 86400, 1024)
    yield "far after the epoch", asked(kept, GREENWICH, "2056 366 86399999999", 86400, 1024)


def decaying():
    """Satellites that come too low, some of them to rise again."""
    lines = SET[29141]
    at, start = positions(*lines), begins(lines)
    minutes = [at(k * 60_000_000) for k in range(1024)]
    gone = next(k for k, where in enumerate(minutes) if isinstance(where, int))
    yield "a decaying satellite", asked(lines, GREENWICH, start, 60, 1024)
    yield "a window that decay ends", asked(lines, beneath(lines, (gone - 1) * 60_000_000, 6000), start, 60, 1024)
    yield "a decayed satellite", asked(lines, GREENWICH, start + 2 * DAY, 60, 30)
    at, start = positions(*GRAZING), begins(GRAZING)
    yield "too low at perigee", asked(GRAZING, beneath(GRAZING, 0, 1), start, 60, 1024)
    low = next(k for k in range(1024) if at(k * 60_000_000) == 14)
    yield "too low between visible samples", asked(
        GRAZING, beneath(GRAZING, (low - 1) * 60_000_000, 1), start + (low - 9) * 60_000_000, 60, 40)


def deep():
    """Published positions: 24208 and 25954 are one-day, 08195 and 26975 half-day, 28129 is not resonant."""
    for number, times, step in ((24208, 13, 120), (8195, 25, 120), (26975, 25, 120), (28129, 13, 120), (23599, 37, 20)):
        lines = SET[number]
        for name, station in (("Greenwich", GREENWICH), ("the south pole", SOUTH), ("42,164 km", "-42164.2 0 0"),
                              ("9,000 km", beneath(lines, 7_200_000_000, 9000)), ("its epoch", beneath(lines, 0))):
            yield f"{number} above {name}", asked(lines, station, begins(lines), step * 60, times)
    lines = SET[25954]
    yield "25954 from before its epoch", asked(lines, beneath(lines, 0), begins(lines) - DAY, 7200, 25)
    yield "25954 after its epoch", asked(lines, beneath(lines, 0), begins(lines) + DAY // 2, 7200, 7)
    yield "25954, one sample", asked(lines, NORTH, begins(lines) + DAY, 60, 1)
    yield "25954 too far", asked(lines, NORTH, begins(lines) + FARTHEST + 1, 60, 1024)
    yield "08195, no samples", asked(SET[8195], NORTH, begins(SET[8195]), 60, 0)
    yield "strides to the calendar's end", asked(ONE_DAY, FAR, begins(ONE_DAY), 43200, 30)
    yield "strides from the calendar's end", asked(ONE_DAY, FAR, END - 1, 86400, 1024)
    yield "strides through the epoch", asked(HALF_DAY, FAR, begins(HALF_DAY) - 3 * DAY, 43200, 13)
    yield "strides inward, then outward", asked(HALF_DAY, FAR, begins(HALF_DAY) - 3 * DAY - 1, 14400, 40)
    yield "strides to ten years", asked(HALF_DAY, FAR, begins(HALF_DAY) + FARTHEST - 3 * DAY, 86400, 10)
    yield "strides from ten years before", asked(HALF_DAY, FAR, begins(HALF_DAY) - FARTHEST - 2 * DAY, 86400, 6)
    yield "no strides in ten years and a second", asked(HALF_DAY, FAR, begins(HALF_DAY) + FARTHEST + 1, 1, 100)


def refused():
    near, start = SET[6251], begins(SET[6251])
    for zero in ("0 0 0", "-0 0 0", "-0.0 -0.000000 0.0", "000 0 -000000000.000000"):
        yield f"station {zero}", asked(near, zero, start, 60, 10)
    for step in (0, "000", 86401, 10 ** 18, "9" * 1000):
        yield f"step {str(step)[:20]}", asked(near, GREENWICH, start, step, 10)
    for samples in (1025, 10 ** 18, 2 ** 64 + 5, 2 ** 32 + 5, "9" * 1000):
        yield f"samples {str(samples)[:20]}", asked(near, GREENWICH, start, 60, samples)
    yield "25 before 26 and 18", asked(near, "0 0 0", start, 0, 1025)
    yield "26 before 18", asked(near, GREENWICH, start, 86401, 1025)
    yield "25 before 18", asked(near, "0 0 0", start, 60, 1025)
    for number, lines in REFUSED.items():
        yield f"pair refused with {number}", asked(lines, "0 0 0", start, 0, 1025)
    yield "pair refused with 7", asked(LOW, GREENWICH, start, 60, 10)
    yield "pair refused with 8", asked(OPPOSITE, GREENWICH, start, 60, 10)
    yield "a line of the pair of 4,097 bytes", asked((b"1" * 4097, near[1]), GREENWICH, start, 60, 10)
    yield "the second of 4,097", asked((near[0], near[1] + b" " * 4028), GREENWICH, start, 60, 10)
    yield "a pair with carriage returns", asked([line + b"\r" for line in near], GREENWICH, start, 60, 10)


def bad_lines():
    near, start = SET[6251], "2006 177 0"
    for place in ("", " ", "1 2", "1 2 3 4", "1  2 3", " 1 2 3", "1 2 3 ", "1 2 3\r", "1\t2\t3", "+1 2 3", "1. 2 3",
                  ".5 2 3", "1 2 3.", "- 2 3", "--1 2 3", "1-2 2 3", "1e3 2 3", "1 nan 3", "inf 2 3", "1,5 2 3",
                  "1234567890 2 3", "0000000001 2 3", "1.0000000 2 3", "1 2 0.1234567", "1.-5 2 3", "1 2 x"):
        yield f"station {place!r}", asked(near, place, start, 60, 10)
    for date in ("", "2006", "2006 177", "2006 177 0 0", "2006  177 0", " 2006 177 0", "2006 177 0 ", "2006 177 0\r",
                 "1956 366 0", "2057 1 0", "06 177 0", "2006 0 0", "2006 366 0", "2008 367 0", "2000 367 0",
                 "2006 177 -0", "-2006 177 0", "2006 177 86400000000", "2006 177 0.5", "2006 177.5 0", "+2006 177 0",
                 "2006 177 " + "9" * 30, "9" * 30 + " 1 0", "2006 " + "9" * 30 + " 0"):
        yield f"start {date[:24]!r}", asked(near, GREENWICH, date, 60, 10)
    for number in ("", " ", "-1", "+1", "1.0", "60 ", " 60", "60\r", "6O", "1e3", "0x10", "60 60", "１"):
        yield f"step {number!r}", asked(near, GREENWICH, start, number, 10)
        yield f"samples {number!r}", asked(near, GREENWICH, start, 60, number)
    yield "four bad lines", asked(near, "x", "x", "x", "x")
    yield "two bad lines", asked(near, "x", start, 60, "x")
    yield "bad lines after a refused pair", asked(REFUSED[3], "x", start, 60, 10)
    yield "bad lines before a refused call", asked(near, "0 0 0", start, 0, "x")
    yield "nothing", b""
    yield "a pair alone", b"\n".join(near) + b"\n"
    yield "five lines", asked(near, GREENWICH, start, 60, 10)[:-len("10\n")]
    yield "a byte that is no text", asked(near, GREENWICH, start, 60, 10).replace(b"\n60\n", b"\n6\xff0\n")
    yield "a NUL byte", asked(near, GREENWICH, start, 60, 10).replace(b"\n60\n", b"\n60\0\n")
    for size in (4096, 4097, 100_000):
        yield f"a step of {size} bytes", asked(near, GREENWICH, start, "60".rjust(size, "0"), 10)
        yield f"samples of {size} bytes", asked(near, GREENWICH, start, 60, "10".rjust(size, "0"))
        yield f"a start of {size} bytes", asked(near, GREENWICH, "2006 177 0".rjust(size, "0"), 60, 10)
    yield "a station of 5,000 bytes", asked(near, GREENWICH + " " * 5000, start, 60, 10)


def forms():
    """Lawful forms that are not the plainest."""
    near, start = SET[6251], "2006 177 0"
    plain = asked(near, GREENWICH, start, 60, 1000)
    yield "no last newline", plain[:-1]
    yield "later input", plain + b"x\n\n" + plain
    yield "a newline more", plain + b"\n"
    yield "leading zeros", asked(near, "0003980.574 00 004966.855000", "0002006 00177 000", "00060", "0001000")
    yield "the longest decimals", asked(near, "000003980.574000 -000000000.000001 000004966.855", start, 60, 1000)
    yield "day 366 of 2000", asked(pair("00366", year="00", day="366.00000000"), GREENWICH, "2000 366 0", 60, 300)
    yield "the first instant", asked(pair("00057", year="57", day="001.00000000"), GREENWICH, "1957 1 0", 60, 300)
    yield "a letter in the number", asked(pair("Z9999"), GREENWICH, "2000 179 67819733568", 60, 300)


GROUPS = [lawful, decaying, deep, refused, bad_lines, forms]


def cases():
    found = [case for group in GROUPS for case in group()]
    assert len({text for _, text in found}) == len(found)
    return found


WANTED = ["windows", "none", "all", "of one sample", "at the first sample", "at the last sample", "refused with 6",
          "refused with 9", "refused with 14", "ended by the calendar", "ended by ten years", "ended by 14",
          "refused 25", "refused 26", "refused 18", *(name for _, name in READERS)]


if __name__ == "__main__":
    case_files.main(sys.modules[__name__])
