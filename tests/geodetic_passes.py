#!/usr/bin/env python3
"""What station_windows reads for a geodetic station, and the passes that it has to print.

Written from the program's description: a station on the WGS-84 ellipsoid, up its normal,
passes found among samples, their edges to the microsecond, their highest points. Positions
come from near_earth.py, the other lines and the Greenwich angle from station_windows.py; the
station is placed by its reduced latitude, and highest points are sought by samples of their
own. These have digits of their own: edges are held to a millisecond, highest points to a tenth
of a second, angles to what their three places show. Refusals and bad lines are held byte for
byte, and the stored case too.

  geodetic_passes.py --write INPUT
      writes the input of the stored case.
  geodetic_passes.py --hold PROGRAM
      holds the stored case to what is due, runs the program on every case, and counts.
"""

import argparse
import cmath
import math
import re
import subprocess
import sys
from collections import Counter
from datetime import datetime, timedelta
from itertools import groupby
from pathlib import Path

sys.dont_write_bytecode = True
from near_earth import Near
from report_texts import LOW, REFUSED, epoch, kind
from station_windows import DAY, END, FARTHEST, KEPT, LATE, LONGEST, READERS, SET, begins, earth_fixed
from station_windows import asked as asked_of
from tle_pairs import judge

STORED = Path(__file__).resolve().parent / "passes"     # .in and .out
RADIUS, FLATTENING = 6378.137, 1 / 298.257223563
EDGE, TOP, ANGLE = 0.001, 0.1, 0.0012      # seconds, seconds, degrees

met = Counter()

# ------------------------------------------------------------------ the sky


class Station:
    def __init__(self, latitude, longitude, height):
        phi, lam, h = math.radians(latitude), math.radians(longitude), height / 1000
        beta = math.atan2((1 - FLATTENING) * math.sin(phi), math.cos(phi))
        out = RADIUS * math.cos(beta) + h * math.cos(phi)
        self.z = RADIUS * (1 - FLATTENING) * math.sin(beta) + h * math.sin(phi)
        self.meridian, self.out, self.phi = cmath.exp(-1j * lam), out, phi

    def look(self, position):
        """Azimuth and elevation in degrees of an Earth-fixed position."""
        x, y, z = position
        plane = complex(x, y) * self.meridian
        away, along = plane.real - self.out, z - self.z
        east = plane.imag
        turned = complex(away, along) * cmath.exp(-1j * self.phi)
        up, north = turned.real, turned.imag
        return math.degrees(math.atan2(east, north)) % 360, math.degrees(math.atan2(up, math.hypot(east, north)))


class Sky:
    def __init__(self, one, two, station):
        self.begin, _ = epoch(one)
        self.near, self.station = Near(one, two), Station(*station)

    def look(self, instant):
        """Azimuth and elevation, or None where the satellite has no position."""
        time = instant - self.begin
        if instant >= END or abs(time) > FARTHEST:
            return None
        where = self.near.at(time)
        return None if isinstance(where, int) else self.station.look(earth_fixed(where, instant))

    def elevation(self, instant):
        looked = self.look(instant)
        return -90 if looked is None else looked[1]


# ------------------------------------------------------------------ passes


def crossing(above, low, high):
    """The instant above that has one not above beside it, between one that is not and one that is."""
    while abs(high - low) > 1:
        between = (low + high) // 2
        low, high = (low, between) if above(between) else (between, high)
    return high


def highest(sky, first, last):
    """By samples, ever closer."""
    while last - first > 200:
        grid = [first + (last - first) * k // 100 for k in range(101)]
        best = max(range(101), key=lambda k: sky.elevation(grid[k]))
        first, last = grid[max(best - 1, 0)], grid[min(best + 1, 100)]
    return (first + last) // 2


def passes(sky, least, start, step, samples):
    """Rows of: begun, rise, highest, still, set."""
    above = lambda instant: sky.elevation(instant) > least
    instants = list(range(start, min(start + samples * step * 1_000_000, END), step * 1_000_000))
    place, found = 0, []
    for is_above, run in groupby(instants, key=above):
        count = len(list(run))
        if is_above:
            first, last = instants[place], instants[place + count - 1]
            begun, still = place == 0, place + count == len(instants)
            rise = first if begun else crossing(above, instants[place - 1], first)
            end = last if still else crossing(above, instants[place + count], last)
            found.append((begun, rise, highest(sky, rise, end), still, end))
            met["passes"] += 1
            met["since"] += begun
            met["until"] += still
            met["one sample"] += count == 1 < samples
        place += count
    met["none"] += not found
    return found


# ------------------------------------------------------------------ the program's lines


def read_station(line):
    """Latitude, longitude, height and least elevation behind the word, or None."""
    word, *numbers = line.split(b" ")
    if word != b"geodetic" or len(numbers) != 4:
        return None
    if not all(re.fullmatch(rb"-?[0-9]{1,9}(\.[0-9]{1,6})?", number) for number in numbers):
        return None
    return [float(number) for number in numbers]


READERS = [(read_station, "no station"), *READERS[1:]]


def refusal(station, least, step):
    latitude, longitude, height = station
    if not (-90 <= latitude <= 90 and -180 <= longitude <= 360 and -10_000 <= height <= 100_000 and 0 <= least <= 90):
        return 25
    return 0 if 1 <= step <= 86400 else 26


def due(text):
    """Standard output, as text or as a sky with its passes, and standard error."""
    lines = (text.split(b"\n") + [b""] * 6)[:6]
    values, said = [], ""
    for number, (reader, name) in enumerate(READERS, 3):
        line = lines[number - 1]
        values.append(None if len(line) > LONGEST else reader(line))
        if values[-1] is None:
            said += f"line {number}: {name}\n"
            met[name] += 1
    if said:
        return "", said
    judged = judge(*lines[:2])
    if judged != "ok":
        return judged[:len("refused 1")] + "\n", ""
    if kind(lines[1]) == "unopened":
        return "refused 7\n", ""
    (*station, least), start, step, samples = values
    if number := refusal(station, least, step):
        met[f"refused {number}"] += 1
        return f"refused {number}\n", ""
    sky = Sky(*lines[:2], station)
    return (sky, passes(sky, least, start, step, samples)), ""


LINE = re.compile(r"(rise|since) (\S+ \S+) azimuth (\S+) highest (\S+ \S+) elevation (\S+) (set|until) (\S+ \S+) azimuth (\S+)")


def instant_of(text):
    return round((datetime.strptime(text, "%Y-%m-%d %H:%M:%S.%f") - datetime(1957, 1, 1)) / timedelta(microseconds=1))


def apart(a, b):
    return abs((a - b + 180) % 360 - 180)


def wrong(printed, expected):
    """What is wrong with a printed text, or None."""
    if isinstance(expected, str):
        return None if printed == expected else f"{printed!r} for {expected!r}"
    sky, found = expected
    lines = printed.splitlines()
    if lines[-1:] != [f"passes {len(found)}"] or len(lines) != len(found) + 1:
        return f"{lines[-1:]} with {len(lines) - 1} lines for {len(found)} passes"
    for line, (begun, rise, top, still, end) in zip(lines, found):
        m = LINE.fullmatch(line)
        if not m or (m[1], m[6]) != ("since" if begun else "rise", "until" if still else "set"):
            return line
        for told, known, limit, is_sample in ((m[2], rise, EDGE, begun), (m[4], top, TOP, False), (m[7], end, EDGE, still)):
            off = abs(instant_of(told) - known) / 1e6
            if off > (0 if is_sample else limit):
                return f"{line}: {told} is {off} s off"
            met["edges held"] += limit == EDGE
        for told, instant, part in ((m[3], rise, 0), (m[8], end, 0), (m[5], top, 1)):
            if apart(float(told), sky.look(instant)[part]) > ANGLE:
                return f"{line}: {told} for {sky.look(instant)[part]}"
    return None


# ------------------------------------------------------------------ the cases

GREENWICH = "51.4779 -0.0015 46"


def asked(lines, station, least, start, step, samples):
    return asked_of(lines, f"geodetic {station} {least}", start, step, samples)


def main_case():
    """Two days of minutes over Greenwich, above 10 degrees."""
    return asked(SET[6251], GREENWICH, 10, begins(SET[6251]), 60, 2880)


def lawful():
    near, polar = SET[6251], SET[28057]
    start = begins(near)
    yield "two days over Greenwich", main_case()
    yield "above the horizon", asked(near, GREENWICH, 0, start, 60, 2880)
    yield "above 37.25 degrees", asked(near, GREENWICH, 37.25, start, 30, 5760)
    yield "straight up alone", asked(near, GREENWICH, 90, start, 60, 2880)
    yield "ten days of 20 s", asked(near, GREENWICH, 5, start, 20, 43200)
    yield "before the epoch", asked(near, GREENWICH, 5, start - 2 * DAY, 60, 2880)
    for name, station in (("Quito", "-0.22985 -78.52495 2850"), ("Hobart", "-42.8821 147.3272 0"), ("the south pole", "-90 0 2835"),
                          ("the north pole", "90.0 -180 0"), ("the Dead Sea", "31.5 35.5 -430"), ("Suva", "-18.1416 538.4419 10"),
                          ("Apia", "-13.8333 188.25 20"), ("a balloon", "45 360 100000")):
        yield f"a polar orbit over {name}", asked(polar, station, 3, begins(polar), 45, 1920)
    for offset in (60, 120, 200):
        rise = 1_151_321_048 - 1_151_280_000
        begin = start - start % DAY + DAY + rise * 1_000_000
        yield f"since {offset} s", asked(near, GREENWICH, 10, begin + offset * 1_000_000, 30, 100)
        yield f"until {offset} s", asked(near, GREENWICH, 10, begin - 600_000_000, 10, 60 + offset // 10)
        yield f"one sample {offset}", asked(near, GREENWICH, 10, begin + offset * 1_000_000, 86400, 1)
    yield "no samples", asked(near, GREENWICH, 10, start, 60, 0)
    yield "none", asked(near, GREENWICH, 10, start, 60, 30)
    yield "two minutes a step", asked(near, GREENWICH, 0, start, 120, 1440)
    yield "the calendar's last day", asked(LATE, GREENWICH, 0, END - DAY // 2, 60, 4_000_000_000)
    yield "ten years after the epoch", asked(KEPT, GREENWICH, 0, begins(KEPT) + FARTHEST - DAY // 4, 60, 720)
    yield "a decaying satellite", asked(SET[29141], GREENWICH, 0, begins(SET[29141]), 30, 6000)


def refused():
    near, start = SET[6251], begins(SET[6251])
    for station in ("90.000001 0 0", "-90.1 0 0", "0 360.000001 0", "0 -180.5 0", "0 0 100000.000001", "0 0 -10000.5", "3980.574 0 4966.855"):
        yield f"station {station}", asked(near, station, 10, start, 60, 10)
    for least in ("90.000001", "-0.000001", "-5", "999999999"):
        yield f"least {least}", asked(near, GREENWICH, least, start, 60, 10)
    for step in (0, 86401, 10 ** 18):
        yield f"step {step}", asked(near, GREENWICH, 10, start, step, 10)
    yield "25 before 26", asked(near, "91 0 0", 10, start, 0, 10)
    for number, lines in REFUSED.items():
        yield f"pair refused with {number}", asked(lines, GREENWICH, 10, start, 60, 10)
    yield "pair refused with 7", asked(LOW, GREENWICH, 10, start, 60, 10)


def bad_lines():
    near = SET[6251]
    good = [f"geodetic {GREENWICH} 10", "2006 177 0", "60", "100"]
    stations = ["geodetic" + rest for rest in ("", " ", " 1 2 3", " 1 2 3 4 5", " +1 2 3 4", " N51 0 0 10", "  1 2 3 4", " 1 2  3 4", " 1 2 3 4 ",
                                               "s 1 2 3 4", "\t1 2 3 4", " 1 2 3 x", " 1 2 3 10.", " 1 2 3 .5", " 1 2 3 1e1", " 1 2 3 10\r",
                                               " 1234567890 2 3 4", " 1 2 3.0000000 4", " - 2 3 4", " 1,5 2 3 4")]
    stations += ["", "1 2", "1 2 3 4", "+1 2 3", "N51 0 0", GREENWICH + " 10", "Geodetic 1 2 3 4", " geodetic 1 2 3 4", "1 2 3 geodetic"]
    for place, words in enumerate((stations, ("", "2006-06-26", "2006 366 0"), ("", "6O", "-60"), ("", "1.5", " 7"))):
        for word in words:
            yield f"line {place + 3} {word!r}", asked_of(near, *good[:place], word, *good[place + 1:])
    yield "all bad", asked_of(near, "geodetic x", "x", "x", "x")
    yield "a station of 5,000 bytes", asked(near, GREENWICH, "10" + " " * 5000, "2006 177 0", 60, 100)
    yield "nothing", b""
    yield "a pair alone", b"\n".join(near) + b"\n"


def cases():
    return [case for group in (lawful, refused, bad_lines) for case in group()]


WANTED = ["passes", "since", "until", "none", "one sample", "edges held", "refused 25", "refused 26", *(name for _, name in READERS)]


def faults(program):
    """Each case, and what is wrong with what the program makes of it, or None."""
    stored, printed = STORED.with_suffix(".in").read_bytes(), STORED.with_suffix(".out").read_text()
    yield "the stored case", wrong(printed, due(stored)[0])
    for name, text in cases():
        expected, said = due(text)
        run = subprocess.run([program], input=text, capture_output=True, timeout=600)
        fault = wrong(run.stdout.decode(), expected)
        if run.stderr.decode() != said:
            fault = f"said {run.stderr!r} for {said!r}"
        if text == stored and run.stdout.decode() != printed:
            fault = "not the stored text"
        yield name, fault


def hold(program):
    """How many cases the program does not meet."""
    found = list(faults(program))
    bad = [(name, fault) for name, fault in found if fault]
    for name, fault in bad:
        print(f"geodetic stations, {name}: FAILED; {fault}")
    for name in WANTED:
        assert met[name] > 0, name
    print(f"{len(found) - len(bad)} passed, {len(bad)} failed")
    return len(bad)


def main():
    words = argparse.ArgumentParser(description=__doc__, formatter_class=argparse.RawDescriptionHelpFormatter)
    words.add_argument("--write", metavar="INPUT")
    words.add_argument("--hold", metavar="PROGRAM")
    words = words.parse_args()
    if words.write:
        Path(words.write).write_bytes(main_case())
    elif words.hold:
        sys.exit(hold(words.hold) > 0)


if __name__ == "__main__":
    main()
