#!/usr/bin/env python3
"""Prints tests/cases/positions/input: the published pairs, each with its published positions.

The pairs are those of bench/vectors/SGP4-VER.TLE, the positions those of
bench/vectors/tcppver.out. Times become whole microseconds and coordinates whole
numbers of 1E-8 km; a number that is no whole one stops the script. Run it in
the folder that holds bench/ and tests/.
"""

from decimal import Decimal
from pathlib import Path

MINUTE = 60_000_000                 # microseconds
UNIT = 10**8                        # in a kilometre
SETS = Path("bench/vectors/SGP4-VER.TLE")
POSITIONS = Path("bench/vectors/tcppver.out")
MENDED = "# the pairs of refused lines, mended: a blank ephemeris type is 0, and the checksums are counted anew"


def whole(text, scale):
    value = Decimal(text) * scale
    assert value == value.to_integral_value(), text
    return int(value)


def pairs():
    """Each pair's two lines, and the start, stop and step that stand behind the second, in microseconds."""
    lines = [line for line in SETS.read_text().splitlines() if line[:1] in ("1", "2")]
    for first, second in zip(lines[0::2], lines[1::2], strict=True):
        span = [whole(word, MINUTE) for word in second[69:].split()]
        yield first[:69], second[:69], span


def published():
    """Each satellite's number and rows: a time, and three coordinates."""
    blocks = []
    for line in POSITIONS.read_text().splitlines():
        words = line.split()
        if words[1] == "xx":
            blocks.append((int(words[0]), []))
        else:
            blocks[-1][1].append((whole(words[0], MINUTE), [whole(word, UNIT) for word in words[1:4]]))
    return blocks


def times_asked(start, stop, step):
    """As 002's driver asks them: the epoch, the start where it is another time, then by steps, the last cut to the stop."""
    times = [0] if start == 0 else [0, start]
    while times[-1] < stop:
        times.append(min(times[-1] + step, stop))
    return times


def cases():
    """Each pair with its lines of times. Where the file ends a satellite early, the next time asked is one of them."""
    for (first, second, span), (number, rows) in zip(pairs(), published(), strict=True):
        assert int(first[2:7]) == number
        asked = times_asked(*span)
        assert [time for time, _ in rows] == asked[: len(rows)], number
        lines = ["list " + " ".join(map(str, [time, *position])) for time, position in rows]
        lines += [f"one {time}" for time in asked[len(rows) :][:1]]
        yield first, second, lines


def counted(line):
    """The line with its checksum."""
    return line[:68] + str(sum(int(c) if c.isdigit() else c == "-" for c in line[:68]) % 10)


def mended(first, second):
    return counted(first[:62] + first[62].replace(" ", "0") + first[63:]), counted(second)


def main():
    found = list(cases())
    for first, second, lines in found:
        print(first, second, *lines, sep="\n")
    print(MENDED)
    for first, second, lines in found:
        if (first, second) != mended(first, second):
            print(*mended(first, second), *lines, sep="\n")


main()
