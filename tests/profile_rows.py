#!/usr/bin/env python3
"""Writes input and output of tests/cases/profile from bench/vectors/published-rows.txt.

    profile_rows.py [FOLDER]

The expected output comes from that file and the words of document 02, wish 13: a pair whose period is 225 minutes
or more is refused with 32 after 1 to 7, a time below 0 or beyond 30 days gives a row of 33, strides are 0, and a
satellite marked as resonant refuses every request with 32. The files go into tests/cases/profile under FOLDER, or of
this repository where none is named. bench/tests/stored.rs makes them anew.
"""

import sys
from pathlib import Path

from published_rows import pairs

ROOT = Path(__file__).resolve().parent.parent

DAY = 86_400_000_000                # microseconds
LATEST = 30 * DAY
ZEROS = " 0000000000000000" * 6 + " 0"


def refused(number):
    return f"row {number}{ZEROS}"


def deep(line2):
    """A period of 225 minutes or more. No published mean motion is near the limit, 6.4 revolutions a day, so that
    the recovered mean motion falls on the same side as the one of the line."""
    motion = float(line2[52:63])
    assert abs(motion - 6.4) > 0.1
    return 1440 / motion >= 225


def row_at(rows, time):
    return rows[time] if 0 <= time <= LATEST else refused(33)


def script(found):
    asked, answered = [], []
    for pair, refusals, rows in found:
        asked += pair
        if refusals or deep(pair[1]):
            answered += refusals or ["refused 32"]
            asked.append("one 0")       # after a refused pair requests print nothing
            continue
        answered.append("opened")
        at = {int(time): row for time, row, _ in rows}
        times = list(at) + [-1, LATEST + 1, -LATEST, 2 ** 63 - 1, -(2 ** 63)]
        for time in times:
            asked.append(f"one {time}")
            answered += [row_at(at, time), "strides 0"]
        asked.append("list " + " ".join(map(str, times)))
        answered += [row_at(at, time) for time in times] + ["strides 0"]
        asked += ["list", "list" + " 0" * 1025]
        answered += ["strides 0", "refused 18", "strides 0"]
        asked += ["deep", "one 0", "one -1", "list 0 -1", "list" + " 0" * 1025]
        answered += [refused(32), "strides 0", refused(32), "strides 0"] + ["refused 32", "strides 0"] * 2
    return asked, answered


def main():
    folder = (Path(sys.argv[1]) if len(sys.argv) > 1 else ROOT) / "tests/cases/profile"
    folder.mkdir(parents=True, exist_ok=True)
    text = (ROOT / "bench/vectors/published-rows.txt").read_text()
    asked, answered = script(pairs(text))
    (folder / "input").write_text("\n".join(asked) + "\n")
    (folder / "output").write_text("\n".join(answered) + "\n")


main()
