#!/usr/bin/env python3
"""Writes stdin and stdout of the crate replay from bench/vectors/published-rows.txt: its pairs and times, then cases of requests.

    published_rows.py [FOLDER]

The expected output comes from that file and the rules of document 01, not from
the programs. The files go into crates/ under FOLDER, or of this repository where
none is named. bench/tests/stored.rs makes them anew.
"""

import sys
from pathlib import Path

ROOT = Path(__file__).resolve().parent.parent

STRIDE = 43_200_000_000             # microseconds
FARTHEST = 315_532_800_000_000
RESONANT = "1 09880U"               # a pair of which every time is whole strides


def pairs(text):
    """Each pair's two lines, its refusal if it has one, and its rows: time, row line, strides."""
    found = []
    lines = iter(line for line in text.splitlines() if not line.startswith("#"))
    for line in lines:
        words = line.split()
        if line == "pair":
            found.append(([next(lines), next(lines)], [], []))
        elif words[0] == "refused":
            found[-1][1].append(f"refused {words[1]}")
        else:
            time, row, strides = words[0], words[1:9], words[9]
            found[-1][2].append((time, "row " + " ".join(row), strides))
    return found


def published(found):
    asked, answered = [], []
    for pair, refusals, rows in found:
        asked += pair
        answered += refusals or ["opened"]
        for time, row, strides in rows:
            asked.append(f"one {time}")
            answered += [row, f"strides {strides}"]
    return asked, answered


def replayed(found):
    pair, _, rows = next(p for p in found if p[0][0].startswith(RESONANT))
    row = {int(time): text for time, text, _ in rows}
    far = "row 9" + " 0000000000000000" * 6 + " 0"
    one, two, three = STRIDE, 2 * STRIDE, 3 * STRIDE
    script = [
        ("one 0", [row[0], "strides 0"]),
        (f"list {one} {two}", [row[one], row[two], "strides 2"]),
        (f"one {three}", [row[three], "strides 1"]),
        (f"list {three} {one} -{FARTHEST + 1} 0", [row[three], row[one], far, row[0], "strides 1"]),
        ("list", ["strides 0"]),
        (f"list {FARTHEST + 1} -{FARTHEST + 1}", [far, far, "strides 0"]),
        (f"one {FARTHEST + 1}", [far, "strides 0"]),
        ("list" + " 0" * 1024, [row[0]] * 1024 + ["strides 0"]),
        ("list" + " 0" * 1025, ["refused 18", "strides 0"]),
        ("list" + " 0" * 1100, ["refused 18", "strides 0"]),
        ("list" + " -315532800000000001" * 1100, ["refused 18", "strides 0"]),
        ("list" + " 0" * 40_000, ["malformed"]),
        ("", ["malformed"]),
        ("one", ["malformed"]),
        ("one 0 0", ["malformed"]),
        ("one  0", ["malformed"]),
        ("one +5", ["malformed"]),
        ("list ", ["malformed"]),
        ("list 0 x", ["malformed"]),
        (f"one {two}", [row[two], "strides 2"]),
    ]
    asked, answered = list(pair), ["opened"]
    for line, lines in script:
        asked.append(line)
        answered += lines
    return asked, answered


def main():
    target = Path(sys.argv[1]) if len(sys.argv) > 1 else ROOT
    found = pairs((ROOT / "bench/vectors/published-rows.txt").read_text())
    asked, answered = published(found)
    more_asked, more_answered = replayed(found)
    folder = target / "crates/replay"
    folder.mkdir(parents=True, exist_ok=True)
    folder.joinpath("stdin").write_text("\n".join(asked + more_asked))
    folder.joinpath("stdout").write_text("\n".join(answered + more_answered) + "\n")


if __name__ == "__main__":
    main()
