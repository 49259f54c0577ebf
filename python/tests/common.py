"""What the tests share: lines, the published rows, random lawful records."""

from __future__ import annotations

import random
import struct
from pathlib import Path
from typing import NamedTuple, Optional

import saddlekerf
from saddlekerf import Exponential, Record

ROOT = Path(__file__).resolve().parents[2]
VECTORS = ROOT / "bench/vectors"

LINE1 = "1 00005U 58002B   00179.78495062  .00000023  00000-0  28098-4 0  4753"
LINE2 = "2 00005  34.2682 348.7242 1859667 331.7664  19.3264 10.82419157413667"

#: Resonant pairs of the published set: half-day and one-day.
RESONANT = [
    (
        "1 08195U 75081A   06176.33215444  .00000099  00000-0  11873-3 0   813",
        "2 08195  64.1586 279.0717 6877146 264.7651  20.2257  2.00491383225656",
    ),
    (
        "1 24208U 96044A   06177.04061740 -.00000094  00000-0  10000-3 0  1600",
        "2 24208   3.8536  80.0121 0026640 311.0977  48.3000  1.00778054 36119",
    ),
]


def summed(line: str) -> str:
    """A line with its checksum counted anew, by the paper's words."""
    total = sum(int(c) if c.isdigit() else c == "-" for c in line[:68])
    return line[:68] + str(total % 10)


def with_text(line: str, column: int, text: str) -> str:
    """A line with other text from a column on, its checksum counted anew."""
    return summed(line[: column - 1] + text + line[column - 1 + len(text) :])


def bits(numbers: object) -> list[bytes]:
    """Floats as their bytes, so that nothing but the same bits is equal."""
    return [struct.pack(">d", number) for number in numbers]  # type: ignore[attr-defined]


class Row(NamedTuple):
    time: int
    refusal: int
    state: list[bytes]
    rounds: int
    strides: int


class Published(NamedTuple):
    line1: str
    line2: str
    refused: Optional[str]
    rows: list[Row]


def published() -> list[Published]:
    """The published pairs and their rows, bit for bit (bench/vectors/published-rows.txt)."""
    lines = [line for line in (VECTORS / "published-rows.txt").read_text().splitlines() if line[0] != "#"]
    found: list[Published] = []
    at = 0
    while at < len(lines):
        assert lines[at] == "pair"
        line1, line2, at = lines[at + 1], lines[at + 2], at + 3
        refused, rows = None, []
        while at < len(lines) and lines[at] != "pair":
            words = lines[at].split()
            if words[0] == "refused":
                refused = lines[at]
            else:
                state = [bytes.fromhex(word) for word in words[2:8]]
                rows.append(Row(int(words[0]), int(words[1]), state, int(words[8]), int(words[9])))
            at += 1
        found.append(Published(line1, line2, refused, rows))
    return found


def random_record(chance: random.Random, lowest: float = 0.5) -> Record:
    """A lawful record; most open, by their mean motion and eccentricity."""
    near = chance.random() < 0.5
    motion = chance.uniform(6.5, 16.0) if near else chance.choice([1.0027, 2.0056, chance.uniform(lowest, 6.4)])
    eccentricity = chance.choice([chance.uniform(0, 0.01), chance.uniform(0, 0.2 if near else 0.75)])
    exponential = Exponential(chance.choice([0, chance.randint(-99999, 99999)]), chance.randint(-6, -3))
    drag = exponential if exponential.mantissa else Exponential(0, 0)
    return Record(
        chance.randrange(340_000), chance.choice("UCS"), chance.randrange(100_000),
        chance.choice(["A  ", "BC ", "XYZ"]), chance.randint(1957, 2055), chance.randrange(10**8, 366 * 10**8),
        chance.randint(-99_999_999, 99_999_999), Exponential(chance.randint(1, 99999), chance.randint(-9, 9)),
        drag, chance.randrange(10), chance.randrange(10_000), chance.randrange(1_790_000),
        chance.randrange(3_600_000), int(eccentricity * 10**7), chance.randrange(3_600_000),
        chance.randrange(3_600_000), int(motion * 10**8), chance.randrange(100_000),
    )  # fmt: skip


def refusal_of(call: object, *arguments: object, **named: object) -> saddlekerf.Refused:
    """The refusal that a call raises."""
    try:
        result = call(*arguments, **named)  # type: ignore[operator]
    except saddlekerf.Refused as refused:
        return refused
    raise AssertionError(f"no refusal but {result!r}")
