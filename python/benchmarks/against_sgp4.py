"""Times of the package, beside the package sgp4 in one run, as the tables of docs/PERFORMANCE.md.

    /usr/bin/python3 python/benchmarks/against_sgp4.py [--rounds N]

It needs NumPy and sgp4 (Debian: python3-numpy, python3-sgp4). Times are the best of the rounds, in which each takes
its turn: processor time, so that other work on the machine counts little; by the clock where all cores are used.
"""

from __future__ import annotations

import argparse
import io
import os
import random
import statistics
import sys
import time
from collections.abc import Callable
from concurrent.futures import ThreadPoolExecutor
from pathlib import Path
from unittest import mock

sys.path.insert(0, str(Path(__file__).resolve().parents[1]))

import numpy
import sgp4.api as theirs

import saddlekerf
from saddlekerf import sgp4 as ours
from saddlekerf._library import MARKS, NUMBERS, STATE, library
from saddlekerf._memory import Rooms, address
from saddlekerf.julian import DAY, instants_of
from tests.common import published, random_record

KINDS = {"near Earth": "06251", "deep space": "28129", "one-day": "24208", "half-day": "08195"}
PAIRS = {pair.line1[2:7]: (pair.line1, pair.line2) for pair in published()}


def timed(
    rounds: int, *calls: Callable[[], object], clock: Callable[[], float] = time.process_time
) -> list[list[float]]:
    """The times of each call in seconds, over rounds in which each takes its turn."""
    times: list[list[float]] = [[] for _ in calls]
    for _ in range(rounds):
        for at, call in enumerate(calls):
            start = clock()
            call()
            times[at].append(clock() - start)
    return times


def best(rounds: int, *calls: Callable[[], object], clock: Callable[[], float] = time.process_time) -> list[float]:
    """The shortest time of each call."""
    return [min(times) for times in timed(rounds, *calls, clock=clock)]


Dates = tuple[numpy.ndarray, numpy.ndarray]


def grid(satellite: ours.Satrec, first: float, last: float, count: int) -> Dates:
    """Dates from one time to another, in days since the epoch."""
    part = satellite.jdsatepochF + first + numpy.arange(count) * ((last - first) / count)
    return numpy.full(count, satellite.jdsatepoch), part


def c_call(satellite: ours.Satrec, dates: Dates) -> Callable[[], object]:
    """The call of C alone, its arguments ready, into arrays that are there."""
    since, rooms, rows = instants_of(*dates) - satellite._memory.epoch, Rooms(len(dates[0])), len(dates[0])
    memory, places = satellite._memory, [address(a) for a in (since, rooms.refusals, rooms.states, rooms.rounds)]
    lent = [end for place, size in zip(places, (1, 1, STATE, 1)) for end in (place, size * rows)]
    arguments = memory._numbers, NUMBERS, memory._marks, MARKS, *lent
    # The arrays live as long as the call that has their addresses.
    return lambda kept=(since, rooms): library.request_list(*arguments)


def arrays(rounds: int) -> None:
    print("| 1,024 rows of a day | C call: ns a row | `sgp4_array`, new dates | of the C call | median of rounds "
          "| dates of the last call | of the C call | sgp4's | times as fast |")
    print("|---|---:|---:|---:|---:|---:|---:|---:|---:|")
    for kind, number in KINDS.items():
        mine, its = (package.Satrec.twoline2rv(*PAIRS[number]) for package in (ours, theirs))
        day, other = grid(mine, 0, 1, 1024), grid(mine, 0.0001, 1.0001, 1024)
        # Each call for the other dates before it makes the day's dates new to the next, and old to the one after.
        times = timed(
            20 * rounds, c_call(mine, day), lambda: mine.sgp4_array(*other), lambda: mine.sgp4_array(*day),
            lambda: mine.sgp4_array(*day),
        )  # fmt: skip
        call, _, new, old = map(min, times)
        middle = statistics.median(n / c for c, n in zip(times[0], times[2]))
        slow, = best(max(3, rounds // 2), lambda: its.sgp4_array(*day))
        a, b, c, d = (seconds / 1.024e-6 for seconds in (call, new, old, slow))
        print(f"| {kind} | {a:.1f} | {b:.1f} | {new / call:.3f} | {middle:.3f} | {c:.1f} "
              f"| {old / call:.3f} | {d:,.0f} | {slow / new:.1f} |")


def published_set(rounds: int) -> None:
    """All published pairs that open, each over its own span of time: one total against the other."""
    print("\n| The published pairs, each over its own times | rows | saddlekerf: ms | sgp4: ms | times as fast |")
    print("|---|---:|---:|---:|---:|")
    pairs = [pair for pair in published() if not pair.refused]
    for name, count in (("the published rows", None), ("1,024 rows each", 1024)):
        asked = []
        for pair in pairs:
            mine, its = (package.Satrec.twoline2rv(pair.line1, pair.line2) for package in (ours, theirs))
            days = [row.time / DAY for row in pair.rows]
            dates = grid(mine, min(days), max(days), count or len(days))
            if count is None:
                dates = dates[0], mine.jdsatepochF + numpy.array(days)
            asked.append((mine, its, dates))
        a, = best(5 * rounds, lambda: [mine.sgp4_array(*dates) for mine, _, dates in asked])
        b, = best(max(3, rounds // 4), lambda: [its.sgp4_array(*dates) for _, its, dates in asked])
        rows = sum(len(dates[0]) for _, _, dates in asked)
        print(f"| {name}, {len(asked)} pairs | {rows:,} | {a * 1e3:.3f} | {b * 1e3:.1f} | {b / a:.1f} |")


def single(rounds: int) -> None:
    print("\n| One time, near Earth | saddlekerf: µs | sgp4: µs | times as fast |\n|---|---:|---:|---:|")
    mine, its = (package.Satrec.twoline2rv(*PAIRS["06251"]) for package in (ours, theirs))
    jd, fr = mine.jdsatepoch, 0.7
    rows = {
        "`sgp4(jd, fr)`": [lambda s=s: [s.sgp4(jd, fr) for _ in range(100)] for s in (mine, its)],
        "`twoline2rv`": [
            lambda p=p: [p.Satrec.twoline2rv(*PAIRS["06251"]) for _ in range(100)] for p in (ours, theirs)
        ],
    }
    for name, calls in rows.items():
        a, b = best(rounds, *calls)
        print(f"| {name} | {a * 1e4:.2f} | {b * 1e4:.2f} | {b / a:.1f} |")


def satellites(count: int) -> list[tuple[str, str]]:
    """Lawful pairs that open, near Earth and in deep space."""
    chance, found = random.Random(1000), []
    while len(found) < count:
        record = random_record(chance)._replace(year=2006, day=chance.randrange(170, 180) * 10**8)
        lines = record.write()
        if not ours.Satrec.twoline2rv(*lines).error:
            found.append(lines)
    return found


def cores(rounds: int) -> None:
    lines = satellites(1000)
    satrecs = [ours.Satrec.twoline2rv(*pair) for pair in lines]
    many = ours.SatrecArray(satrecs)
    jd, fr = numpy.full(1024, 2453911.5), numpy.arange(1024) / 1024
    calls = [c_call(satellite, (jd, fr)) for satellite in satrecs]
    count = len(os.sched_getaffinity(0))

    def in_one_thread() -> None:
        with mock.patch("os.sched_getaffinity", return_value={0}):
            many.sgp4(jd, fr)

    def c_calls(threads: int) -> None:
        """The calls of C alone, each thread taking the next: as much as the machine gives."""
        following = iter(calls)
        with ThreadPoolExecutor(threads) as pool:
            for _ in range(threads):
                pool.submit(lambda: [call() for call in following])

    one, every, c_one, c_every = best(
        max(5, rounds // 2), in_one_thread, lambda: many.sgp4(jd, fr), lambda: c_calls(1), lambda: c_calls(count),
        clock=time.perf_counter,
    )  # fmt: skip
    # All threads together: what sharing the work costs, whatever else the machine does.
    cpu_one, cpu_every = best(max(3, rounds // 4), in_one_thread, lambda: many.sgp4(jd, fr))
    few = theirs.SatrecArray([theirs.Satrec.twoline2rv(*pair) for pair in lines])
    mine, its = best(2, lambda: many.sgp4(jd[:10], fr[:10]), lambda: few.sgp4(jd[:10], fr[:10]))
    print(f"\n`SatrecArray` of 1,000 satellites at 1,024 times: {one:.3f} s in one thread, {every:.3f} s in "
          f"{count}, {one / every:.2f} times as fast; the C calls alone {c_one:.3f} s and {c_every:.3f} s, "
          f"{c_one / c_every:.2f} times. In processor time {cpu_one:.3f} s and {cpu_every:.3f} s. "
          f"At 10 times: {mine * 1e3:.1f} ms, sgp4's {its * 1e3:.0f} ms, {its / mine:.0f} times as fast.")


def catalogue(rounds: int) -> None:
    chance = random.Random(20_000)
    pairs = [random_record(chance).write() for _ in range(20_000)]
    text = "".join(f"SATELLITE {n}\r\n{one}\r\n{two}\r\n" for n, (one, two) in enumerate(pairs)).encode()

    def loaded(mend: bool) -> None:
        entries = list(saddlekerf.load(io.BytesIO(text), mend=mend))
        assert len(entries) == 20_000 and all(entry.record for entry in entries)

    strict, mended = best(max(3, rounds // 10), lambda: loaded(False), lambda: loaded(True))
    print(f"\nA catalogue of 20,000 named pairs read: {strict:.3f} s; with mending {mended:.3f} s.")


def main() -> None:
    parser = argparse.ArgumentParser(description="times of the package beside sgp4")
    parser.add_argument("--rounds", type=int, default=20)
    rounds = parser.parse_args().rounds
    how = "with its C++ extension" if theirs.accelerated else "in Python alone: not accelerated"
    print(f"Python {sys.version.split()[0]}, NumPy {numpy.__version__}, sgp4 {how}\n")
    for part in (arrays, published_set, single, cores, catalogue):
        part(rounds)


if __name__ == "__main__":
    main()
