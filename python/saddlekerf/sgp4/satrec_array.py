"""Many satellites at many times, on all cores."""

from __future__ import annotations

import os
from collections import deque
from collections.abc import Callable, Iterable
from concurrent.futures import ThreadPoolExecutor
from typing import Any

from .._arrays import numpy
from ..julian import instants_of
from .rows import fill
from .satrec import Satrec

#: Rows from which on more than one thread is worth its start.
_MANY = 20_000


class SatrecArray:
    """Satellites asked for the same times; calls run in as many threads as there are cores."""

    __slots__ = ("_satellites",)

    def __init__(self, satrecs: Iterable[Satrec]) -> None:
        self._satellites = list(satrecs)
        for satellite in self._satellites:
            if not isinstance(satellite, Satrec):
                raise TypeError(f"a satellite is a saddlekerf.sgp4.Satrec, not {type(satellite).__name__}")

    def __len__(self) -> int:
        return len(self._satellites)

    def sgp4(self, jd: Any, fr: Any) -> tuple[Any, Any, Any]:
        """Errors, positions and velocities: of m satellites at n times m × n, m × n × 3 and m × n × 3.

        `jd` and `fr` are NumPy arrays, or sequences, of one length. Without NumPy the three are lists.
        """
        if numpy is None:
            rows = [satellite.sgp4_array(jd, fr) for satellite in self._satellites]
            return [row[0] for row in rows], [row[1] for row in rows], [row[2] for row in rows]
        times = instants_of(jd, fr)
        count = len(self), len(times)
        errors, states = numpy.empty(count, numpy.uint8), numpy.empty((*count, 6))

        def work(block: slice) -> None:
            satellites = self._satellites[block]
            asked = [satellite._memory for satellite in satellites]
            for satellite, refusal in zip(satellites, fill(asked, times, errors[block], states[block])):
                satellite._refusal = refusal

        _on_all_cores(work, *count)
        return errors, states[:, :, :3], states[:, :, 3:]


def _on_all_cores(work: Callable[[slice], None], satellites: int, times: int) -> None:
    """Does the work for all satellites, block by block where there are many rows."""
    threads = min(len(os.sched_getaffinity(0)), satellites) if satellites * times >= _MANY else 1
    if threads == 1:
        return work(slice(None))
    # Any thread may take the next block; a deque gives each once.
    blocks = deque(_blocks(satellites, threads))

    def run() -> None:
        while True:
            try:
                block = blocks.popleft()
            except IndexError:
                return
            work(block)

    with ThreadPoolExecutor(threads - 1) as pool:
        others = [pool.submit(run) for _ in range(threads - 1)]
        run()
        for other in others:
            other.result()


def _blocks(satellites: int, threads: int) -> list[slice]:
    """All satellites in blocks that become smaller, down to one, so that no core waits long for the last."""
    blocks, at = [], 0
    while at < satellites:
        size = max(1, (satellites - at) // (4 * threads))
        blocks.append(slice(at, at + size))
        at += size
    return blocks
