"""Calls from many threads at once."""

from __future__ import annotations

import threading
import unittest
from concurrent.futures import ThreadPoolExecutor
from unittest import mock

from saddlekerf import Microseconds, Roster, Satellite
from saddlekerf._arrays import numpy
from saddlekerf.sgp4 import Satrec, SatrecArray
from saddlekerf.sgp4.satrec_array import _blocks, _on_all_cores

from .common import LINE1, LINE2, RESONANT, published, with_text


class Threads(unittest.TestCase):
    def test_one_satellite(self) -> None:
        """Threads that go to and fro over the epoch take turns, and no row differs."""
        times = [Microseconds.from_minutes(m) for m in (720, -1440, 100_000, 5, -99_999, 43_200, 0)] * 20
        for lines in RESONANT:
            satellite = Satellite.open(*lines)
            expected = [Satellite.open(*lines).at(time) for time in times]

            def lists(seed: int) -> list[object]:
                turned = times[seed:] + times[:seed]
                rows = satellite.at(turned)[:]
                ones = [satellite.at(time) for time in turned]
                self.assertEqual(rows, ones)
                return ones[-seed:] + ones[:-seed] if seed else ones

            with ThreadPoolExecutor(8) as pool:
                for found in pool.map(lists, range(8)):
                    self.assertEqual(found, expected)

    def test_one_roster(self) -> None:
        roster = Roster()
        pairs = [(with_text(LINE1, 3, f"{n:05}"), with_text(LINE2, 3, f"{n:05}")) for n in range(64)]

        def lodge(at: int) -> None:
            for _ in range(20):
                roster.lodge(*pairs[at])
                roster.withdraw(at)
                self.assertLessEqual(len(roster), 64)
            roster.lodge(*pairs[at])

        with ThreadPoolExecutor(8) as pool:
            list(pool.map(lodge, range(64)))
        self.assertEqual([tuple(pair) for pair in roster], pairs)
        self.assertEqual(Roster(bytes(roster)).row, roster.row)

    @unittest.skipIf(numpy is None, "NumPy is not installed")
    def test_an_array_with_one_satellite_twice(self) -> None:
        satellites = [Satrec.twoline2rv(p.line1, p.line2) for p in published() if not p.refused] * 4
        jd, fr = numpy.full(1000, 2453911.5), numpy.linspace(-5, 5, 1000)
        errors, positions, velocities = SatrecArray(satellites).sgp4(jd, fr)
        for at, satellite in enumerate(satellites):
            e, r, v = satellite.sgp4_array(jd, fr)
            self.assertEqual((e.tobytes(), r.tobytes()), (errors[at].tobytes(), positions[at].tobytes()))
            self.assertEqual(v.tobytes(), velocities[at].tobytes())

    @unittest.skipIf(numpy is None, "NumPy is not installed")
    def test_one_satellite_at_other_dates_in_each_thread(self) -> None:
        """What is kept of the dates of one thread is not taken for those of another."""
        jd = numpy.full(600, 2453911.5)
        dates = [numpy.linspace(-5, 5, 600) + seed / 1024 for seed in range(8)]
        for lines in RESONANT:
            satellite = Satrec.twoline2rv(*lines)
            expected = [[part.tobytes() for part in Satrec.twoline2rv(*lines).sgp4_array(jd, fr)] for fr in dates]
            self.assertEqual(len({parts[1] for parts in expected}), 8)

            def ask(seed: int) -> list[list[bytes]]:
                return [[part.tobytes() for part in satellite.sgp4_array(jd, dates[seed])] for _ in range(20)]

            with ThreadPoolExecutor(8) as pool:
                for seed, found in enumerate(pool.map(ask, range(8))):
                    self.assertEqual(found, [expected[seed]] * 20)

    @unittest.skipIf(numpy is None, "NumPy is not installed")
    def test_arrays_of_one_satellite_in_many_threads(self) -> None:
        """Several arrays at once, each with threads of its own, over the same satellites."""
        satellites = [Satrec.twoline2rv(*lines) for lines in RESONANT] * 20
        jd, fr = numpy.full(1024, 2453911.5), numpy.linspace(-9, 9, 1024)
        expected = [Satrec.twoline2rv(*lines).sgp4_array(jd, fr)[1].tobytes() for lines in RESONANT] * 20
        with ThreadPoolExecutor(4) as pool:
            for _, positions, _ in pool.map(lambda _: SatrecArray(satellites).sgp4(jd, fr), range(4)):
                self.assertEqual([row.tobytes() for row in positions], expected)

    def test_every_satellite_is_in_one_block(self) -> None:
        for count in (0, 1, 2, 7, 1000):
            for threads in (1, 2, 3, 64):
                places = [at for block in _blocks(count, threads) for at in range(count)[block]]
                self.assertEqual(places, list(range(count)))

    @unittest.skipIf(numpy is None, "NumPy is not installed")
    def test_an_error_in_any_thread_is_raised(self) -> None:
        """A block that fails is told, whichever thread has it."""
        caller = threading.get_ident()
        for in_caller in (True, False):
            both = threading.Barrier(2)

            def work(block: slice) -> None:
                if block.start < 2:
                    both.wait(60)
                    if (threading.get_ident() == caller) == in_caller:
                        raise LookupError("failed")

            with mock.patch("os.sched_getaffinity", return_value={0, 1}), self.assertRaises(LookupError):
                _on_all_cores(work, 8, 1024 * 1024)

    def test_a_list_gives_the_interpreter_away(self) -> None:
        """While a list of ten years to and fro is worked out, other threads go on."""
        satellite = Satellite.open(*RESONANT[0])
        far = Microseconds(315_000_000_000_000)
        times = [far, -far] * 150
        worker = threading.Thread(target=satellite.at, args=(times,))
        worker.start()
        turns = 0
        while worker.is_alive():
            turns += 1
        self.assertGreater(turns, 1000)
