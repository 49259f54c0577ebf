"""Garbage in every argument: a Python exception, never a crash and never an answer."""

from __future__ import annotations

import math
import subprocess
import sys
import unittest

import saddlekerf
from saddlekerf import Instant, Microseconds, Offer, Roster, Satellite
from saddlekerf import _library, sgp4
from saddlekerf._arrays import numpy
from saddlekerf.sgp4 import Satrec, SatrecArray, exporter

from .common import LINE1, LINE2, ROOT

NUMBERS = [math.nan, math.inf, -math.inf, 10**400, -(10**400), 2**64, -(2**64), 1.5, 1j]
THINGS = [None, "", "x", b"", b"x", [], {}, (), object(), type, lambda: 0, [None], ["x"], [[1.0]], ...]


class Garbage(unittest.TestCase):
    def setUp(self) -> None:
        self.satellite = Satellite.open(LINE1, LINE2)
        self.satrec = Satrec.twoline2rv(LINE1, LINE2)

    def hold(self, call: object, good: list[object], lawful: object = ()) -> None:
        """Each argument in turn becomes each piece of garbage; `lawful` tells those that are none."""
        self.assertTrue(good)
        for place in range(len(good)):
            for thing in NUMBERS + THINGS:
                if (place, repr(thing)) in lawful:  # type: ignore[operator]
                    continue
                arguments = good[:place] + [thing] + good[place + 1 :]
                with self.subTest(call=call, arguments=arguments), self.assertRaises((TypeError, ValueError)):
                    call(*arguments)  # type: ignore[operator]

    def test_lines(self) -> None:
        for call in (
            saddlekerf.read, saddlekerf.form, saddlekerf.epoch, Satellite.open, Roster().lodge, Satrec.twoline2rv,
        ):  # fmt: skip
            self.hold(call, [LINE1, LINE2])
        texts = {(0, repr(text)) for text in ("", "x", b"", b"x")}
        self.hold(saddlekerf.checksum, [LINE1], texts)
        self.hold(saddlekerf.report, [f"{LINE1}\n{LINE2}"], {(0, "''"), (0, "b''")})
        self.hold(saddlekerf.printed, [LINE1, LINE2], {(at, text) for _, text in texts for at in (0, 1)})
        self.hold(saddlekerf.mend, [LINE1, LINE2], {(at, text) for _, text in texts for at in (0, 1)})

    def test_times(self) -> None:
        nothing = {(0, repr(empty)) for empty in ([], {}, ())}
        self.hold(self.satellite.at, [Microseconds(5)], nothing)
        self.hold(self.satellite.request, [Microseconds(5)])
        self.hold(lambda time: self.satellite.at([time]), [Microseconds(5)])
        self.hold(self.satellite.windows, [[1, 2, 3], Instant(0), 60, 9])
        for call in (Microseconds, Microseconds.from_minutes, Instant):
            self.hold(call, [5])
        for call in (Microseconds.from_timedelta, Instant.from_datetime):
            self.hold(call, [None])
        self.hold(Instant.from_date, [2000, 1, 0])
        self.hold(Instant(0).moved, [Microseconds(0)])
        self.hold(Instant(0).since, [Instant(0)])

    def test_records(self) -> None:
        record = saddlekerf.read(LINE1, LINE2)
        self.hold(saddlekerf.meaning, [record])
        self.hold(lambda *fields: saddlekerf.Record(*fields).write(), list(record))

    def test_rosters_and_plans(self) -> None:
        self.hold(Roster, [bytes(Roster())], {(0, "None")})
        self.hold(Roster().withdraw, [5])
        self.hold(saddlekerf.changes, [Roster(), Roster()])
        offer = Offer(1, Instant(0), Instant(1), 5)
        # Of nothing at all there is nothing to refuse.
        empty = {(1, repr(thing)) for thing in ("", b"", [], {}, ())}
        self.hold(saddlekerf.check_plan, [[offer], [0], 5, 0], empty | {(0, text) for _, text in empty})
        self.hold(lambda *numbers: saddlekerf.check_plan([numbers], [0], 5, 0), list(offer))

    def test_by_the_names_of_sgp4(self) -> None:
        # Any float is a time, near or too far, and any number of seconds has its Julian date.
        floats = {(at, repr(number)) for at in range(6) for number in (1.5, 2**64, -(2**64))}
        self.hold(self.satrec.sgp4, [2451722.5, 0.0], floats)
        self.hold(self.satrec.sgp4_tsince, [0.0], floats)
        self.hold(self.satrec.sgp4_array, [[2451722.5], [0.0]])
        self.hold(lambda one, other: self.satrec.sgp4_array([one], [other]), [2451722.5, 0.0], floats)
        self.hold(SatrecArray, [[self.satrec]], {(0, repr(empty)) for empty in ("", b"", [], {}, ())})
        self.hold(SatrecArray([self.satrec]).sgp4, [[2451722.5], [0.0]])
        self.hold(exporter.export_tle, [self.satrec])
        with self.assertRaises(NotImplementedError):
            Satrec.twoline2rv(LINE1, LINE2, None)
        self.hold(sgp4.jday, [2000, 1, 1, 0, 0, 0.0], {(at, text) for at, text in floats if at > 2})
        self.hold(sgp4.days2mdhms, [2000, 1.5, 6], {(1, "1.5")})

    @unittest.skipIf(numpy is None, "NumPy is not installed")
    def test_arrays(self) -> None:
        good = numpy.array([2451722.5, 2451723.5])
        arrays = [
            numpy.array(["x", "y"]), numpy.array([None, 1.0]), numpy.zeros((2, 2)), numpy.array(5.0), numpy.zeros(3),
            numpy.array([1j, 2]), numpy.array([1, 2], "m8[s]"), numpy.array([True, False]), numpy.array([math.nan, 0]),
            numpy.array([0, math.inf]), numpy.zeros(0), numpy.zeros(2, "i4,f8"),
        ]  # fmt: skip
        for call in (self.satrec.sgp4_array, SatrecArray([self.satrec]).sgp4):
            for bad in arrays:
                for arguments in ((bad, good), (good, bad)):
                    with self.subTest(arguments=arguments), self.assertRaises((TypeError, ValueError)):
                        call(*arguments)


class Loading(unittest.TestCase):
    """A library that is missing, or is none, or is another's, is told in a sentence."""

    def told(self, library: str) -> str:
        environment = {"PYTHONPATH": str(ROOT / "python"), "SADDLEKERF_LIBRARY": library, "PATH": "/usr/bin:/bin"}
        run = subprocess.run(
            [sys.executable, "-c", "import saddlekerf"], env=environment, capture_output=True, text=True
        )
        self.assertEqual(run.returncode, 1)
        return run.stderr.strip().splitlines()[-1]

    def test_missing(self) -> None:
        self.assertIn("ImportError: there is no /no/such/file: make it", self.told("/no/such/file"))

    def test_no_library(self) -> None:
        self.assertIn("cannot be loaded", self.told(__file__))

    def test_of_another_version(self) -> None:
        import _ctypes

        self.assertIn(f"has no {_library.ABI}", self.told(_ctypes.__file__))
