"""Side by side with the package sgp4, where it is installed.

Every pair and time that the two answer differ by less than 1E-6 km; docs/TEST-SET.md has the known causes of
what differs, those of refusals among them.
"""

from __future__ import annotations

import math
import random
import unittest

from saddlekerf import sgp4 as ours
from saddlekerf._arrays import numpy

from .common import LINE1, LINE2, published, random_record

try:
    from sgp4 import api as theirs
except ImportError:
    theirs = None

DAY = 86_400_000_000


@unittest.skipIf(theirs is None, "the package sgp4 (Debian: python3-sgp4) is not installed")
class SideBySide(unittest.TestCase):
    def test_random_pairs(self) -> None:
        chance, answered, worst = random.Random(72), 0, 0.0
        for _ in range(1200):
            lines = random_record(chance).write()
            one, other = ours.Satrec.twoline2rv(*lines), theirs.Satrec.twoline2rv(*lines)
            for time in (0, chance.randint(-10 * DAY, 10 * DAY), chance.randint(-DAY, DAY)):
                error, position, velocity = one.sgp4_tsince(time / 60e6)
                also, place, speed = other.sgp4_tsince(time / 60e6)
                if one.refusal == 7:  # sgp4 has no such test
                    continue
                self.assertEqual(error, also, lines)
                if error:
                    continue
                worst = max(worst, math.dist(position, place))
                self.assertLess(math.dist(position, place), 1e-6, (lines, time))
                self.assertLess(math.dist(velocity, speed), 1e-9, (lines, time))
                answered += 1
        self.assertGreater(answered, 3000)
        self.assertGreater(worst, 0)

    def test_published_pairs(self) -> None:
        for pair in published():
            if pair.refused:
                continue
            one, other = (package.Satrec.twoline2rv(pair.line1, pair.line2) for package in (ours, theirs))
            for row in pair.rows:
                if abs(row.time) < 60 * DAY:
                    places = (satellite.sgp4_tsince(row.time / 60e6)[1] for satellite in (one, other))
                    self.assertLess(math.dist(*places), 5e-6, (pair.line1, row.time))

    def test_attributes(self) -> None:
        names = """satnum classification intldesg epochyr epochdays jdsatepoch jdsatepochF ndot ephtype elnum inclo
            nodeo ecco argpo mo no_kozai no revnum method mu radiusearthkm j2 j3 j4 j3oj2 xke tumin
            operationmode""".split()
        chance = random.Random(2)
        pairs = [(p.line1, p.line2) for p in published() if not p.refused]
        for lines in pairs + [random_record(chance).write() for _ in range(300)]:
            one, other = ours.Satrec.twoline2rv(*lines), theirs.Satrec.twoline2rv(*lines)
            for name in names:
                if name == "method" and one.refusal:
                    continue
                mine, its = getattr(one, name), getattr(other, name)
                self.assertEqual((mine, type(mine)), (its, type(its)), (name, lines))
            for name in ("bstar", "nddot"):  # rounded once here, twice there
                self.assertTrue(math.isclose(getattr(one, name), getattr(other, name), rel_tol=1e-15), (name, lines))

    def test_a_julian_date_is_a_whole_microsecond(self) -> None:
        """The one difference of the two in `sgp4`: half a microsecond of the orbit."""
        one, other = ours.Satrec.twoline2rv(LINE1, LINE2), theirs.Satrec.twoline2rv(LINE1, LINE2)
        chance = random.Random(3)
        for _ in range(1000):
            jd, fr = 2451722.5 + chance.randrange(5), chance.random()
            error, position, velocity = one.sgp4(jd, fr)
            also, place, speed = other.sgp4(jd, fr)
            self.assertEqual((error, also), (0, 0))
            self.assertLess(math.dist(position, place), 0.5e-6 * math.hypot(*velocity) + 1e-6)

    def test_dates(self) -> None:
        chance = random.Random(4)
        for _ in range(2000):
            date = chance.randint(1957, 2056), chance.randint(1, 12), chance.randint(1, 28)
            time = chance.randrange(24), chance.randrange(60), chance.uniform(0, 60)
            self.assertEqual(ours.jday(*date, *time), theirs.jday(*date, *time))
            year, days = chance.randint(1957, 2056), chance.randrange(10**8, 366 * 10**8) / 10**8
            mine, its = ours.days2mdhms(year, days), theirs.days2mdhms(year, days)
            self.assertEqual(mine[:4], its[:4])
            self.assertAlmostEqual(mine[4], its[4], 6)

    @unittest.skipIf(numpy is None, "NumPy is not installed")
    def test_arrays_have_its_shapes(self) -> None:
        jd, fr = numpy.full(5, 2451722.5), numpy.linspace(0, 1, 5)
        answers = []
        for package in (ours, theirs):
            satellite = package.Satrec.twoline2rv(LINE1, LINE2)
            answers.append((*satellite.sgp4_array(jd, fr), *package.SatrecArray([satellite] * 2).sgp4(jd, fr)))
        for mine, its in zip(*answers):
            self.assertEqual((type(mine), mine.shape), (type(its), its.shape))
            numpy.testing.assert_allclose(mine, its, rtol=0, atol=1e-5)
