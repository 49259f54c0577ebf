"""Julian dates and minutes as the nearest microsecond, held against exact fractions."""

from __future__ import annotations

import random
import unittest
from fractions import Fraction

from saddlekerf import julian
from saddlekerf._arrays import numpy

DAY = 86_400_000_000


def nearest(jd: float, fr: float) -> int:
    """Round of a Fraction goes to the nearest, ties to even."""
    return round((Fraction(jd) + Fraction(fr) - Fraction(julian.START)) * DAY)


def dates(chance: random.Random, count: int) -> list[tuple[float, float]]:
    """Dates as people write them, close to the middle between two microseconds, and of any size."""
    found = []
    for _ in range(count):
        jd = chance.choice([2435839.5 + chance.randrange(36525), chance.uniform(2.43e6, 2.48e6)])
        fr = chance.choice([
            chance.random(), chance.uniform(-2, 2), chance.randrange(86400) / 86400, 0.0,
            (chance.randrange(DAY) + 0.5) / DAY, chance.randrange(2**20) * 2.0**-20, chance.uniform(-1, 1) * 1e-300,
        ])  # fmt: skip
        if chance.random() < 0.1:
            jd, fr = chance.choice([(0.0, jd), (jd + 5e5, -5e5), (1e300, fr), (fr, jd), (-1e18, fr)])
        found.append((jd, fr))
    return found


class Nearest(unittest.TestCase):
    def test_one(self) -> None:
        for jd, fr in dates(random.Random(1), 5000):
            self.assertEqual(julian.instant(jd, fr), nearest(jd, fr), (jd, fr))

    def test_ties_go_to_even(self) -> None:
        half = 2.0**-14  # 86,400,000,000 is 2^13 times an odd number: a tie
        for jd in (2435839.5, 2451544.5):
            for times in (1, 3, 5, -1, -3):
                exact = (Fraction(jd) + Fraction(half) * times - Fraction(julian.START)) * DAY
                self.assertEqual(exact.denominator, 2)
                self.assertEqual(julian.instant(jd, half * times), round(exact))
                self.assertEqual(julian.instant(jd, half * times) % 2, 0)

    def test_minutes(self) -> None:
        chance = random.Random(2)
        for _ in range(5000):
            minutes = chance.choice([chance.uniform(-1e6, 1e6), chance.randrange(10**9) / 60e6, 1e300, 5e-324])
            self.assertEqual(julian.minutes(minutes), round(Fraction(minutes) * 60_000_000))

    @unittest.skipIf(numpy is None, "NumPy is not installed")
    def test_many(self) -> None:
        chance = random.Random(3)
        ordinary = [pair for pair in dates(chance, 20_000) if abs(pair[1]) <= 2 and 2.43e6 < pair[0] < 2.48e6]
        ties = [(2435839.5 + day, (2 * part + 1) * 2.0**-14) for day, part in zip(range(50), range(50))]
        far = [(2435839.5 + chance.uniform(-4.1e4, 4.1e4), chance.uniform(-4.1e4, 4.1e4)) for _ in range(5000)]
        for pairs in (ordinary, dates(chance, 2000), ties, far, ordinary[:1], []):
            jd, fr = numpy.array([p[0] for p in pairs]), numpy.array([p[1] for p in pairs])
            expected = [min(max(nearest(*pair), -(2**62)), 2**62) for pair in pairs]
            with numpy.errstate(all="raise", under="ignore"):
                found = julian.instants(jd, fr).tolist()
            self.assertEqual(found, expected)

    @unittest.skipIf(numpy is None, "NumPy is not installed")
    def test_not_finite(self) -> None:
        for bad in (float("nan"), float("inf"), float("-inf")):
            for jd, fr in ((bad, 0.0), (2451544.5, bad)):
                with self.assertRaises(ValueError):
                    julian.instant(jd, fr)
                with self.assertRaises(ValueError), numpy.errstate(all="raise"):
                    julian.instants(numpy.array([2451544.5, jd]), numpy.array([0.0, fr]))
