"""Times in the best order."""

from __future__ import annotations

import random
import unittest

import saddlekerf
from saddlekerf import Microseconds, Satellite

from .common import RESONANT


class BestOrder(unittest.TestCase):
    def test_the_order(self) -> None:
        chance = random.Random(14)
        for count in (0, 1, 2, 50, 3000):
            times = [Microseconds(chance.choice([0, chance.randrange(-(2**63), 2**63)])) for _ in range(count)]
            expected = sorted(times, key=lambda time: (time.count < 0, abs(time.count)))
            self.assertEqual(saddlekerf.best_order(times), expected)

    def test_no_order_takes_fewer_strides(self) -> None:
        chance = random.Random(15)
        times = [Microseconds.from_minutes(chance.randrange(-100_000, 100_000)) for _ in range(200)]
        for lines in RESONANT:
            best = Satellite.open(*lines).at(saddlekerf.best_order(times)).strides
            farthest = max(t.count for t in times) // 43_200_000_000 + max(-t.count for t in times) // 43_200_000_000
            self.assertEqual(best.count, farthest)
            self.assertLess(best, Satellite.open(*lines).at(times).strides)

    def test_garbage(self) -> None:
        for times in (None, 5, [5], ["x"], [None]):
            with self.assertRaises(TypeError):
                saddlekerf.best_order(times)
