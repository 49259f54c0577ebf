"""Skyfield takes a satellite of saddlekerf.sgp4, where it is installed."""

from __future__ import annotations

import unittest

from saddlekerf.sgp4 import Satrec

from .common import LINE1, LINE2

try:
    from skyfield.api import EarthSatellite, load, wgs84
except ImportError:
    EarthSatellite = None


@unittest.skipIf(EarthSatellite is None, "Skyfield (Debian: python3-skyfield) is not installed")
class Skyfield(unittest.TestCase):
    def setUp(self) -> None:
        self.scale = load.timescale(builtin=True)
        self.ours = EarthSatellite.from_satrec(Satrec.twoline2rv(LINE1, LINE2), self.scale)
        self.theirs = EarthSatellite(LINE1, LINE2, ts=self.scale)

    def test_positions(self) -> None:
        one, many = self.scale.utc(2000, 6, 28), self.scale.utc(2000, 6, 28, 0, range(0, 1440, 10))
        for time in (one, many):
            mine, its = self.ours.at(time).position.km, self.theirs.at(time).position.km
            self.assertEqual(mine.shape, its.shape)
            self.assertLess(abs(mine - its).max(), 1e-5)

    def test_epoch_and_name(self) -> None:
        self.assertEqual(self.ours.epoch.utc_iso(), "2000-06-27T18:50:20Z")
        self.assertEqual(str(self.ours), "catalog #5 epoch 2000-06-27 18:50:20 UTC")

    def test_events(self) -> None:
        """Skyfield's search for passes asks for arrays of times of its own choice."""
        place = wgs84.latlon(20.0, 30.0)
        spans = self.scale.utc(2000, 6, 28), self.scale.utc(2000, 6, 29)
        mine, its = (one.find_events(place, *spans, altitude_degrees=10) for one in (self.ours, self.theirs))
        self.assertEqual(mine[1].tolist(), its[1].tolist())
        self.assertGreater(len(mine[1]), 0)
        self.assertLess(abs(mine[0].tt - its[0].tt).max(), 1e-6)
