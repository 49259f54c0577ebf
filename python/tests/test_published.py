"""Every published row, bit for bit, by each way of asking; and the published positions."""

from __future__ import annotations

import unittest

from saddlekerf import Microseconds, Refused, Satellite
from saddlekerf._arrays import numpy
from saddlekerf.julian import START
from saddlekerf.sgp4 import Satrec, SatrecArray

from .common import VECTORS, bits, published, refusal_of


class PublishedRows(unittest.TestCase):
    pairs = published()

    def test_there_are_all(self) -> None:
        self.assertEqual(len(self.pairs), 33)
        self.assertEqual(sum(len(pair.rows) for pair in self.pairs), 572)
        self.assertEqual(sum(pair.refused is not None for pair in self.pairs), 5)

    def test_one_after_the_other(self) -> None:
        for pair in self.pairs:
            if pair.refused:
                continue
            satellite = Satellite.open(pair.line1, pair.line2)
            for row in pair.rows:
                state, strides = satellite.request(Microseconds(row.time))
                self.assertEqual(bits(state.position + state.velocity), row.state)
                self.assertEqual((state.rounds, strides.count), (row.rounds, row.strides))

    def test_as_a_list(self) -> None:
        for pair in self.pairs:
            if pair.refused:
                continue
            satellite = Satellite.open(pair.line1, pair.line2)
            rows = satellite.at([Microseconds(row.time) for row in pair.rows])
            self.assertEqual(rows.strides.count, sum(row.strides for row in pair.rows))
            for state, row in zip(rows, pair.rows):
                self.assertEqual(bits(state.position + state.velocity), row.state)
                self.assertEqual(state.rounds, row.rounds)

    def test_refused(self) -> None:
        for pair in self.pairs:
            if not pair.refused:
                continue
            refused = refusal_of(Satellite.open, pair.line1, pair.line2)
            said = f"refused {refused.number}"
            said += f" line {refused.line}" if refused.line else ""
            said += f" column {refused.column}" if refused.column else ""
            self.assertEqual(said, pair.refused.replace(" at opening", ""))

    def test_by_the_names_of_sgp4(self) -> None:
        for pair in self.pairs:
            if pair.refused:
                continue
            satellite = Satrec.twoline2rv(pair.line1, pair.line2)
            for row in pair.rows:
                # The sum of the two is exact: every time is a whole number of microseconds of few days.
                jd, fr = divmod(satellite.record.epoch.count + row.time, 86_400_000_000)
                for answer in (satellite.sgp4_tsince(row.time / 60e6), satellite.sgp4(START + jd, fr / 86.4e9)):
                    self.assertEqual(answer[0], 0)
                    self.assertEqual(bits(answer[1] + answer[2]), row.state)

    @unittest.skipIf(numpy is None, "NumPy is not installed")
    def test_arrays(self) -> None:
        good = [pair for pair in self.pairs if not pair.refused]
        for pair in good:
            satellite = Satrec.twoline2rv(pair.line1, pair.line2)
            times = [divmod(satellite.record.epoch.count + row.time, 86_400_000_000) for row in pair.rows]
            jd = numpy.array([START + day for day, _ in times])
            fr = numpy.array([part / 86.4e9 for _, part in times])
            for errors, positions, velocities in (
                satellite.sgp4_array(jd, fr),
                [answer[0] for answer in SatrecArray([satellite]).sgp4(jd, fr)],
            ):
                self.assertEqual(errors.tolist(), [0] * len(pair.rows))
                for position, velocity, row in zip(positions, velocities, pair.rows):
                    self.assertEqual(bits([*position, *velocity]), row.state)


class PublishedPositions(unittest.TestCase):
    """bench/vectors/tcppver.out: positions printed to 1E-8 km by a program of others."""

    def test_positions(self) -> None:
        satellites: dict[str, list[list[str]]] = {}
        for line in (VECTORS / "tcppver.out").read_text().splitlines():
            words = line.split()
            if words[-1] == "xx":
                rows = satellites.setdefault(words[0], [])
            else:
                rows.append(words)
        compared = 0
        for pair in published():
            if pair.refused:
                continue
            satellite = Satrec.twoline2rv(pair.line1, pair.line2)
            for words in satellites[str(satellite.satnum)]:
                error, position, _ = satellite.sgp4_tsince(float(words[0]))
                apart = sum((a - float(b)) ** 2 for a, b in zip(position, words[1:4])) ** 0.5
                self.assertEqual(error, 0)
                self.assertLess(apart, 5e-6, (satellite.satnum, words[0]))
                compared += 1
        self.assertGreaterEqual(compared, 572)

    def test_where_the_published_program_stopped(self) -> None:
        stops = {"22312": (494.2028672, 1, 11), "28350": (1560, 1, 11), "29141": (440, 6, 14)}
        for pair in published():
            if pair.line1[2:7] in stops:
                minutes, error, refusal = stops[pair.line1[2:7]]
                satellite = Satrec.twoline2rv(pair.line1, pair.line2)
                answer = satellite.sgp4_tsince(minutes)
                self.assertEqual((answer[0], satellite.error, satellite.refusal), (error, error, refusal))
                self.assertTrue(all(number != number for number in answer[1] + answer[2]))
                with self.assertRaises(Refused) as raised:
                    Satellite.open(pair.line1, pair.line2).at(Microseconds(round(minutes * 60e6)))
                self.assertEqual(raised.exception.number, refusal)
