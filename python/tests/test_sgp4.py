"""The names of the package sgp4."""

from __future__ import annotations

import copy
import math
import pickle
import unittest

import saddlekerf.sgp4
from saddlekerf import Refused, sgp4
from saddlekerf._arrays import numpy
from saddlekerf.sgp4 import SGP4_ERRORS, WGS72, WGS72OLD, WGS84, Satrec, SatrecArray, days2mdhms, exporter, jday

from .common import LINE1, LINE2, RESONANT, with_text

BELOW2 = with_text(LINE2, 27, "9859667")
LEVEL2 = with_text(LINE2, 9, "180.0000")


def all_nan(*vectors: object) -> bool:
    return all(math.isnan(number) for vector in vectors for number in vector)  # type: ignore[attr-defined]


class One(unittest.TestCase):
    def test_attributes(self) -> None:
        satellite = Satrec.twoline2rv(LINE1, LINE2)
        self.assertEqual((satellite.satnum, satellite.satnum_str), (5, "00005"))
        self.assertEqual((satellite.classification, satellite.intldesg), ("U", "58002B"))
        self.assertEqual((satellite.epochyr, satellite.epochdays), (0, 179.78495062))
        self.assertEqual((satellite.jdsatepoch, satellite.jdsatepochF), (2451722.5, 0.78495062))
        self.assertEqual((satellite.ephtype, satellite.elnum, satellite.revnum), (0, 475, 41366))
        self.assertEqual((satellite.inclo, satellite.nodeo), (math.radians(34.2682), math.radians(348.7242)))
        self.assertEqual((satellite.argpo, satellite.mo), (math.radians(331.7664), math.radians(19.3264)))
        self.assertEqual((satellite.ecco, satellite.bstar, satellite.nddot), (0.1859667, 2.8098e-5, 0.0))
        self.assertAlmostEqual(satellite.no_kozai, 10.82419157 * 2 * math.pi / 1440, 16)
        self.assertAlmostEqual(satellite.ndot * 1440**2 / (2 * math.pi), 0.00000023, 16)
        self.assertEqual((satellite.error, satellite.refusal, satellite.no), (0, 0, satellite.no_kozai))
        self.assertEqual([Satrec.twoline2rv(*pair).method for pair in [(LINE1, LINE2), *RESONANT]], ["n", "d", "d"])

    def test_letters(self) -> None:
        satellite = Satrec.twoline2rv(with_text(LINE1, 3, "Z9999"), with_text(LINE2, 3, "Z9999"))
        self.assertEqual((satellite.satnum, satellite.satnum_str), (339_999, "Z9999"))
        self.assertEqual(exporter.export_tle(satellite)[1][2:7], "Z9999")

    def test_exported(self) -> None:
        for pair in [(LINE1, LINE2), *RESONANT]:
            self.assertEqual(exporter.export_tle(Satrec.twoline2rv(*pair)), pair)
        other = "1 00005U 58002B   00179.78495062 +.00000023 +00000+0 +28098-4 0 04752"
        self.assertEqual(exporter.export_tle(Satrec.twoline2rv(other, LINE2)), (LINE1, LINE2))

    def test_lines(self) -> None:
        expected = Satrec.twoline2rv(LINE1, LINE2).sgp4_tsince(5.0)
        for one, two in ((LINE1 + "\n", LINE2 + " \r\n"), (LINE1.encode(), memoryview(LINE2.encode()))):
            self.assertEqual(Satrec.twoline2rv(one, two).sgp4_tsince(5.0), expected)
        with self.assertRaises(Refused) as raised:
            Satrec.twoline2rv(LINE1, LINE2.replace("34.2682", "34,2682"))
        self.assertEqual((raised.exception.line, raised.exception.column), (2, 12))
        with self.assertRaises(ValueError):
            Satrec.twoline2rv(LINE1, LINE2 + " 0.00 4320.0")

    def test_what_is_not_had(self) -> None:
        for call in (
            Satrec, lambda: Satrec.twoline2rv(LINE1, LINE2, WGS84), lambda: Satrec.twoline2rv(LINE1, LINE2, WGS72OLD),
            lambda: Satrec.twoline2rv(LINE1, LINE2).sgp4init(WGS72, "i", 5, 18441.7, 3e-5, 0, 0, 0.1, 1, 1, 1, 1, 1),
        ):  # fmt: skip
            with self.assertRaisesRegex(NotImplementedError, "the library is proved for"):
                call()
        satellite = Satrec.twoline2rv(LINE1, LINE2, WGS72)
        with self.assertRaisesRegex(AttributeError, "no cc1: the library does not tell"):
            satellite.cc1
        with self.assertRaises(AttributeError):
            satellite.inclo = 1.0

    def test_pairs_that_do_not_open(self) -> None:
        for line2, error, refusal in ((BELOW2, 5, 7), (LEVEL2, 8, 8)):
            satellite = Satrec.twoline2rv(LINE1, line2)
            self.assertEqual((satellite.error, satellite.refusal, satellite.satnum), (error, refusal, 5))
            for answer in (satellite.sgp4_tsince(0.0), satellite.sgp4(2451722.5, 0.5)):
                self.assertEqual(answer[0], error)
                self.assertTrue(all_nan(*answer[1:]))
            with self.assertRaises(Refused) as raised:
                satellite.method
            self.assertEqual(raised.exception.number, refusal)
            self.assertEqual(exporter.export_tle(satellite), (LINE1, line2))

    def test_times_too_far(self) -> None:
        satellite = Satrec.twoline2rv(LINE1, LINE2)
        for answer in (satellite.sgp4_tsince(1e300), satellite.sgp4(0, 0), satellite.sgp4(2451722.5, -1e308)):
            self.assertEqual((answer[0], satellite.error, satellite.refusal), (9, 9, 9))
            self.assertTrue(all_nan(*answer[1:]))
        self.assertEqual(satellite.sgp4_tsince(3652 * 1440)[0], 0)
        self.assertEqual(satellite.error, 0)

    def test_errors(self) -> None:
        ours = {1: 11, 2: 10, 3: 12, 4: 13, 5: 7, 6: 14, 8: 8, 9: 9, 15: 15}
        self.assertEqual(sgp4.REFUSALS, ours)
        self.assertEqual(set(SGP4_ERRORS), set(ours))
        for error, refusal in ours.items():
            self.assertTrue(SGP4_ERRORS[error].endswith(f" (refusal {refusal})"))
        self.assertIn("decayed", SGP4_ERRORS[6])

    def test_copies(self) -> None:
        satellite = Satrec.twoline2rv(*RESONANT[0])
        for other in (copy.copy(satellite), copy.deepcopy(satellite), pickle.loads(pickle.dumps(satellite))):
            self.assertEqual(other.sgp4_tsince(1e5), satellite.sgp4_tsince(1e5))
            self.assertIsNot(other._memory, satellite._memory)

    def test_dates(self) -> None:
        self.assertEqual(jday(2000, 6, 27, 18, 50, 19.733568), (2451722.5, 67819.733568 / 86400))
        self.assertEqual(jday(1957, 1, 1, 0, 0, 0), (2435839.5, 0.0))
        self.assertEqual(days2mdhms(2000, 366.0), (12, 31, 0, 0, 0.0))
        self.assertEqual(days2mdhms(2001, 60.9999999999999), (3, 2, 0, 0, 0.0))
        self.assertEqual(days2mdhms(1999, 1.5, 0), (1, 1, 12, 0, 0.0))


@unittest.skipIf(numpy is None, "NumPy is not installed")
class Many(unittest.TestCase):
    def setUp(self) -> None:
        pairs = [(LINE1, LINE2), *RESONANT, (LINE1, BELOW2)]
        self.satellites = [Satrec.twoline2rv(*pair) for pair in pairs]
        self.jd = numpy.full(2500, 2453911.5)
        self.fr = numpy.arange(2500) / 1440

    def test_shapes_and_rows(self) -> None:
        self.jd[7] = 0
        errors, positions, velocities = SatrecArray(self.satellites).sgp4(self.jd, self.fr)
        self.assertEqual((errors.shape, positions.shape, velocities.shape), ((4, 2500), (4, 2500, 3), (4, 2500, 3)))
        self.assertEqual(errors.dtype, numpy.uint8)
        for at, satellite in enumerate(self.satellites):
            e, r, v = satellite.sgp4_array(self.jd, self.fr)
            self.assertEqual((e.shape, r.shape, v.shape), ((2500,), (2500, 3), (2500, 3)))
            self.assertEqual((e.tobytes(), r.tobytes()), (errors[at].tobytes(), positions[at].tobytes()))
            self.assertEqual(v.tobytes(), velocities[at].tobytes())
            for row in (0, 7, 1023, 1024, 2499):
                error, position, velocity = satellite.sgp4(self.jd[row], self.fr[row])
                self.assertEqual(error, e[row])
                numpy.testing.assert_array_equal(position, r[row])
                numpy.testing.assert_array_equal(velocity, v[row])
        self.assertEqual(errors[:, 7].tolist(), [9, 9, 9, 5])
        self.assertTrue(numpy.isnan(positions[:, 7]).all() and numpy.isnan(velocities[3]).all())
        self.assertFalse(numpy.isnan(positions[:3, 8:]).any())

    def test_other_types(self) -> None:
        satellite = self.satellites[0]
        expected = satellite.sgp4_array(self.jd[:9], self.fr[:9])[1].tobytes()
        wide = numpy.repeat(self.fr[:9], 2)[::2]
        jd = [2453911.5] * 9
        for arguments in ((jd, self.fr[:9].tolist()), (tuple(jd), self.fr[:9]), (self.jd[:9].astype("f4"), wide)):
            self.assertEqual(satellite.sgp4_array(*arguments)[1].tobytes(), expected)
        whole = satellite.sgp4_array(numpy.array([2453911, 2453912]), numpy.array([0, 1]))
        self.assertEqual(whole[0].tolist(), [0, 0])
        self.jd.setflags(write=False)
        self.assertEqual(satellite.sgp4_array(self.jd[:9], self.fr[:9])[1].tobytes(), expected)

    def test_nothing(self) -> None:
        none = numpy.array([])
        for e, r, v in (self.satellites[0].sgp4_array(none, none), self.satellites[3].sgp4_array([], [])):
            self.assertEqual((e.shape, r.shape, v.shape), ((0,), (0, 3), (0, 3)))
        self.assertEqual([satellite.error for satellite in self.satellites], [0, 0, 0, 5])
        self.assertEqual(SatrecArray([]).sgp4(self.jd, self.fr)[1].shape, (0, 2500, 3))
        self.assertEqual(SatrecArray(self.satellites).sgp4(none, none)[1].shape, (4, 0, 3))

    def test_the_error_is_the_last_row_s(self) -> None:
        satellite = self.satellites[0]
        satellite.sgp4_array(numpy.array([2453911.5, 0.0]), numpy.zeros(2))
        self.assertEqual((satellite.error, satellite.refusal), (9, 9))
        satellite.sgp4_array(numpy.array([0.0, 2453911.5]), numpy.zeros(2))
        self.assertEqual((satellite.error, satellite.refusal), (0, 0))

    def test_what_was_given_out_stays(self) -> None:
        """A later call, of the same satellite or another, at the same dates or others, writes nothing of an earlier."""
        for call in (self.satellites[1].sgp4_array, SatrecArray(self.satellites).sgp4):
            first = call(self.jd[:1024], self.fr[:1024])
            before = [part.tobytes() for part in first]
            for satellite in self.satellites:
                for fr in (self.fr[:1024], self.fr[1024:2048]):
                    satellite.sgp4_array(self.jd[:1024], fr)
                    SatrecArray(self.satellites).sgp4(self.jd[:1024], fr)
            self.assertEqual([part.tobytes() for part in first], before)
            for part in first:
                part[...] = 0
            self.assertEqual([part.tobytes() for part in call(self.jd[:1024], self.fr[:1024])], before)

    def test_dates_written_to_between_calls_are_new(self) -> None:
        satellite = self.satellites[0]
        jd, fr = self.jd[:9].copy(), self.fr[:9].copy()
        for dates, value in ((jd, 2453912.5), (fr, 0.25), (fr, -0.0), (jd, 0.0)):
            satellite.sgp4_array(jd, fr)
            dates[4] = value
            errors, positions, _ = satellite.sgp4_array(jd, fr)
            error, position, _ = satellite.sgp4(jd[4], fr[4])
            self.assertEqual(errors[4], error)
            numpy.testing.assert_array_equal(positions[4], position)
        with self.assertRaises(ValueError):
            satellite.sgp4_array(jd, numpy.full(9, math.nan))

    def test_what_is_given_stays(self) -> None:
        before = self.jd.tobytes(), self.fr.tobytes()
        SatrecArray(self.satellites).sgp4(self.jd, self.fr)
        self.satellites[0].sgp4_array(self.jd, self.fr)
        self.assertEqual((self.jd.tobytes(), self.fr.tobytes()), before)


class Names(unittest.TestCase):
    def test_all(self) -> None:
        for name in saddlekerf.sgp4.__all__:
            self.assertTrue(hasattr(saddlekerf.sgp4, name))
        self.assertTrue(saddlekerf.sgp4.accelerated)
