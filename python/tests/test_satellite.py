"""Satellites asked by the exact names: times of every kind, strides, windows, passes, looks, copies."""

from __future__ import annotations

import copy
import datetime
import pickle
import unittest

from saddlekerf import FARTHEST, Instant, Microseconds, Refused, Satellite, Strides
from saddlekerf._arrays import numpy

from .common import LINE1, LINE2, RESONANT, refusal_of


class Times(unittest.TestCase):
    def setUp(self) -> None:
        self.satellite = Satellite.open(LINE1, LINE2)

    def test_of_every_kind(self) -> None:
        span, hours = Microseconds.from_minutes(360), datetime.timedelta(hours=6)
        expected = self.satellite.at(span)
        instant = self.satellite.epoch.moved(span)
        for time in (hours, instant, instant.datetime):
            self.assertEqual(self.satellite.at(time), expected)
        self.assertEqual(self.satellite.at([span, hours, instant, instant.datetime])[:], [expected] * 4)
        self.assertEqual(refusal_of(self.satellite.at, datetime.timedelta.max).number, 9)

    @unittest.skipIf(numpy is None, "NumPy is not installed")
    def test_arrays(self) -> None:
        hours = numpy.arange(0, 48, 6)
        expected = self.satellite.at([datetime.timedelta(hours=int(hour)) for hour in hours])
        moments = numpy.datetime64(self.satellite.epoch.datetime.replace(tzinfo=None), "us") + hours.astype("m8[h]")
        for times in (hours.astype("m8[h]"), hours.astype("m8[h]").astype("m8[ns]"), moments, moments[::-1][::-1]):
            rows = self.satellite.at(times)
            self.assertEqual(rows.states.tobytes(), expected.states.tobytes())
            self.assertEqual(rows.refusals.tolist(), [0] * 8)
        for times in (
            numpy.array([1500], "m8[ns]"), numpy.array(["NaT"], "m8[us]"), numpy.array([10**15], "m8[D]"),
            numpy.array(["NaT"], "M8[s]"), numpy.array([2**62], "m8[ms]"),
        ):  # fmt: skip
            with self.assertRaises(ValueError, msg=str(times)):
                self.satellite.at(times)
        for times in (hours, hours * 1.0, hours.astype("m8"), hours.astype("m8[h]").reshape(2, 4), numpy.array([None])):
            with self.assertRaises(TypeError, msg=str(times)):
                self.satellite.at(times)
        far = numpy.array([-(2**63) + 1, 2**63 - 1], numpy.int64)
        for times in (far.astype("M8[us]"), far.astype("m8[us]")):
            self.assertEqual(self.satellite.at(times).refusals.tolist(), [9, 9])

    def test_long_lists(self) -> None:
        times = [Microseconds.from_minutes(minute) for minute in range(2500)]
        for lines in [(LINE1, LINE2), *RESONANT]:
            rows = Satellite.open(*lines).at(times)
            self.assertEqual(len(rows), 2500)
            for at in (0, 1023, 1024, 2047, 2048, 2499, -1):
                self.assertEqual(rows[at], Satellite.open(*lines).at(times[at]))
        self.assertEqual(len(self.satellite.at([])), 0)

    def test_a_bare_number_is_no_time(self) -> None:
        for time in (5, 5.0, "5", None, [5], [None], [Microseconds(5), 5], {}, object()):
            if time == {}:
                self.assertEqual(len(self.satellite.at(time)), 0)
                continue
            with self.assertRaises(TypeError, msg=str(time)):
                self.satellite.at(time)


class Strided(unittest.TestCase):
    def strides(self, satellite: Satellite, *minutes: int) -> list[int]:
        return [satellite.request(Microseconds.from_minutes(minute)).strides.count for minute in minutes]

    def test_at_the_edges(self) -> None:
        for lines in RESONANT:
            self.assertEqual(self.strides(Satellite.open(*lines), 1440, 2880, 1440, -720), [2, 2, 2, 1])
            self.assertEqual(self.strides(Satellite.open(*lines), 719, 720, 1440), [0, 1, 1])
            satellite = Satellite.open(*lines)
            answer = satellite.request(Microseconds(FARTHEST.count + 1))
            self.assertIsInstance(answer.row, Refused)
            self.assertEqual(answer.strides, Strides(0))
            self.assertEqual(satellite.request(FARTHEST).strides, Strides(7304))

    def test_copies_are_asked_on_their_own(self) -> None:
        for lines in RESONANT:
            satellite = Satellite.open(*lines)
            expected = satellite.at(FARTHEST)
            for other in (copy.copy(satellite), copy.deepcopy(satellite), pickle.loads(pickle.dumps(satellite))):
                self.assertEqual(self.strides(other, 1440), [2])
                self.assertEqual(other.at(FARTHEST), expected)


class AboveAStation(unittest.TestCase):
    def test_windows_are_runs(self) -> None:
        satellite = Satellite.open(LINE1, LINE2)
        start = satellite.epoch
        found, strides = satellite.windows([6378.135, 0.0, 0.0], start, 60, 1024)
        self.assertEqual((len(found), strides), (6, Strides(0)))
        self.assertEqual(satellite.windows([6378.135, 0, 0], start.datetime, 60, 1024).windows, found)
        self.assertEqual(found[0].first, start.moved(Microseconds.from_minutes(73)))
        self.assertEqual(found[0].last, start.moved(Microseconds.from_minutes(105)))
        for window in found:
            # Each sample of a window alone is a window, and the ones beside it are not.
            alone = satellite.windows([6378.135, 0.0, 0.0], window.first, 60, 1).windows
            self.assertEqual([(w.first, w.last) for w in alone], [(window.first, window.first)])
            after = window.last.moved(Microseconds.from_minutes(1))
            self.assertEqual(satellite.windows((6378.135, 0, 0), after, 60, 1).windows, [])

    def test_no_samples(self) -> None:
        satellite = Satellite.open(LINE1, LINE2)
        self.assertEqual(satellite.windows([1, 0, 0], Instant(0), 1, 0).windows, [])
        for start in (Instant(2**64 - 1), Instant(36_525 * 86_400_000_000)):
            for lines in [(LINE1, LINE2), *RESONANT]:
                answer = Satellite.open(*lines).windows([1, 0, 0], start, 86_400, 1024)
                self.assertEqual(answer, ([], Strides(0)))


class InTheSky(unittest.TestCase):
    """Passes, and where a satellite stands in a station's sky."""

    #: A pair of the published set, and Greenwich.
    LINES = (
        "1 06251U 62025E   06176.82412014  .00008885  00000-0  12808-3 0  3985",
        "2 06251  58.0579  54.0425 0030035 139.1568 221.1854 15.56387291  6774",
    )
    GREENWICH = 51.4779, -0.0015, 46
    #: The passes above 10 degrees of two days of minutes, as the programs print them: rise, azimuth, highest
    #: point, elevation, set, azimuth.
    PASSES = [
        ("2006-06-26 11:24:08.489641", "192.582", "2006-06-26 11:26:53.166311", "25.886", "2006-06-26 11:29:36.665876", "75.447"),
        ("2006-06-26 12:59:19.913534", "253.909", "2006-06-26 13:02:29.158756", "53.842", "2006-06-26 13:05:36.458846", "52.291"),
        ("2006-06-26 14:36:02.348408", "296.252", "2006-06-26 14:38:43.932298", "24.450", "2006-06-26 14:41:23.981383", "51.945"),
        ("2006-06-26 16:12:17.153022", "310.955", "2006-06-26 16:15:08.660389", "30.407", "2006-06-26 16:17:58.203954", "80.549"),
        ("2006-06-26 17:48:00.155543", "299.841", "2006-06-26 17:51:07.409138", "69.558", "2006-06-26 17:54:12.184872", "132.699"),
        ("2006-06-27 10:31:38.896600", "161.452", "2006-06-27 10:33:25.364433", "14.008", "2006-06-27 10:35:11.396615", "94.322"),
        ("2006-06-27 12:05:31.212822", "235.069", "2006-06-27 12:08:44.439231", "87.885", "2006-06-27 12:11:55.701024", "57.495"),
        ("2006-06-27 13:41:58.034153", "284.138", "2006-06-27 13:44:48.140078", "28.296", "2006-06-27 13:47:36.562123", "49.243"),
        ("2006-06-27 15:18:30.608845", "309.300", "2006-06-27 15:21:13.572122", "25.303", "2006-06-27 15:23:54.803616", "67.357"),
        ("2006-06-27 16:54:16.989064", "306.086", "2006-06-27 16:57:24.774045", "64.950", "2006-06-27 17:00:29.975619", "112.716"),
        ("2006-06-27 18:30:31.526261", "277.880", "2006-06-27 18:32:52.839967", "19.724", "2006-06-27 18:35:12.938468", "179.491"),
    ]

    def test_passes_are_what_the_programs_print(self) -> None:
        satellite = Satellite.open(*self.LINES)
        found = list(satellite.passes(*self.GREENWICH, 10, satellite.epoch, 60, 2880))
        self.assertEqual(found, list(satellite.passes(*self.GREENWICH, 10.0, satellite.epoch.datetime, 60, 2880)))
        self.assertEqual(len(found), len(self.PASSES))
        for one, (rise, first, highest, top, down, last) in zip(found, self.PASSES):
            self.assertFalse(one.begun or one.still)
            times = [at.datetime.strftime("%Y-%m-%d %H:%M:%S.%f") for at in one[:3]]
            self.assertEqual(times, [rise, highest, down])
            looks = [satellite.look(*self.GREENWICH, at) for at in one[:3]]
            angles = [looks[0].azimuth, looks[1].elevation, looks[2].azimuth]
            self.assertEqual([f"{angle:.3f}" for angle in angles], [first, top, last])
            self.assertTrue(looks[1].range < looks[0].range and looks[1].range < looks[2].range)

    def test_edges_of_the_samples(self) -> None:
        satellite = Satellite.open(*self.LINES)
        first = next(satellite.passes(*self.GREENWICH, 10, satellite.epoch, 60, 2880))
        start = first.rise.moved(Microseconds.from_minutes(1))
        [one] = satellite.passes(*self.GREENWICH, 10, start, 10, 7)
        self.assertEqual((one.begun, one.still, one.rise), (True, True, start))
        self.assertEqual(one.set, start.moved(Microseconds.from_minutes(1)))
        [one] = satellite.passes(*self.GREENWICH, 10, start, 60, 60)
        self.assertEqual((one.begun, one.still, one.set), (True, False, first.set))
        self.assertEqual(list(satellite.passes(*self.GREENWICH, 10, start, 60, 0)), [])
        self.assertEqual(list(satellite.passes(*self.GREENWICH, 90, start, 60, 2880)), [])
        self.assertEqual(list(satellite.passes(*self.GREENWICH, 0, Instant(2**64 - 1), 60, 2**32 - 1)), [])

    def test_the_satellite_stays(self) -> None:
        for lines in RESONANT:
            satellite = Satellite.open(*lines)
            satellite.look(0, 0, 0, satellite.epoch.moved(FARTHEST))
            list(satellite.passes(0, 0, 0, 0, satellite.epoch, 3600, 100))
            self.assertEqual(satellite.request(FARTHEST).strides, Strides(7304))

    def test_what_is_no_station(self) -> None:
        satellite = Satellite.open(LINE1, LINE2)
        for wrong in ("51", None, [1]):
            with self.assertRaises(TypeError):
                satellite.look(wrong, 0, 0, satellite.epoch)  # type: ignore[arg-type]
            with self.assertRaises(TypeError):
                satellite.passes(0, 0, wrong, 0, satellite.epoch, 60, 1)  # type: ignore[arg-type]
        with self.assertRaises(TypeError):
            satellite.look(0, 0, 0, 5)  # type: ignore[arg-type]
        for samples in (-1, 2**32):
            with self.assertRaises(ValueError):
                satellite.passes(0, 0, 0, 0, satellite.epoch, 60, samples)
