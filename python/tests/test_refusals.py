"""Every refusal with its number, what comes back with it, and its sentence."""

from __future__ import annotations

import copy
import math
import pickle
import unittest

import saddlekerf
from saddlekerf import Instant, Microseconds, Offer, Refused, Roster, Satellite, check_plan, read, report
from saddlekerf import _answer, refusal

from .common import LINE1, LINE2, RESONANT, refusal_of, with_text

ODD1, ODD2 = with_text(LINE1, 27, "-"), with_text(LINE2, 12, ",")

#: line 1, line 2, number, line, column, field, sentence
LINES = [
    ("", LINE2, 1, 1, None, None, "line 1 has 0 bytes; a line has 69"),
    ("1", LINE2, 1, 1, None, None, "line 1 has 1 byte; a line has 69 (its last one is '1')"),
    (LINE1, LINE2[:68], 1, 2, None, None, "line 2 has 68 bytes; a line has 69 (its last one is '6')"),
    (LINE1 + "\r", LINE2, 1, 1, None, None, "line 1 has 70 bytes; a line has 69 (its last one is a carriage return)"),
    (LINE1, LINE2 + "\n", 1, 2, None, None, "line 2 has 70 bytes; a line has 69 (its last one is a newline)"),
    (LINE2, LINE1, 2, 1, None, None, "line 1 begins with '2'; column 1 has to be the digit 1"),
    (LINE1, LINE1, 2, 2, None, None, "line 2 begins with '1'; column 1 has to be the digit 2"),
    (
        LINE1, ODD2, 3, 2, 12, None,
        "line 2, column 12 of the inclination (columns 9-16) is ','; a point may stand there",
    ),
    (
        ODD1, LINE2, 3, 1, 27, None,
        "line 1, column 27 of the epoch's day (columns 21-32) is '-'; a digit may stand there",
    ),
    (
        LINE1.replace("0  4753", "   4753"), LINE2, 3, 1, 63, None,
        "line 1, column 63 of the ephemeris type (column 63) is a blank; a digit may stand there",
    ),
    (
        with_text(LINE1, 3, "I0005"), LINE2, 3, 1, 3, None,
        "line 1, column 3 of the catalogue number (columns 3-7) is 'I'; "
        "a digit, or a letter A-Z without I and O may stand there",
    ),
    (LINE1[:1] + "\t" + LINE1[2:], LINE2, 3, 1, 2, None, "line 1, column 2 is a tab; a blank may stand there"),
    (
        LINE1.encode().replace(b"U", b"\xff"), LINE2, 3, 1, 8, None,
        "line 1, column 8 of the classification (column 8) is the byte 0xff; U, C or S may stand there",
    ),
    (
        LINE1.replace("U", "№"), LINE2, 3, 1, 8, None,
        "line 1, column 8 of the classification (column 8) is '№'; U, C or S may stand there",
    ),
    (
        LINE1, with_text(LINE2, 9, "1 4.2682"), 3, 2, 10, None,
        "line 2, column 10 of the inclination (columns 9-16) is a blank; "
        "a digit (a blank never follows a digit) may stand there",
    ),
    (
        with_text(LINE1, 10, "58002B C"), LINE2, 3, 1, 17, None,
        "line 1, column 17 of the designator (columns 10-17) is 'C'; a blank (letters come first) may stand there",
    ),
    (LINE1[:68] + "4", LINE2, 4, 1, None, None, "the checksum of line 1, column 69, is '4'; columns 1-68 add up to 3"),
    (LINE1, LINE2[:68] + "8", 4, 2, None, None, "the checksum of line 2, column 69, is '8'; columns 1-68 add up to 7"),
    (LINE1, RESONANT[0][1], 5, None, None, None, "line 1 has the catalogue number 00005, line 2 has 08195"),
    (
        with_text(LINE1, 19, "01366.00000000"), LINE2, 6, None, None, "day",
        "the epoch's day (line 1, columns 21-32) is 366.00000000; 2001 has the days 001.00000000 to 365.99999999",
    ),
    (
        with_text(LINE1, 19, "96367.00000000"), LINE2, 6, None, None, "day",
        "the epoch's day (line 1, columns 21-32) is 367.00000000; 1996 has the days 001.00000000 to 366.99999999",
    ),
    (
        LINE1, with_text(LINE2, 9, "180.0001"), 6, None, None, "inclination",
        "the inclination (line 2, columns 9-16) is 180.0001; it may be 0 to 180.0000 degrees",
    ),
    (
        LINE1, with_text(LINE2, 18, "360.0000"), 6, None, None, "node",
        "the right ascension of the node (line 2, columns 18-25) is 360.0000; it may be 0 to 359.9999 degrees",
    ),
    (
        LINE1, with_text(LINE2, 35, "360.0000"), 6, None, None, "perigee",
        "the argument of perigee (line 2, columns 35-42) is 360.0000; it may be 0 to 359.9999 degrees",
    ),
    (
        LINE1, with_text(LINE2, 44, "999.9999"), 6, None, None, "anomaly",
        "the mean anomaly (line 2, columns 44-51) is 999.9999; it may be 0 to 359.9999 degrees",
    ),
    (
        LINE1, with_text(LINE2, 53, " 0.00000000"), 6, None, None, "motion",
        "the mean motion (line 2, columns 53-63) is 0.00000000; it may be more than 0 revolutions a day",
    ),
]  # fmt: skip

#: Pairs and times in seconds that are refused.
ASKED = {
    11: (
        "1 82235U 48731BC  88360.95081166 -.72626455  75228-2 -81143-2 0 35504",
        "2 82235  85.5954 117.2234 7463104  76.3680 321.1685  2.16261997510446", 35_040,
    ),
    12: (
        "1 W7155S 06364A   50182.67794381 -.77130320  08247-9 -67924-2 5 70345",
        "2 W7155  14.4084 169.9776 1864886 294.1247 204.1330  0.00050126 64081", 0,
    ),
    13: (
        "1 Y7251C 45010XYZ 31292.05079177  .71083722  73963-0 -18901-3 4  7238",
        "2 Y7251 121.0576 198.5195 9686647  83.9249 149.1439  0.03399794323113", 0,
    ),
    14: (
        "1 K4816C 61557BC  42315.84324990 -.99108068  95654+2  00000-0 4 24181",
        "2 K4816  74.2088  66.5423 5780816 331.4963  25.3598  4.06135927952050", -171_424_620,
    ),
}  # fmt: skip


class Refusals(unittest.TestCase):
    met: set[int] = set()
    begun: set[str] = set()

    def setUp(self) -> None:
        Refusals.begun.add(self._testMethodName)

    def hold(self, refused: Refused, number: int, sentence: str, **told: object) -> None:
        self.assertEqual(str(refused), f"refusal {number}: {sentence}")
        self.assertEqual((refused.number, refused.sentence), (number, sentence))
        for name in ("line", "column", "field", "place"):
            self.assertEqual(getattr(refused, name), told.get(name), name)
        self.assertIsInstance(refused, ValueError)
        Refusals.met.add(number)

    def test_lines(self) -> None:
        for line1, line2, number, line, column, field, sentence in LINES:
            with self.subTest(sentence):
                for call in (read, Satellite.open, saddlekerf.epoch, Roster().lodge):
                    told = {"line": line, "column": column, "field": field}
                    self.hold(refusal_of(call, line1, line2), number, sentence, **told)
                if number < 6:
                    self.hold(refusal_of(saddlekerf.form, line1, line2), number, sentence, **told)
                self.assertEqual(saddlekerf.printed(line1, line2), f"refused {number}\n")

    def test_opening(self) -> None:
        below = refusal_of(Satellite.open, LINE1, with_text(LINE2, 27, "9859667"))
        self.hold(below, 7, "the perigee at epoch lies below one Earth radius")
        # At 180 degrees a coefficient of the model is 0/0.
        level = refusal_of(Satellite.open, LINE1, with_text(LINE2, 9, "180.0000"))
        self.hold(level, 8, "a number of the opened satellite is not finite")

    def test_times(self) -> None:
        satellite = Satellite.open(LINE1, LINE2)
        self.assertTrue(satellite.at(saddlekerf.FARTHEST))
        for time in (Microseconds(saddlekerf.FARTHEST.count + 1), Microseconds(-(2**63)), Microseconds(2**63 - 1)):
            self.hold(refusal_of(satellite.at, time), 9, "the time is beyond 3,652 days from the epoch")
        for number, (line1, line2, seconds) in ASKED.items():
            satellite = Satellite.open(line1, line2)
            time = Microseconds(seconds * 10**6)
            self.hold(refusal_of(satellite.at, time), number, refusal.SENTENCES[number])
            rows = satellite.at([time, Microseconds(2**62)])
            self.assertEqual(list(rows.refusals), [number, 9])
            self.hold(refusal_of(rows.__getitem__, 0), number, refusal.SENTENCES[number])
            self.assertEqual([float(x) for x in memoryview(rows.states).cast("B").cast("d")], [0.0] * 12)

    def test_times_of_no_lines(self) -> None:
        """No lines are known to lead to refusal 10 or 15; memory changed by hand does."""
        for number, at, value in ((10, 7, -1.0), (15, 8, math.nan)):
            satellite = Satellite.open(LINE1, LINE2)
            satellite._memory._struct.numbers[at] = value
            self.hold(refusal_of(satellite.at, Microseconds(0)), number, refusal.SENTENCES[number])

    def test_records(self) -> None:
        record = read(LINE1, LINE2)
        for change in (
            {"number": 340_000}, {"number": -1}, {"classification": "u"}, {"piece": "B C"}, {"year": 1956},
            {"inclination": 1_800_001}, {"motion": 0}, {"bstar": saddlekerf.Exponential(0, 1)}, {"day": 2**63 - 1},
            {"year": 2001, "day": 366_5000_0000}, {"node": 3_600_000},
        ):  # fmt: skip
            self.hold(refusal_of(record._replace(**change).write), 16, "the record is outside layout or ranges")
        other = "a record's classification is one character, its piece three"
        self.hold(refusal_of(record._replace(piece="B").write), 16, other)
        self.hold(refusal_of(saddlekerf.meaning, record._replace(ephemeris_type=10)), 16, refusal.SENTENCES[16])

    def test_meanings(self) -> None:
        record = read(LINE1, LINE2)
        cases = [
            ({"day": 0}, "day", "the epoch's day is 000.00000000; 2000 has the days 001.00000000 to 366.99999999"),
            ({"inclination": 1_800_001}, "inclination", "the inclination is 180.0001; it may be 0 to 180.0000 degrees"),
            ({"motion": 0}, "motion", "the mean motion is 0.00000000; it may be more than 0 revolutions a day"),
        ]
        for change, field, sentence in cases:
            refused = refusal_of(saddlekerf.meaning, record._replace(**change))
            self.hold(refused, 6, sentence, field=field)
        both = record._replace(inclination=1_800_001, ephemeris_type=10)
        self.hold(refusal_of(saddlekerf.meaning, both), 16, refusal.SENTENCES[16])

    def test_instants(self) -> None:
        outside = refusal_of(Instant(2**64 - 1).date)
        self.hold(outside, 6, "the instant 18446744073709551615 lies outside 1957-2056")
        date = refusal_of(Instant.from_date, 2001, 366)
        self.hold(
            date, 6,
            "year 2001, day 366, microsecond 0 is no date: 1957 to 2056, a day of the year, below a day",
        )  # fmt: skip
        early = refusal_of(Instant(0).moved, Microseconds(-1))
        self.hold(early, 6, "the instant, or the one that the move reaches, lies outside 1957-2056")
        far = refusal_of(Instant(0).moved, Microseconds(315_532_800_000_001))
        self.hold(far, 9, "a move by 315532800000001 microseconds is beyond 3,652 days")

    def test_windows(self) -> None:
        satellite = Satellite.open(LINE1, LINE2)
        start = satellite.epoch
        cases = [
            (([0, 0, 0], start, 60, 9), 25, "the station [0.0, 0.0, 0.0] is zero or not finite"),
            (([1, 2, math.inf], start, 60, 9), 25, "the station [1.0, 2.0, inf] is zero or not finite"),
            (([1, 2, 3], start, 0, 9), 26, "the step is 0 s; it may be 1 to 86400"),
            (([1, 2, 3], start, 86_401, 9), 26, "the step is 86401 s; it may be 1 to 86400"),
            (([1, 2, 3], start, 60, 1025), 18, "1025 samples are more than 1024"),
            (([1, 2, 3], start, 60, 2**64 - 1), 18, "18446744073709551615 samples are more than 1024"),
            (([0, 0, 0], start, 0, 1025), 25, "the station [0.0, 0.0, 0.0] is zero or not finite"),
            (([1, 2, 3], start, 0, 1025), 26, "the step is 0 s; it may be 1 to 86400"),
        ]
        for arguments, number, sentence in cases:
            self.hold(refusal_of(satellite.windows, *arguments), number, sentence)

    def test_passes(self) -> None:
        satellite = Satellite.open(LINE1, LINE2)
        start = satellite.epoch
        ranges = "latitude -90 to 90, longitude -180 to 360 degrees, height -10,000 to 100,000 m"
        least = f"is out of range: {ranges}, least elevation 0 to 90 degrees"
        passes = [
            ((91, 0, 0, 5, start, 60, 9), 25, f"the station [91.0, 0.0, 0.0, 5.0] {least}"),
            ((0, 361, 0, 5, start, 0, 9), 25, f"the station [0.0, 361.0, 0.0, 5.0] {least}"),
            ((0, 0, math.nan, 5, start, 60, 9), 25, f"the station [0.0, 0.0, nan, 5.0] {least}"),
            ((0, 0, 0, -0.5, start, 60, 9), 25, f"the station [0.0, 0.0, 0.0, -0.5] {least}"),
            ((0, 0, 0, 5, start, 0, 9), 26, "the step is 0 s; it may be 1 to 86400"),
            ((0, 0, 0, 5, start, 86_401, 9), 26, "the step is 86401 s; it may be 1 to 86400"),
        ]
        for arguments, number, sentence in passes:
            self.hold(refusal_of(satellite.passes, *arguments), number, sentence)
        outside, far = Instant(36_525 * 86_400_000_000), start.moved(Microseconds(315_532_800_000_000))
        looks = [
            ((0, 0, 200_000, start), 25, f"the station [0.0, 0.0, 200000.0] is out of range: {ranges}"),
            ((0, 0, 0, outside), 6, "the instant 3155760000000000 lies outside 1957-2056"),
            ((0, 0, 0, Instant(far.count + 1)), 9, "the time is beyond 3,652 days from the epoch"),
        ]
        for arguments, number, sentence in looks:
            self.hold(refusal_of(satellite.look, *arguments), number, sentence)

    def test_rosters(self) -> None:
        roster = Roster()
        for number in range(64):
            roster.lodge(with_text(LINE1, 3, f"{number:05}"), with_text(LINE2, 3, f"{number:05}"))
        kept = bytes(roster)
        full = refusal_of(roster.lodge, with_text(LINE1, 3, "00064"), with_text(LINE2, 3, "00064"))
        self.hold(full, 19, "all 64 places of the roster hold other catalogue numbers")
        older = refusal_of(roster.lodge, with_text(LINE1, 19, "00179.78495061"), LINE2)
        self.hold(older, 20, "the roster's pair of 5 has a later epoch")
        for number in (64, -1, 2**64 - 1, 1 - 2**64):
            self.hold(refusal_of(roster.withdraw, number), 21, f"the roster has no pair of {number}")
        self.assertEqual(bytes(roster), kept)
        self.hold(refusal_of(Roster, b""), 22, "the 0 bytes are no roster of 8832")
        self.hold(refusal_of(Roster, kept[:-1] + b" "), 22, "the 8832 bytes are no roster of 8832")

    def test_reports(self) -> None:
        self.hold(refusal_of(report, "\n" * 8194), 23, "the text has more than 4,096 pairs")
        self.hold(refusal_of(report, "one line"), 24, "the text has an odd number of lines")

    def test_plans(self) -> None:
        def slot(start: int, end: int, bid: int = 5) -> Offer:
            return Offer(1, Instant(start), Instant(end), bid)

        good = [slot(0, 10), slot(10, 20), slot(5, 15)]
        unsound = "is outside the calendar, does not end after it starts or bids more than 1,000,000,000"
        cases = [
            ((good * 100, [], 0, 0), 18, "300 offers and 0 entries; a plan has at most 256 of each", None),
            ((good, [0] * 257, 0, 0), 18, "3 offers and 257 entries; a plan has at most 256 of each", None),
            ((good + [slot(7, 7)], [], 0, 0), 27, f"offer 3 {unsound}", 3),
            (([slot(1, 2, 10**9 + 1)], [], 0, 0), 27, f"offer 0 {unsound}", 0),
            ((good, [0, 3], 0, 0), 28, "entry 1 names no offer: there are 3", 1),
            ((good, [0, 1, 0], 0, 0), 29, "entry 2 names an offer that an earlier one names", 2),
            ((good, [0, 2], 10, 0), 30, "the offer of entry 1 clashes with that of an earlier entry", 1),
            ((good, [0, 1], 11, 0), 31, "the total is not the sum of the bids", None),
        ]
        for arguments, number, sentence, place in cases:
            self.hold(refusal_of(check_plan, *arguments), number, sentence, place=place)
        self.assertIsNone(check_plan(good, [0, 1], 10, 0))

    @classmethod
    def tearDownClass(cls) -> None:
        """All tests together meet every number but 17: the package lends what is long enough."""
        if cls.begun == set(unittest.defaultTestLoader.getTestCaseNames(cls)):
            assert cls.met == set(refusal.SENTENCES) - {17}, set(refusal.SENTENCES) - cls.met

    def test_kept_and_copied(self) -> None:
        refused = refusal_of(read, LINE1, ODD2)
        for again in (pickle.loads(pickle.dumps(refused)), copy.copy(refused)):
            self.assertEqual((str(again), vars(again)), (str(refused), vars(refused)))


class Foreign(unittest.TestCase):
    """Answers that belong to no library of this header are no refusals."""

    def test_of_lines(self) -> None:
        for answer in (27, 1, 0x301, 0x10101, 6, 0x70006, 0x107, 0x10009, 9, 1 << 32, 0x0C0303, 0x100000101):
            with self.assertRaises(RuntimeError, msg=hex(answer)):
                refusal.of_lines(answer, LINE1, LINE2)

    def test_others(self) -> None:
        for call in (lambda: refusal.plain(20, 19), lambda: refusal.of_fields(6, []), lambda: _answer.foreign(1)):
            with self.assertRaises(RuntimeError):
                call()
