"""Instants, spans and dates: moved, dated, kept apart."""

from __future__ import annotations

import datetime
import random
import unittest

from saddlekerf import FARTHEST, Date, Instant, Microseconds, Refused

from .common import refusal_of

UTC = datetime.timezone.utc
START = datetime.datetime(1957, 1, 1, tzinfo=UTC)
END = 36_525 * 86_400_000_000


class Instants(unittest.TestCase):
    def test_against_datetime(self) -> None:
        chance = random.Random(1957)
        for count in [0, 1, END - 1] + [chance.randrange(END) for _ in range(3000)]:
            instant, moment = Instant(count), START + datetime.timedelta(microseconds=count)
            self.assertEqual(instant.datetime, moment)
            self.assertEqual(Instant.from_datetime(moment), instant)
            date = instant.date()
            self.assertEqual((date.year, date.day), (moment.year, moment.timetuple().tm_yday))
            self.assertEqual(Instant.from_date(*date), instant)

    def test_moves(self) -> None:
        chance = random.Random(12)
        for _ in range(3000):
            start, one, two = Instant(chance.randrange(END)), *(chance.randrange(-(10**14), 10**14) for _ in "ab")
            try:
                moved = start.moved(Microseconds(one)).moved(Microseconds(two))
            except Refused as refused:
                self.assertEqual(refused.number, 6)
                continue
            self.assertEqual(moved, start.moved(Microseconds(one + two)))
            self.assertEqual(moved.moved(-Microseconds(one + two)), start)
            self.assertEqual(moved.since(start), Microseconds(one) + Microseconds(two))

    def test_edges(self) -> None:
        self.assertEqual(Instant(END - 1).date(), Date(2056, 366, 86_399_999_999))
        self.assertEqual(str(Instant(0).date()), "1957 1 0")
        self.assertEqual(refusal_of(Instant(END).date).number, 6)
        self.assertEqual(refusal_of(lambda: Instant(END).datetime).number, 6)
        self.assertEqual(refusal_of(Instant.from_date, 1957, 1, 86_400 * 10**6).number, 6)
        self.assertEqual(Instant(0).moved(FARTHEST).moved(-FARTHEST), Instant(0))
        self.assertEqual(Instant(0).since(Instant(2**64 - 1)), Microseconds(-(2**63)))

    def test_zones(self) -> None:
        east = datetime.datetime(2000, 6, 27, 20, 0, tzinfo=datetime.timezone(datetime.timedelta(hours=2)))
        self.assertEqual(Instant.from_datetime(east).date(), Date(2000, 179, 18 * 3600 * 10**6))
        with self.assertRaisesRegex(ValueError, "without a time zone"):
            Instant.from_datetime(east.replace(tzinfo=None))

    def test_quantities_are_kept_apart(self) -> None:
        instant, span = Instant(5), Microseconds(5)
        self.assertNotEqual(instant, span)
        for call in (
            lambda: instant.moved(5), lambda: instant.moved(instant), lambda: instant.since(span),
            lambda: span + 5, lambda: span + instant, lambda: instant + span, lambda: span < instant,
            lambda: instant < 5, lambda: Microseconds(1.5), lambda: Instant("5"), lambda: Microseconds(None),
            lambda: Instant(0.5),
        ):  # fmt: skip
            with self.assertRaises(TypeError):
                call()
        for call in (lambda: Instant(-1), lambda: Instant(2**64), lambda: Microseconds(2**63)):
            with self.assertRaises(ValueError):
                call()
        with self.assertRaises(AttributeError):
            instant.count = 6  # type: ignore[misc]

    def test_spans(self) -> None:
        day = Microseconds.from_timedelta(datetime.timedelta(days=-1))
        self.assertEqual(day, Microseconds.from_minutes(-1440))
        self.assertEqual(day.timedelta, datetime.timedelta(days=-1))
        self.assertEqual(day - day, Microseconds(0))
