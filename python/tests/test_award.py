"""Award plans, held against the rules said once more."""

from __future__ import annotations

import random
import unittest

from saddlekerf import Instant, Offer, Refused, check_plan

SECOND = 1_000_000


def judged(offers: list[Offer], entries: list[int], total: int, turnaround: int) -> tuple[int, object]:
    """The refusal and its place, by the words of include/saddlekerf.h."""
    for place, offer in enumerate(offers):
        if not offer.start < offer.end or offer.bid > 10**9:
            return 27, place
    for place, entry in enumerate(entries):
        if entry >= len(offers):
            return 28, place
    for place, entry in enumerate(entries):
        if entry in entries[:place]:
            return 29, place
    gap = turnaround * SECOND
    for place, entry in enumerate(entries):
        one = offers[entry]
        for other in (offers[earlier] for earlier in entries[:place]):
            apart = one.end.count + gap <= other.start.count or other.end.count + gap <= one.start.count
            if one.antenna == other.antenna and not apart:
                return 30, place
    return (0, None) if total == sum(offers[entry].bid for entry in entries) else (31, None)


class Plans(unittest.TestCase):
    def test_random_plans(self) -> None:
        chance, met = random.Random(11), set()
        for _ in range(4000):
            def offer() -> Offer:
                start, antenna = chance.randrange(100) * SECOND, chance.choice([0, 7, 2**64 - 1])
                end = start + (chance.randrange(1, 9) if chance.random() < 0.95 else 0) * SECOND
                return Offer(antenna, Instant(start), Instant(end), chance.choice([1, 500, 10**9]))

            offers = [offer() for _ in range(chance.randrange(8))]
            entries = [chance.randrange(len(offers) + (chance.random() < 0.1)) for _ in offers if chance.random() < 0.5]
            total = sum(offers[entry].bid for entry in entries if entry < len(offers)) + (chance.random() < 0.1)
            turnaround = chance.choice([0, 1, 2**64 - 1])
            found: tuple[int, object] = (0, None)
            try:
                check_plan(offers, entries, total, turnaround)
            except Refused as refused:
                found = refused.number, refused.place
            self.assertEqual(found, judged(offers, entries, total, turnaround))
            met.add(found[0])
        self.assertEqual(met, {0, 27, 28, 29, 30, 31})

    def test_nothing_is_a_plan(self) -> None:
        self.assertIsNone(check_plan([], [], 0, 0))
        self.assertIsNone(check_plan(iter([Offer(1, Instant(0), Instant(1), 5)]), iter([0]), total=5, turnaround=0))
