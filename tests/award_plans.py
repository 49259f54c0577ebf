#!/usr/bin/env python3
"""Makes award plans and what checking each must answer.

Written from wish 11 of document 02, and from nothing else: offers are objects,
every rule is tried over all pairs, and Python's whole numbers do not overflow.

  award_plans.py --write INPUT OUTPUT   the cases of tests/cases/award: of each plan
                                        three lines of numbers, a blank before each (the
                                        offers, four numbers each and up to three left
                                        over; the entries; total and turnaround), and
                                        the answers, a line each
  award_plans.py --text STDIN STDOUT    the plan of check_award, as its text, and the
                                        answer
  award_plans.py --random SEED COUNT    random plans, whole and damaged: of each the
                                        three lines, then the answer

The output is the same on every run.
"""

import random
import sys
from collections import namedtuple
from datetime import date
from itertools import combinations

SECOND = 1_000_000
DAY = 86_400 * SECOND
END = (date(2057, 1, 1) - date(1957, 1, 1)).days * DAY
MOST = 256
BID = 1_000_000_000
LARGEST = 2**64 - 1

Offer = namedtuple("Offer", "antenna start end bid")


# ------------------------------------------------------------------- the rule

def sound(offer):
    inside = all(0 <= t < END for t in (offer.start, offer.end))
    return inside and offer.start < offer.end and offer.bid <= BID


def clash(a, b, turnaround):
    """On one antenna they overlap, or lie closer than the turnaround."""
    if a.antenna != b.antenna:
        return False
    early, late = sorted((a, b), key=lambda offer: (offer.start, offer.end))
    return late.start < early.end or late.start - early.end < turnaround * SECOND


def check(numbers, entries, total, turnaround):
    """`accepted`, or the refusal with its place."""
    offers = [Offer(*numbers[k:k + 4]) for k in range(0, len(numbers) - 3, 4)]
    if len(offers) > MOST or len(entries) > MOST:
        return "refused 18"
    for k, offer in enumerate(offers):
        if not sound(offer):
            return f"refused 27 {k}"
    for i, entry in enumerate(entries):
        if entry >= len(offers):
            return f"refused 28 {i}"
    for i, entry in enumerate(entries):
        if entry in entries[:i]:
            return f"refused 29 {i}"
    named = [offers[entry] for entry in entries]
    for i, offer in enumerate(named):
        if any(clash(other, offer, turnaround) for other in named[:i]):
            return f"refused 30 {i}"
    if sum(offer.bid for offer in named) != total:
        return "refused 31"
    return "accepted"


# ------------------------------------------------------------------ the plans

class Plan:
    """Offers that nobody else's slot touches: one after the other, on a few antennas, an hour apart."""

    def __init__(self, count, antennas=3, gap=3600 * SECOND):
        self.offers = []
        for k in range(count):
            start = (k // antennas) * (DAY // 4 + gap)
            self.offers.append(Offer(k % antennas, start, start + DAY // 4, 1000 + k))
        self.entries = list(range(count))
        self.turnaround = 60
        self.left_over = []
        self.total = None

    def change(self, k, **fields):
        self.offers[k] = self.offers[k]._replace(**fields)
        return self

    def numbers(self):
        return [number for offer in self.offers for number in offer] + self.left_over

    def case(self):
        total = self.total
        if total is None:
            total = sum(self.offers[e].bid for e in self.entries if e < len(self.offers))
        return self.numbers(), list(self.entries), total % 2**64, self.turnaround


PLACES = (0, 6, 11)                     # first, middle and last of twelve


def refused_offers():
    """27: every way of being unsound, at the first, a middle and the last offer, named or not."""
    for place in PLACES:
        for named in (True, False):
            for fields in (
                {"start": END}, {"start": END, "end": END + 1}, {"end": END}, {"end": END + 1},
                {"start": LARGEST}, {"end": LARGEST}, {"start": LARGEST - 1, "end": LARGEST},
                {"end": Plan(12).offers[place].start}, {"start": Plan(12).offers[place].end},
                {"start": Plan(12).offers[place].end + 1}, {"bid": BID + 1}, {"bid": LARGEST},
            ):
                plan = Plan(12).change(place, **fields)
                if not named:
                    plan.entries.remove(place)
                yield plan
    yield Plan(12).change(3, bid=BID + 1).change(9, end=END)             # the first of two
    yield Plan(12).change(0, start=END - 1, end=END)                     # the last instant is inside, its end not
    yield Plan(12).change(0, start=END - 2, end=END - 1, bid=BID)
    yield Plan(12).change(0, bid=0)


def refused_entries():
    """28, 29 and 30, at the first, a middle and the last entry that may have it."""
    for place in PLACES:
        for number in (12, 13, 256, 2**32, 2**63, LARGEST):
            plan = Plan(12)
            plan.entries[place] = number
            yield plan
    for i, j in combinations(PLACES, 2):
        plan = Plan(12)
        plan.entries[j] = plan.entries[i]
        yield plan
    for i, j in ((0, 1), (5, 6), (10, 11), (0, 11), (0, 6), (6, 11), (1, 10)):
        first = Plan(12).offers[i]
        yield Plan(12).change(j, antenna=first.antenna, start=first.start, end=first.end)           # the same slot
        yield Plan(12).change(j, antenna=first.antenna, start=first.end - 1, end=first.end + 1)     # a microsecond shared
        yield Plan(12).change(j, antenna=first.antenna, start=first.start + 1, end=first.end - 1)   # one inside the other
        yield Plan(12).change(j, antenna=99, start=first.start, end=first.end)                      # another antenna
    order = Plan(12)
    order.entries.reverse()
    yield order
    both = Plan(12)
    both.entries[2] = 12
    both.entries[5] = both.entries[4]
    yield both                                                           # 28 before 29
    three = Plan(12).change(3, antenna=0, start=0, end=1)
    three.entries[11] = 0
    yield three                                                          # 29 before 30


def turnarounds():
    """Back to back, and gaps around a turnaround, either one named first."""
    for gap in (0, 1, SECOND - 1, SECOND, SECOND + 1, 59 * SECOND, 60 * SECOND - 1, 60 * SECOND, 60 * SECOND + 1):
        for turnaround in (0, 1, 2, 59, 60, 61, 2**32, 2**63 - 1, 2**63, LARGEST):
            for entries in ([0, 1], [1, 0]):
                plan = Plan(2)
                plan.offers = [Offer(7, 0, DAY, 5), Offer(7, DAY + gap, 2 * DAY, 6)]
                plan.entries, plan.turnaround = entries, turnaround
                yield plan
    apart = Plan(2)
    apart.offers = [Offer(LARGEST, 0, 1, 5), Offer(LARGEST, END - 2, END - 1, 6)]
    for turnaround in (0, (END - 3) // SECOND, (END - 3) // SECOND + 1, 2**63, 2**64 // SECOND, LARGEST):
        apart.turnaround = turnaround
        yield apart
    alone = Plan(1)
    alone.turnaround = 2**63
    yield alone


def totals():
    for difference in (-1, 1, 2**32, -2**32, 2**63):
        plan = Plan(12)
        plan.total = sum(offer.bid for offer in plan.offers) + difference
        yield plan
    part = Plan(12)
    part.entries = [5, 0, 11]
    yield part
    for total in (0, 1, LARGEST):
        nothing = Plan(12)
        nothing.entries, nothing.total = [], total
        yield nothing
        empty = Plan(0)
        empty.total = total
        yield empty


def sizes():
    for offers in (255, 256, 257, 258):
        yield Plan(offers)
    full = Plan(256, antennas=256)
    full.offers = [offer._replace(bid=BID) for offer in full.offers]     # the largest sum: 256,000,000,000
    yield full
    for entries in (256, 257):
        many = Plan(256)
        many.entries = (list(range(256)) * 2)[:entries]
        yield many
    worse = Plan(257).change(0, bid=LARGEST)                             # 18 before 27
    yield worse
    for place in (0, 128, 255):                                          # 27 to 30 at the ends of 256
        yield Plan(256).change(place, bid=BID + 1)
        missing = Plan(256)
        missing.entries[place] = 256
        yield missing
    for place in (1, 128, 255):
        twice = Plan(256)
        twice.entries[place] = 0
        yield twice
        yield Plan(256).change(place, antenna=0, start=0, end=1)
    for left_over in ([0], [1, 2], [LARGEST, END, END]):
        more = Plan(12)
        more.left_over = left_over
        yield more
        most = Plan(256)
        most.left_over = left_over
        yield most
        only = Plan(0)
        only.left_over = left_over
        yield only


def stored():
    for make in (refused_offers, refused_entries, turnarounds, totals, sizes):
        for plan in make():
            yield plan.case()


# ---------------------------------------------------------------- random plans

def random_case(rng):
    """A plan that is often acceptable, and then in half of the cases damaged in one place."""
    count = rng.choice((0, 1, 2, 3, 8, 30, 100, 255, 256, 257))
    turnaround = rng.choice((0, 1, 60, 3600, 10**6))
    antennas = rng.randint(1, 8)
    free = [rng.randrange(DAY) for _ in range(antennas)]
    offers = []
    for _ in range(count):
        antenna = rng.randrange(antennas)
        start = free[antenna] + rng.choice((0, 0, 1, rng.randrange(DAY)))
        end = start + rng.randint(1, DAY)
        free[antenna] = end + turnaround * SECOND
        if end < END:
            offers.append(Offer(antenna, start, end, rng.choice((0, BID, rng.randint(0, BID)))))
    rng.shuffle(offers)
    entries = rng.sample(range(len(offers)), rng.randint(0, len(offers)))
    numbers = [number for offer in offers for number in offer] + [rng.getrandbits(64)] * rng.choice((0, 0, 0, 1, 3))
    total = sum(offers[e].bid for e in entries)
    if rng.random() < 0.5:
        damage = rng.randrange(6)
        if damage == 0 and numbers:
            numbers[rng.randrange(len(numbers))] = rng.choice((0, 1, END - 1, END, BID, BID + 1, rng.getrandbits(64)))
        elif damage == 1 and entries:
            entries[rng.randrange(len(entries))] = rng.choice((len(offers), len(offers) - 1, 0, rng.getrandbits(64)))
        elif damage == 2 and entries:
            entries.insert(rng.randrange(len(entries) + 1), rng.choice(entries))
        elif damage == 3:
            turnaround = rng.choice((turnaround + 1, 2 * turnaround, 2**63, rng.getrandbits(64)))
        elif damage == 4:
            total = rng.choice((total + 1, max(total - 1, 0), 0, rng.getrandbits(64)))
        elif damage == 5 and len(numbers) >= 8:
            k = 4 * rng.randrange(len(numbers) // 4)
            numbers[k] = rng.randrange(antennas)
    return numbers, entries, total, turnaround


# ---------------------------------------------------------------------- output

def line(numbers):
    return "".join(f" {number}" for number in numbers) + "\n"


def three_lines(numbers, entries, total, turnaround):
    return line(numbers) + line(entries) + line((total, turnaround))


def text(numbers, entries, total, turnaround):
    offers = "".join("offer" + line(numbers[k:k + 4]) for k in range(0, len(numbers), 4))
    return f"{offers}entries{line(entries)}total {total}\nturnaround {turnaround}\n"


def main():
    words = sys.argv[1:]
    if words[:1] == ["--write"]:
        cases = list(stored())
        open(words[1], "w").write("".join(three_lines(*case) for case in cases))
        open(words[2], "w").write("".join(check(*case) + "\n" for case in cases))
    elif words[:1] == ["--text"]:
        case = Plan(12).case()
        open(words[1], "w").write(text(*case))
        open(words[2], "w").write(check(*case) + "\n")
    elif words[:1] == ["--random"]:
        rng = random.Random(int(words[1]))
        for _ in range(int(words[2])):
            case = random_case(rng)
            print(three_lines(*case) + check(*case))
    else:
        sys.exit(__doc__)


if __name__ == "__main__":
    main()
