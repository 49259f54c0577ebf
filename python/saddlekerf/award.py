"""Award plans: which offers win, as somebody else proposes it, checked."""

from __future__ import annotations

from array import array
from collections.abc import Iterable
from typing import Any, NamedTuple

from . import _answer
from ._checked import whole
from ._library import PLAN_LIMIT, library
from .instant import Instant
from .refusal import Refused


class Offer(NamedTuple):
    """An offer for a slot on an antenna."""

    antenna: int
    start: Instant
    end: Instant
    """The first instant past the slot."""
    bid: int
    """Whole cents."""


def check_plan(offers: Iterable[Offer], entries: Iterable[int], total: int, turnaround: int) -> None:
    """Accepts an award plan, or raises its one refusal.

    `entries` are the numbers of the offers that win, counted from 0, `total` the sum of their bids in
    cents, `turnaround` the seconds that have to lie between two slots on one antenna. Refusal 18 for
    more than 256 offers or entries, 27 with the first offer that is not sound, 28 with the first entry
    that names none, 29 with the first that names one again, 30 with the first that clashes with an
    earlier one, 31 for a wrong total; `place` is the offer or the entry.

    >>> hour = [Instant.from_date(2026, 1, at * 3_600_000_000) for at in range(3)]
    >>> offers = [Offer(1, hour[0], hour[1], 500), Offer(1, hour[1], hour[2], 700)]
    >>> check_plan(offers, [0, 1], total=1200, turnaround=0)
    >>> check_plan(offers, [0, 1], total=1200, turnaround=1)
    Traceback (most recent call last):
    saddlekerf.refusal.Refused: refusal 30: the offer of entry 1 clashes with that of an earlier entry
    """
    numbers = array("Q", [number for offer in offers for number in _numbers(offer)])
    named = array("Q", [whole(entry, "an entry") for entry in entries])
    total, turnaround = whole(total, "a total"), whole(turnaround, "a turnaround")
    answer = library.award(*_lent(numbers), *_lent(named), total, turnaround)
    if answer:
        raise _refused(answer, len(numbers) // 4, len(named))


def _numbers(offer: Any) -> tuple[int, int, int, int]:
    try:
        antenna, start, end, bid = offer
    except (TypeError, ValueError):
        raise TypeError("an offer is an antenna, a start, an end and a bid") from None
    if not isinstance(start, Instant) or not isinstance(end, Instant):
        raise TypeError("an offer's start and end are an Instant each")
    return whole(antenna, "an antenna"), start.count, end.count, whole(bid, "a bid")


def _lent(numbers: array[int]) -> tuple[int, int]:
    return numbers.buffer_info()


def _refused(answer: int, offers: int, entries: int) -> Refused:
    number, place = _answer.refusal(answer), _answer.place(answer)
    if answer == 18:
        return Refused(18, f"{offers} offers and {entries} entries; a plan has at most {PLAN_LIMIT} of each")
    if answer == 31:
        return Refused(31)
    words = {
        27: f"offer {place} is outside the calendar, does not end after it starts or bids more than 1,000,000,000",
        28: f"entry {place} names no offer: there are {offers}",
        29: f"entry {place} names an offer that an earlier one names",
        30: f"the offer of entry {place} clashes with that of an earlier entry",
    }
    if number not in words or answer != number | place << 16:
        _answer.foreign(answer)
    return Refused(number, words[number], place=place)
