"""The stored cases, made from the papers by the scripts of tests/, put to the package."""

from __future__ import annotations

import unittest

from saddlekerf import Instant, Offer, Refused, Roster, Satellite, changes, check_plan, load, read
from saddlekerf.layout import may_stand

from .common import ROOT

CRATES = ROOT / "crates"
CASES = ROOT / "tests/cases"


def numbers(line: str) -> list[int]:
    return [int(word) for word in line.split()]


class Reading(unittest.TestCase):
    """Whole and damaged pairs, and what is said of each."""

    lines = (CASES / "reading/input").read_bytes().split(b"\n")[:-1]
    answers = (CASES / "reading/output").read_text().splitlines()

    def test_pairs(self) -> None:
        self.assertEqual(len(self.lines), 2 * len(self.answers))
        self.assertGreater(len(self.answers), 2500)
        for line1, line2, answer in zip(self.lines[::2], self.lines[1::2], self.answers):
            said = "ok"
            try:
                read(line1, line2)
            except Refused as refused:
                told = refused.number, refused.line, refused.column, refused.field
                said = " ".join(["refused", *(str(value) for value in told if value is not None)])
            self.assertEqual(said, answer, (line1, line2))

    def test_a_refused_column_holds_what_may_not_stand_there(self) -> None:
        refused = 0
        for line1, line2, answer in zip(self.lines[::2], self.lines[1::2], self.answers):
            words = answer.split()
            if words[:2] == ["refused", "3"]:
                line, column = int(words[2]), int(words[3])
                text = line1 if line == 1 else line2
                self.assertNotIn(text[column - 1], may_stand(line, column, text[: column - 1]).bytes)
                refused += 1
        self.assertGreater(refused, 300)

    def test_as_a_catalogue(self) -> None:
        """Of lines that begin as they should, each pair of the file is an entry with the same answer."""
        pairs = list(zip(self.lines[::2], self.lines[1::2], self.answers))
        begun = [pair for pair in pairs if (pair[0][:2], pair[1][:2]) == (b"1 ", b"2 ")]
        plain = [pair for pair in begun if len(pair[0]) >= 60 and b"\r" not in pair[0] + pair[1]]
        self.assertGreater(len(plain), 1500)
        entries = list(load(line + b"\r\n" for pair in plain for line in pair[:2]))
        self.assertEqual(len(entries), len(plain))
        for at, (entry, pair) in enumerate(zip(entries, plain)):
            self.assertEqual((entry.line1, entry.line2, entry.number1), (pair[0], pair[1], 2 * at + 1))
            said = "ok" if entry.record else f"refused {entry.refusal.number}"
            self.assertEqual(said.split()[:2], pair[2].split()[:2])


class Programs(unittest.TestCase):
    def test_what_changed(self) -> None:
        rosters = [Roster((CRATES / "what_changed/data" / name).read_bytes()) for name in ("yesterday", "today")]
        self.assertEqual(changes(*rosters), (CRATES / "what_changed/stdout").read_text())

    def test_station_windows(self) -> None:
        lines = (CRATES / "station_windows/stdin").read_text().splitlines()
        satellite = Satellite.open(*lines[:2])
        start, step, samples = Instant.from_date(*numbers(lines[3])), int(lines[4]), int(lines[5])
        windows, strides = satellite.windows([float(word) for word in lines[2].split()], start, step, samples)
        text = ""
        for first, last in windows:
            count = last.since(first).count // (step * 1_000_000) + 1
            text += f"window {first.date()} {last.date()} {count}\n"
        self.assertEqual(f"{text}strides {strides.count}\n", (CRATES / "station_windows/stdout").read_text())

    def test_award_plans(self) -> None:
        lines = (CASES / "award/input").read_text().splitlines()
        answers = (CASES / "award/output").read_text().splitlines()
        self.assertEqual(len(lines), 3 * len(answers))
        for at, answer in enumerate(answers):
            given, entries, (total, turnaround) = (numbers(line) for line in lines[3 * at : 3 * at + 3])
            fours = zip(given[::4], given[1::4], given[2::4], given[3::4])
            offers = [Offer(antenna, Instant(start), Instant(end), bid) for antenna, start, end, bid in fours]
            said = "accepted"
            try:
                check_plan(offers, entries, total, turnaround)
            except Refused as refused:
                said = f"refused {refused.number}" + ("" if refused.place is None else f" {refused.place}")
            self.assertEqual(said, answer, at)
