"""Rosters, their rows, what changed between two; reports."""

from __future__ import annotations

import pickle
import random
import unittest

from saddlekerf import Date, Instant, Microseconds, Report, Roster, changes, read, report

from .common import LINE1, LINE2, ROOT, random_record, with_text

NEW1 = "1 00005U 58002B   00180.78495062  .00000023  00000-0 -28100-4 0  4761"
NEW2 = "2 00005  34.2682 348.7202 1859667 331.7664  19.3264 10.82419157413775"


class Rosters(unittest.TestCase):
    def test_lodged_and_withdrawn(self) -> None:
        """Any calls after one another leave what a dict keyed by number and judged by epoch holds."""
        chance, roster, model = random.Random(64), Roster(), {}
        for _ in range(3000):
            record = random_record(chance)._replace(number=chance.randrange(80))
            lines, kept = record.write(), model.get(record.number)
            try:
                if chance.random() < 0.3:
                    roster.withdraw(record.number)
                    del model[record.number]
                else:
                    roster.lodge(*lines)
                    self.assertFalse(kept and read(*kept).epoch > record.epoch)
                    model[record.number] = lines
            except ValueError as refused:
                expected = {21: kept is None, 20: kept is not None, 19: kept is None and len(model) == 64}
                self.assertTrue(expected[refused.number], refused)
            self.assertEqual([tuple(pair) for pair in roster], [model[number] for number in sorted(model)])
        self.assertEqual(roster.row, [pair.record.epoch for pair in roster])
        ages = [pair.record.epoch for pair in roster.by_age()]
        self.assertEqual((ages, roster.oldest().record.epoch), (sorted(ages), ages[0]))
        number = min(model)
        self.assertEqual((tuple(roster.get(number)), roster.get(10**9)), (model[number], None))
        for again in (Roster(bytes(roster)), pickle.loads(pickle.dumps(roster))):
            self.assertEqual((again, again.row), (roster, roster.row))

    def test_the_first_instant(self) -> None:
        """The row's 0 is an instant where the bytes have a pair."""
        roster = Roster()
        self.assertEqual((roster.row, roster.oldest(), len(roster)), ([], None, 0))
        roster.lodge(with_text(LINE1, 19, "57001.00000000"), LINE2)
        self.assertEqual(roster.row, [Instant(0)])

    def test_changes(self) -> None:
        first, second = Roster(), Roster()
        first.lodge(LINE1, LINE2)
        second.lodge(NEW1, NEW2)
        expected = "5 epoch 86400000000\n5 bstar 28098 -4 -28100 -4\n5 set 1\n5 node -40\n5 revolution 11\n"
        self.assertEqual(changes(first, second), expected)
        self.assertEqual(changes(first, first), "")
        self.assertEqual(changes(first, Roster()), f"first {LINE1}{LINE2}\n")
        self.assertEqual(changes(Roster(), first), f"second {LINE1}{LINE2}\n")


class Reports(unittest.TestCase):
    def test_as_the_program(self) -> None:
        folder = ROOT / "crates/monday_report"
        self.assertEqual(str(report((folder / "stdin").read_bytes())), (folder / "stdout").read_text())

    def test_one_pair(self) -> None:
        epoch = Date(2000, 179, 67_819_733_568)
        expected = Report(1, (0,) * 6, 1, 0, 0, epoch, epoch, Microseconds(0))
        self.assertEqual(report(f"{LINE1}\n{LINE2}\n"), expected)
        self.assertEqual(report(f"{LINE1}\n{LINE2}".encode()), expected)
        nothing = Report(0, (0,) * 6, 0, 0, 0, None, None, None)
        self.assertEqual(report(""), nothing)
        self.assertTrue(str(nothing).endswith("earliest -\nlatest -\nspan -\n"))
