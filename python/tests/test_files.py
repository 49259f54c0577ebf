"""Catalogues gone through, and published habits repaired."""

from __future__ import annotations

import io
import random
import tempfile
import unittest
from pathlib import Path

from saddlekerf import Entry, Refused, load, mend, read
from saddlekerf.mending import CARRIAGE_RETURN, EPHEMERIS_TYPE, LEADING_BLANKS, LOWER_CASE, TRAILING_BLANKS

from .common import LINE1, LINE2, RESONANT, VECTORS, with_text

ONE, TWO = LINE1.encode(), LINE2.encode()


def loaded(text: bytes, **options: bool) -> list[Entry]:
    return list(load(io.BytesIO(text), **options))


class Loading(unittest.TestCase):
    def hold(self, text: bytes, *expected: tuple[object, ...]) -> None:
        """Name, line numbers, and the record's or the refusal's number of each pair."""
        found = [
            (e.name, e.number1, e.number2, e.record.number if e.record else -e.refusal.number) for e in loaded(text)
        ]
        self.assertEqual(found, list(expected))

    def test_two_and_three_lines(self) -> None:
        pair = ONE + b"\n" + TWO
        self.hold(pair, (None, 1, 2, 5))
        self.hold(pair + b"\n" + pair + b"\n", (None, 1, 2, 5), (None, 3, 4, 5))
        self.hold(b"VANGUARD 1              \n" + pair, ("VANGUARD 1", 2, 3, 5))
        self.hold(b"0 VANGUARD 1\n" + pair, ("VANGUARD 1", 2, 3, 5))
        self.hold(b"1 KUNS\n" + pair, ("1 KUNS", 2, 3, 5))
        self.hold(b"2001 MARS\n" + pair + b"\nMIR\xff\n" + pair, ("2001 MARS", 2, 3, 5), ("MIR\\xff", 5, 6, 5))
        self.hold(b"")
        self.hold(b"\n \r\n\t\n")

    def test_ends_and_blank_lines(self) -> None:
        text = b"\r\n \r\nVANGUARD 1\r\n\r\n" + ONE + b"\r\n\n" + TWO + b"\r\n\r\n"
        self.hold(text, ("VANGUARD 1", 5, 7, 5))
        # What is left of an end belongs to the line.
        self.hold(ONE + b"\r\r\n" + TWO + b"\n", (None, 1, 2, -1))
        self.hold(ONE + b" \n" + TWO + b"\n", (None, 1, 2, -1))

    def test_nothing_is_lost(self) -> None:
        pair = ONE + b"\n" + TWO + b"\n"
        self.hold(ONE, (None, 1, 0, -1))
        self.hold(TWO + b"\n" + pair, (None, 0, 1, -1), (None, 2, 3, 5))
        self.hold(ONE + b"\n" + pair, (None, 1, 0, -1), (None, 2, 3, 5))
        self.hold(ONE + b"\nMIR\n" + pair, (None, 1, 0, -1), ("MIR", 3, 4, 5))
        self.hold(ONE + b"\n" + TWO[:40] + b"\n" + pair, (None, 1, 2, -1), (None, 3, 4, 5))
        self.hold(b"MIR\nMIR 2\n" + pair + b"MIR 3", (None, 1, 0, -1), ("MIR 2", 3, 4, 5), (None, 5, 0, -1))
        # Lines that do not begin as they should are lines of a pair all the same.
        self.hold(b"I" + ONE[1:] + b"\n" + TWO + b"\n" + pair, (None, 1, 2, -2), (None, 3, 4, 5))
        self.hold(ONE + b"\nZ" + TWO[1:] + b"\n" + pair, (None, 1, 2, -2), (None, 3, 4, 5))
        self.hold(b" " + ONE + b"\n " + TWO + b"\n" + pair, (None, 1, 2, -1), (None, 3, 4, 5))
        self.hold(b"x" * 10**6, (None, 1, 0, -1))

    def test_refusals_are_those_of_reading(self) -> None:
        entry, = loaded(ONE + b"\n" + TWO.replace(b"34.2682", b"34,2682"))
        self.assertEqual((entry.refusal.number, entry.refusal.line, entry.refusal.column), (3, 2, 12))
        self.assertIsNone(entry.refusal.__traceback__)
        self.assertEqual((entry.line1, entry.record, entry.repairs), (ONE, None, ()))

    def test_the_published_set(self) -> None:
        """Its second lines have times behind them: strict reading tells so of each."""
        entries = [e for e in load(VECTORS / "SGP4-VER.TLE") if e.line1[:2] == b"1 "]
        self.assertEqual(len(entries), 33)
        for entry in entries:
            self.assertIsNone(entry.record)
            self.assertGreater(len(entry.line2), 69)

    def test_is_lazy(self) -> None:
        def endless() -> object:
            while True:
                yield ONE + b"\n"
                yield TWO + b"\n"

        entries = load(endless())
        self.assertEqual([next(entries).number1 for _ in range(3)], [1, 3, 5])

    def test_paths(self) -> None:
        with tempfile.TemporaryDirectory() as folder:
            path = Path(folder, "catalogue.tle")
            path.write_bytes(ONE + b"\n" + TWO + b"\n")
            for name in (path, str(path)):
                self.assertEqual([entry.record for entry in load(name)], [read(LINE1, LINE2)])
            with self.assertRaises(FileNotFoundError):
                load(path.with_name("none"))

    def test_garbage(self) -> None:
        for source in (None, 5, ONE, bytearray(ONE), 1.5):
            with self.assertRaises(TypeError):
                load(source)
        for source in ([LINE1, LINE2], [None], [5], io.StringIO(LINE1)):
            with self.assertRaises(TypeError):
                list(load(source))
        chance = random.Random(3)
        for _ in range(300):
            text = bytes(chance.choice(b"12 \r\n\x00\xff.5AU") for _ in range(chance.randrange(300)))
            for mended in (False, True):
                for entry in loaded(text, mend=mended):
                    self.assertIsInstance(entry.refusal, Refused)


class Mending(unittest.TestCase):
    habits = [
        (ONE + b"\r", TWO, [(1, 70, CARRIAGE_RETURN)]),
        (ONE, TWO + b"\r\r", [(2, 70, CARRIAGE_RETURN)]),
        (ONE + b"   ", TWO + b" ", [(1, 70, TRAILING_BLANKS), (2, 70, TRAILING_BLANKS)]),
        (ONE, TWO + b"  \r", [(2, 72, CARRIAGE_RETURN), (2, 70, TRAILING_BLANKS)]),
        (ONE[:62] + b" " + ONE[63:], TWO, [(1, 63, EPHEMERIS_TYPE)]),
        (ONE[:2] + b"    5" + ONE[7:], TWO, [(1, 3, LEADING_BLANKS)]),
        (ONE, TWO[:2] + b"  005" + TWO[7:], [(2, 3, LEADING_BLANKS)]),
        (ONE.replace(b"58002B", b"58002b"), TWO, [(1, 15, LOWER_CASE)]),
    ]

    def test_each_habit(self) -> None:
        for line1, line2, repairs in self.habits:
            with self.subTest(repairs):
                with self.assertRaises(Refused):
                    read(line1, line2)
                one, two, found = mend(line1, line2)
                self.assertEqual((one, two, [tuple(repair) for repair in found]), (ONE, TWO, repairs))
                # A carriage return and a newline end a line of a file: that one is no habit.
                entry, = loaded(line1 + b"\n" + line2 + b"\n", mend=True)
                left = mend(*(line[:-1] if line.endswith(b"\r") else line for line in (line1, line2)))[2]
                self.assertEqual((entry.record, entry.line1, list(entry.repairs)), (read(LINE1, LINE2), ONE, left))

    def test_all_habits_at_once(self) -> None:
        one = ONE[:2] + b"    5U 58002ab  " + ONE[18:62] + b" " + ONE[63:] + b" \r\r\n"
        two = TWO[:2] + b"    5" + TWO[7:] + b"   \r\n"
        entry, = loaded(b"VANGUARD 1\r\n" + one + two, mend=True)
        self.assertEqual(entry.record, read(with_text(LINE1, 15, "AB"), LINE2))
        self.assertEqual(len(entry.repairs), 7)
        self.assertEqual(str(entry.repairs[0]), "line 1, column 71: carriage return taken off")
        strict, = loaded(b"VANGUARD 1\r\n" + one + two)
        self.assertEqual((strict.repairs, strict.refusal.number), ((), 1))

    def test_published_blank_type(self) -> None:
        line1 = "1 11801U          80230.29629788  .01431103  00000-0  14311-1      13"
        line2 = "2 11801  46.7916 230.4354 7318036  47.4722  10.4117  2.28537848    13"
        one, two, repairs = mend(line1, line2)
        self.assertEqual(read(one, two).number, 11801)
        self.assertEqual([repair.column for repair in repairs], [63])

    def test_never_a_digit_a_point_or_a_checksum(self) -> None:
        """Any bytes at all: each place stays, or is one of the habits."""
        chance = random.Random(69)
        alphabet = b"0123456789 .+-AbU\r,"
        for _ in range(20_000):
            lines = []
            for line in chance.choice([(ONE, TWO), *[tuple(map(str.encode, pair)) for pair in RESONANT]]):
                text = bytearray(line)
                for _ in range(chance.randrange(4)):
                    text[chance.randrange(69)] = chance.choice(alphabet)
                lines.append(bytes(text) + chance.choice([b"", b" ", b"\r", b"x", b"7"]))
            mended = mend(*lines)
            for number, (before, after) in enumerate(zip(lines, mended[:2]), 1):
                self.assertTrue(len(after) == len(before) or not before[69:].strip(b" \r"))
                self.assertGreaterEqual(len(after), 69)
                for column, (old, new) in enumerate(zip(before, after), 1):
                    if old == new:
                        continue
                    self.assertTrue(
                        column in range(3, 8) and (old, new) == (32, 48)
                        or number == 1 and column == 63 and (old, new) == (32, 48)
                        or number == 1 and column in range(15, 18) and bytes([old]).upper() == bytes([new]),
                        (number, column, before),
                    )
            changed = tuple(mended[:2]) != tuple(lines)
            self.assertEqual(bool(mended[2]), changed)

    def test_lawful_lines_stay(self) -> None:
        for pair in [(LINE1, LINE2), *RESONANT]:
            self.assertEqual(mend(*pair), (pair[0].encode(), pair[1].encode(), []))
        for damaged in ("", "1", "1 ", "2 " + " " * 50, "x" * 80, LINE2 + "0.00  4320.0"):
            self.assertEqual(mend(damaged, damaged), (damaged.encode(), damaged.encode(), []))
