"""The table of what may stand in a column, held against the library byte for byte."""

from __future__ import annotations

import unittest

from saddlekerf import Refused, read
from saddlekerf.layout import SPANS, may_stand

from .common import LINE1, LINE2, RESONANT, summed, with_text

LINES = {
    1: [
        LINE1,
        RESONANT[1][0],
        with_text(LINE1, 10, "        "),
        with_text(LINE1, 10, "58002XYZ"),
        with_text(LINE1, 10, "58002XY "),
        with_text(LINE1, 3, "Z9999"),
        with_text(LINE1, 65, "   7"),
        with_text(LINE1, 65, "0007"),
        with_text(LINE1, 34, "+.12345678 -12345+9 +54321-9 9"),
    ],
    2: [
        LINE2,
        RESONANT[1][1],
        with_text(LINE2, 3, "A0005"),
        with_text(LINE2, 9, "  0.0000 100.0000"),
        with_text(LINE2, 53, " 1.00000000    7"),
        with_text(LINE2, 64, "00007"),
    ],
}


class Layout(unittest.TestCase):
    def refused_column(self, line: int, text: bytes) -> int:
        """The column at which the library refuses a line, 0 where it does not."""
        first = text if line == 1 else LINE1.encode()
        try:
            read(first, text if line == 2 else LINE2.encode())
        except Refused as refused:
            self.assertIn(refused.number, (2, 3, 4, 5, 6))
            if refused.line == line and refused.number in (2, 3):
                return refused.column or 1
        return 0

    def test_every_byte_of_every_column(self) -> None:
        for line, texts in LINES.items():
            for text in map(str.encode, texts):
                self.assertEqual(self.refused_column(line, text), 0, text)
                for column in range(1, 70):
                    taken = may_stand(line, column, text[: column - 1]).bytes
                    for byte in range(256):
                        changed = text[: column - 1] + bytes([byte]) + text[column:]
                        found = self.refused_column(line, changed)
                        # A byte that is taken may still make a later column wrong.
                        self.assertEqual(found == column, byte not in taken, (line, column, bytes([byte]), text))

    def test_the_table_has_every_column_once(self) -> None:
        for line, spans in SPANS.items():
            ends = [0] + [span.last for span in spans]
            for before, span in zip(ends, spans):
                self.assertIn(span.first - before, (1, 2), (line, span))
            self.assertEqual(ends[-1], 69)
            self.assertEqual(summed(LINE1), LINE1)
