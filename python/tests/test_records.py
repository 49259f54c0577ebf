"""Records: read, written, in other units; forms and meanings apart; checksums and printing."""

from __future__ import annotations

import datetime
import random
import unittest

import saddlekerf
from saddlekerf import Exponential, Instant, Record, checksum, epoch, form, meaning, printed, read

from .common import LINE1, LINE2, ROOT, random_record, with_text


class Records(unittest.TestCase):
    def test_the_example(self) -> None:
        record = read(LINE1, LINE2)
        self.assertEqual(
            record,
            Record(
                5, "U", 58002, "B  ", 2000, 179_78495062, 23, Exponential(0, 0), Exponential(28098, -4), 0, 475,
                34_2682, 348_7242, 1859667, 331_7664, 19_3264, 10_82419157, 41366,
            ),
        )  # fmt: skip
        self.assertEqual(record.write(), (LINE1, LINE2))
        self.assertEqual(record.designator, "58002B")
        self.assertEqual(record.epoch, epoch(LINE1, LINE2))
        self.assertEqual(record.epoch, Instant(1_372_359_019_733_568))
        moment = datetime.datetime(2000, 6, 27, 18, 50, 19, 733568, tzinfo=datetime.timezone.utc)
        self.assertEqual(record.epoch_datetime, moment)
        degrees = record.inclination_degrees, record.node_degrees, record.perigee_degrees, record.anomaly_degrees
        self.assertEqual(degrees, (34.2682, 348.7242, 331.7664, 19.3264))
        self.assertEqual((record.eccentricity_ratio, record.motion_revolutions), (0.1859667, 10.82419157))
        drag = record.ndot_revolutions, record.bstar.value, record.nddot.value
        self.assertEqual(drag, (0.00000023, 2.8098e-5, 0.0))

    def test_bytes_and_text_are_one(self) -> None:
        for kind in (str.encode, lambda s: bytearray(s.encode()), lambda s: memoryview(s.encode())):
            self.assertEqual(read(kind(LINE1), kind(LINE2)), read(LINE1, LINE2))

    def test_letters(self) -> None:
        for number, places in ((99_999, "99999"), (100_000, "A0000"), (339_999, "Z9999"), (180_000, "J0000")):
            line1, line2 = read(LINE1, LINE2)._replace(number=number).write()
            self.assertEqual((line1[2:7], line2[2:7]), (places, places))
            self.assertEqual(read(line1, line2).number, number)

    def test_no_designator(self) -> None:
        record = read(with_text(LINE1, 10, " " * 8), LINE2)
        self.assertEqual((record.launch, record.piece, record.designator), (0, "   ", ""))
        self.assertEqual(read(with_text(LINE1, 10, "00000A  "), LINE2).designator, "00000A")

    def test_random_records_come_back(self) -> None:
        chance = random.Random(30)
        for _ in range(2000):
            record = random_record(chance)
            lines = record.write()
            self.assertEqual([line[68] for line in lines], [str(checksum(line[:68])) for line in lines])
            self.assertEqual(read(*lines), record)
            self.assertEqual(meaning(form(*lines)), record)
            self.assertEqual(record.epoch, epoch(*lines))

    def test_form_before_meaning(self) -> None:
        fields = form(LINE1, with_text(LINE2, 9, "934.2682"))
        self.assertEqual(fields.inclination, 934_2682)
        with self.assertRaises(saddlekerf.Refused) as raised:
            meaning(fields)
        self.assertEqual((raised.exception.number, raised.exception.field), (6, "inclination"))

    def test_checksums(self) -> None:
        for byte in range(256):
            expected = byte - 48 if 48 <= byte <= 57 else int(byte == 45)
            self.assertEqual(checksum(bytes([byte])), expected)
        self.assertEqual((checksum(""), checksum(LINE1[:68]), checksum("9" * 100_003)), (0, 3, 7))

    def test_printed(self) -> None:
        expected = (ROOT / "crates/print_pair/stdout").read_text()
        self.assertEqual(printed(LINE1, LINE2), expected)
