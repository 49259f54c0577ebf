#!/usr/bin/env python3
"""Pairs to be written anew, and what becomes of the rooms that are lent.

Written from document 01 ("The two lines", "Refusal numbers"), from wishes 1
and 3 of document 02 and from nothing else. The pairs are spelt in other ways than the
writer's: zeros for blanks, plus signs, a minus before a zero, `+0` for `-0`. A
catalogue number, with a letter or without, has one form only.

  written_lines.py --write INPUT EXPECTED
      writes the pairs, and for each line of each pair eight rooms as they are
      afterwards: of 80, 69 and 68 bytes; and of 80 for an inclination of
      180.0001, for the catalogue number 340000, for day 366.00000000 of 2001,
      for day 366.99999999 of 2055 and for day 367.00000000 of 2000. Before each
      stand the refusal and the bytes handed back.
"""

import argparse
import sys
from pathlib import Path

sys.dont_write_bytecode = True
from tle_pairs import EXAMPLE, LETTERED


def right_set(text):
    """Blanks for leading zeros; the last place keeps its digit."""
    whole = text[:-1].replace(" ", "0") + text[-1:]
    return str(int(whole)).rjust(len(text))


def angle(text, places):
    """Right-set before the point."""
    return right_set(text[:-places - 1]) + text[-places - 1:]


def sign(text, digits):
    """A blank for plus, and for the sign of a zero."""
    return "-" if text == "-" and int(digits) else " "


def exponent(text):
    """Sign, five digits, `+` or `-`, one digit; exponent 0 is `-0`, and a zero has no other."""
    digits = text[1:6]
    power = text[6:8] if int(digits) and text[7] != "0" else "-0"
    return sign(text[0], digits) + digits + power


def summed(line):
    """With the checksum digit: a digit adds itself, a minus 1."""
    total = sum(int(c) if c.isdigit() else c == "-" for c in line)
    return line + str(total % 10)


def first(line):
    return summed(line[:33] + sign(line[33], line[35:43]) + line[34:44] + exponent(line[44:52]) + " "
                  + exponent(line[53:61]) + line[61:64] + right_set(line[64:68]))


def second(line):
    return summed(line[:8] + angle(line[8:16], 4) + " " + angle(line[17:25], 4) + line[25:34]
                  + angle(line[34:42], 4) + " " + angle(line[43:51], 4) + " " + angle(line[52:63], 8)
                  + right_set(line[63:68]))


def pairs():
    one, two = (line.decode() for line in EXAMPLE)
    yield one, two
    yield (summed("1 00005U 58002B   00179.78495062 +.00000023 +00000+0 +28098-4 0 0475"),
           summed("2 00005 034.2682 348.7242 1859667 331.7664 019.3264 10.8241915741366"))
    yield (summed("1 99999S          56366.99999999 -.00000000 -00000-9 -00001+0 9 0000"),
           summed("2 99999 000.0000 000.0000 0000000 000.0000 000.0000 00.0000000100000"))
    yield (summed("1 00000C 99999ABC 57001.00000000 -.99999999 -99999-9  99999+9 0    0"),
           summed("2 00000 180.0000 359.9999 9999999 359.9999 359.9999 99.9999999999999"))
    for number in LETTERED:
        yield (summed(f"1 {number}U 58002B   00179.78495062 +.00000023 +00000+0 +28098-4 0 0475"),
               summed(f"2 {number} 034.2682 348.7242 1859667 331.7664 019.3264 10.8241915741366"))
    # The last units of common and leap years.
    for epoch in ("57365.99999999", "60366.00000000", "00366.00000000", "00366.99999999", "01365.99999999"):
        yield summed(f"1 00005U 58002B   {epoch} +.00000023 +00000+0 +28098-4 0 0475"), two


def rooms(line):
    yield f"0 69 {line}" + "#" * 11
    yield f"0 69 {line}"
    yield "17 68 " + "#" * 68
    for _ in range(5):
        yield "16 80 " + "#" * 80


def main():
    parser = argparse.ArgumentParser()
    parser.add_argument("--write", nargs=2, type=Path, metavar=("INPUT", "EXPECTED"), required=True)
    given, expected = parser.parse_args().write
    given.write_text("".join(f"{one}\n{two}\n" for one, two in pairs()))
    expected.write_text("".join(f"{room}\n" for one, two in pairs()
                                for line in (first(one), second(two)) for room in rooms(line)))


if __name__ == "__main__":
    main()
