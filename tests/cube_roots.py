#!/usr/bin/env python3
"""Prints vectors of the cube root, by whole numbers alone.

Written from document 02, wish 6, and from nothing else: for a positive normal
argument the nearest f64, for any other NaN. Every positive f64 is a whole number
of 2^-1074, and their order is that of their bit patterns. So the last f64 whose
cube is not above the argument is looked for among all patterns, and it or the
next one is the root, as the cube of the number halfway between the two shows.

A line is `cbrt`, the argument and the result, as bit patterns of f64 in
hexadecimal; every NaN is written nan. crates/test_elementary/stdin has these
lines after those of large_angles.py.
"""

import math
import random
import struct

LEAST, INFINITY = 0x0010_0000_0000_0000, 0x7FF0_0000_0000_0000
MINUS = 1 << 63


def units(pattern):
    """A positive finite f64 in units of 2^-1074."""
    field, digits = divmod(pattern, 1 << 52)
    return digits if field == 0 else digits + (1 << 52) << field - 1


def root(pattern):
    """The cube root's pattern."""
    if not LEAST <= pattern < INFINITY:
        return None
    number = units(pattern) << 2 * 1074         # in units of the cube of 2^-1074
    low, high = 0, INFINITY                     # the cube of the first is not above the number, that of the second is
    while high - low > 1:
        middle = (low + high) // 2
        if units(middle)**3 <= number:
            low = middle
        else:
            high = middle
    halfway = (units(low) + units(low + 1))**3  # of twice the number halfway
    assert halfway != 8 * number                # no tie
    return low + (halfway < 8 * number)


def pattern_of(digits, place):
    """The pattern of digits * 2^place, for digits of at most 53 places and a normal number."""
    longer = 53 - digits.bit_length()
    assert longer >= 0
    return (place - longer + 1074 << 52) + (digits << longer)


def around(pattern, reach=1):
    return range(pattern - reach, pattern + reach + 1)


def others(rng):
    """What is not positive and normal."""
    yield from (0, MINUS, 1, MINUS + 1, LEAST - 1, MINUS + LEAST - 1, INFINITY, MINUS + INFINITY, None)
    yield from (LEAST - 1 - i for i in range(1, 20))
    yield from (1 << i for i in range(1, 52, 5))
    yield from (rng.randrange(1, LEAST) for _ in range(40))
    yield from (MINUS + rng.randrange(LEAST, INFINITY) for _ in range(60))
    yield from (MINUS + pattern_of(n**3, 0) for n in range(1, 11))


def ends():
    """Both ends of the normal range."""
    yield from (LEAST + i for i in range(60))
    yield from (INFINITY - 1 - i for i in range(60))


def cubes(rng):
    """Perfect cubes and their neighbours: small ones, then those of up to 17 digits, times any power of 8 that is normal."""
    for n in range(1, 121):
        yield from around(pattern_of(n**3, 0))
    for _ in range(400):
        n = rng.randrange(1, 1 << rng.randrange(2, 18))
        yield from around(pattern_of(n**3, 3 * rng.randrange(-340, 324)))


def powers():
    """Powers of 2 and their neighbours, of 8 all: a root just below one of these is rounded up to a power of 2."""
    for place in range(-1020, 1024, 3):
        yield from (pattern_of(1, place) - 1, pattern_of(1, place))
    for place in range(-1022, 1024, 31):
        yield from (pattern_of(1, place), pattern_of(1, place) + 1)


def close(rng, odd):
    """Numbers next to the cube of a whole number of 54 digits, odd or even, those of many that lie nearest to one:
    their roots are all but halfway between two f64, or all but f64 themselves."""
    found = []
    for _ in range(40_000):
        cube = ((rng.getrandbits(52) | 1 << 52) * 2 + odd) ** 3
        longer = cube.bit_length() - 53
        digits = (cube + (1 << longer - 1)) >> longer
        if digits < 1 << 53:
            found.append((abs((digits << longer) - cube) * 2**20 >> longer, digits, longer))
    for _, digits, longer in sorted(found)[:250]:
        place = longer % 3 + 3 * rng.randrange(-340, 324)
        yield from around(pattern_of(digits, place))


def drawn(rng):
    """Some well-known numbers, any normal number, numbers from 1 to 8, and numbers such as the model has."""
    for number in (0.5, 2.0, 3.0, 4.0, math.pi, 2 * math.pi, math.pi / 2, math.e, 0.1, 1e-9, 1e9, 1e22):
        yield int.from_bytes(struct.pack(">d", number))
    yield from (rng.randrange(LEAST, INFINITY) for _ in range(500))
    yield from (rng.randrange(pattern_of(1, 0), pattern_of(1, 3)) for _ in range(300))
    yield from (rng.randrange(pattern_of(1, -14), pattern_of(1, 14)) for _ in range(300))


def arguments():
    rng = random.Random(6)
    for group in (others(rng), ends(), cubes(rng), powers(), close(rng, 1), close(rng, 0), drawn(rng)):
        yield from group


def shown(pattern):
    return "nan" if pattern is None else f"{pattern:016x}"


def main():
    for pattern in dict.fromkeys(arguments()):
        print("cbrt", shown(pattern), shown(None if pattern is None else root(pattern)))


if __name__ == "__main__":
    main()
