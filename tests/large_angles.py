#!/usr/bin/env python3
"""Prints vectors of the sine and the cosine at arguments from 2^24 to the largest f64.

Written from document 01 ("Numbers the model rests on"), and from nothing else:
an argument is a fraction, its remainder by two pi is exact, and each later f64
operation is the exact result rounded once.

A line is `sin` or `cos`, the argument and the result, as bit patterns of f64 in
hexadecimal, as in the published vectors. crates/test_elementary/stdin has
these lines after the published ones.
"""

import math
import random
from fractions import Fraction

from instant_cases import PI, TWO_PI, add, bits, div, mul, remainder, rounded

HALF_PI = PI / 2


def reduced(x):
    """The argument within pi / 2 of zero, and whether it was reflected."""
    r = remainder(x, TWO_PI)
    if r > PI:
        r = add(r, -TWO_PI)
    elif r < -PI:
        r = add(r, TWO_PI)
    if r > HALF_PI:
        return add(PI, -r), True
    if r < -HALF_PI:
        return add(-PI, -r), True
    return r, False


def taylor(z, degrees):
    """1 / n! for each degree, with alternating signs, the last one plus, by Horner in z."""
    p = Fraction(0)
    for place, degree in enumerate(degrees):
        sign = (-1) ** (len(degrees) - 1 - place)
        coefficient = sign * div(1, math.factorial(degree))
        p = coefficient if place == 0 else add(mul(p, z), coefficient)
    return p


def sine(x):
    r, _ = reduced(x)
    return mul(taylor(mul(r, r), range(21, 0, -2)), r)


def cosine(x):
    r, reflected = reduced(x)
    c = taylor(mul(r, r), range(22, -1, -2))
    return -c if reflected else c


def arguments(rng):
    top = 2**53 - 1                                     # the most digits
    for place in (24, 25, 26, 35, 36, 46, 47, 100, 500, 971, 1000, 1023):
        yield Fraction(2)**place
    for place in (24, 34, 35, 45, 46, 1023):            # the last at the largest f64
        yield top * Fraction(2)**(place - 52)
        yield -top * Fraction(2)**(place - 52)
    for place in (22, 23, 200, 600, 1020):              # whole turns: a remainder of 0
        yield TWO_PI * 2**place
    for place in range(24, 1024, 7):                    # a remainder of any size
        digits = rng.randint(2**52, top)
        yield rng.choice((1, -1)) * digits * Fraction(2)**(place - 52)
    for place in range(24, 54, 2):                      # next to a whole number of turns
        yield rounded(TWO_PI * rng.randrange(2**place, 2**(place + 1)))


def main():
    for x in arguments(random.Random(24)):
        print("sin", bits(x), bits(sine(x)))
        print("cos", bits(x), bits(cosine(x)))


if __name__ == "__main__":
    main()
