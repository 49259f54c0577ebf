#!/usr/bin/env python3
"""Makes lists of times, the best order of each, and the strides that orders take.

Written from wish 14 of document 02 and the paragraph of document 01 that counts
strides, and from nothing else. The best order of a short list is held against all
its orders.

  time_orders.py --write STDIN STDOUT   the cases of test_orders: a list a line, `list`
                                        and its times, and the same in the best order
  time_orders.py --random SEED COUNT    random lists of times, in and out of range: of
                                        each the list, the same in the best order, and
                                        a line with the strides that a newly opened
                                        resonant satellite takes for either

The output is the same on every run.
"""

import random
import sys
from itertools import permutations

MINUTE = 60_000_000
STRIDE = 720 * MINUTE
DAY = 1440 * MINUTE
LIMIT = 3652 * DAY
LEAST, MOST = -2**63, 2**63 - 1
FAR = 10**18 - 1  # the farthest time of a request's line: farther ones are read as this
LIST = 1024


# ------------------------------------------------------------------- the rule

def best(times):
    """The zeros first, one side outward, then the other: the times after the epoch come first."""
    zeros = [t for t in times if t == 0]
    after = [t for t in times if t > 0]
    before = [t for t in times if t < 0]
    return zeros + sorted(after) + sorted(before, key=abs)


def strides(times):
    """What the times of a sequence count, one after the other."""
    total = 0
    last = None
    for t in times:
        if abs(t) > LIMIT:
            continue
        m = abs(t) // STRIDE
        if last is None:
            total += m
        else:
            n = abs(last) // STRIDE
            resumes = n <= m and (n == 0 or (last >= 0) == (t >= 0))
            total += m - n if resumes else m
        last = t
    return total


def least(times):
    """The strides to the farthest time on each side, added."""
    inside = [t for t in times if abs(t) <= LIMIT]
    after = max([t for t in inside if t >= 0], default=0)
    before = max([-t for t in inside if t < 0], default=0)
    return after // STRIDE + before // STRIDE


def hold(times):
    """No order takes fewer strides than the best one, which takes the least, and so does the other side first."""
    other = [-t for t in best([-t for t in times])]
    assert strides(best(times)) == strides(other) == least(times), times
    if len(times) <= 6:
        assert min(map(strides, permutations(times))) == least(times), times


# ------------------------------------------------------------------- the cases

def some_time(source):
    kind = source.randrange(12)
    if kind == 0:
        return 0
    if kind == 1:
        return source.choice([1, -1, LIMIT, -LIMIT, LIMIT + 1, -LIMIT - 1, LEAST, MOST, LEAST + 1])
    if kind < 5:
        return source.randint(-5, 5) * STRIDE + source.randint(-1, 1)
    if kind == 5:
        return source.randint(LEAST, MOST)
    return source.randint(-100 * DAY, 100 * DAY)


def some_list(source, most):
    times = [some_time(source) for _ in range(source.randint(0, most))]
    for _ in range(source.randrange(4)):
        if times:
            times.insert(source.randrange(len(times) + 1), source.choice(times))
    return times


def cases():
    source = random.Random(1957)
    yield []
    for t in (0, 1, -1, LEAST, MOST):
        yield [t]
        yield [t, t]
        yield [t] * 7
    yield [0, 1440 * MINUTE, 2880 * MINUTE, -720 * MINUTE]
    yield [1440 * MINUTE, -720 * MINUTE, 2880 * MINUTE, 0]
    yield [0, 720 * MINUTE, -720 * MINUTE, 1440 * MINUTE, -1440 * MINUTE]
    yield [LEAST, MOST, -1, 1, 0, LEAST, MOST]
    yield [LIMIT, LIMIT + 1, -LIMIT, -LIMIT - 1]
    for order in permutations([2, 0, -1, 2, -3]):
        yield list(order)
    for n in (2, 3, 4, 5, 7, 8, 15, 16, 17, 31, 33, 64, 100):
        yield list(range(n))
        yield list(range(n, 0, -1))
        yield [-t for t in range(n)]
        yield [(-1) ** t * t for t in range(n)]
        yield [source.randint(-3, 3) for _ in range(n)]
        yield [some_time(source) for _ in range(n)]
    for n in (LIST - 1, LIST, LIST + 1, 1200):
        yield [source.randint(-100 * DAY, 100 * DAY) for _ in range(n)]
    yield [source.randint(-20, 20) for _ in range(LIST)]
    yield [t * (100 * DAY // LIST) for t in range(LIST)]


def line(times):
    return " ".join(["list"] + [str(t) for t in times]) + "\n"


def write(stdin, stdout):
    lists = [[max(-FAR, min(FAR, t)) for t in times] for times in cases()]
    for times in lists:
        hold(times)
    with open(stdin, "w") as out:
        out.writelines(line(times) for times in lists)
    with open(stdout, "w") as out:
        out.writelines(line(best(times)) for times in lists)


def main():
    words = sys.argv[1:]
    if words[:1] == ["--write"] and len(words) == 3:
        write(words[1], words[2])
    elif words[:1] == ["--random"] and len(words) == 3:
        source = random.Random(int(words[1]))
        for index in range(int(words[2])):
            times = some_list(source, 6 if index % 4 else 60)
            hold(times)
            sys.stdout.write(line(times) + line(best(times)))
            print(strides(times), strides(best(times)))
    else:
        sys.exit(__doc__)


if __name__ == "__main__":
    main()
