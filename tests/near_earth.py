#!/usr/bin/env python3
"""002's near-Earth model in Python's own numbers, for makers that need positions.

Written from document 002 with the system's sine, cosine and powers, so its last
digits are its own: it serves where a hundredth of a kilometre decides nothing. Run
by itself it prints how far it is from the published positions.
"""

import math
import sys
from pathlib import Path

sys.dont_write_bytecode = True
from report_texts import J2, KE, RADIUS, kind, recovered

J3, J4 = -0.00000253881, -0.00000165597     # WGS-72, document 01
TURN = 2 * math.pi


def exponential(text):
    """A signed mantissa with its point before it, and a power of ten."""
    return float(text[:1].replace(b" ", b"+") + b"0." + text[1:6] + b"e" + text[6:8])


class Near:
    """A near-Earth satellite of an accepted pair."""

    def __init__(self, one, two):
        assert kind(two) == "near"
        angle = lambda first, last: math.radians(float(two[first - 1:last]))
        self.bstar = exponential(one[53:61])
        self.i, self.node, self.argp, self.m = angle(9, 16), angle(18, 25), angle(35, 42), angle(44, 51)
        self.e = int(two[26:33]) / 1e7
        self.n, self.a = recovered(two)
        self.drag()
        self.rates()

    def drag(self):
        e, a, n = self.e, self.a, self.n
        cos2 = math.cos(self.i) ** 2
        perigee = (a * (1 - e) - 1) * RADIUS
        s = 78 if perigee >= 156 else max(perigee - 78, 20)
        self.s4 = s / RADIUS + 1
        xi = 1 / (a - self.s4)
        eta, beta2 = a * e * xi, 1 - e * e
        eta2, eeta = eta * eta, e * eta
        psi = abs(1 - eta2)
        coef = ((120 - s) / RADIUS) ** 4 * xi ** 4
        coef1 = coef / psi ** 3.5
        con = 3 * cos2 - 1
        c2 = coef1 * n * (a * (1 + 1.5 * eta2 + eeta * (4 + eta2))
                          + 0.375 * J2 * xi / psi * con * (8 + 3 * eta2 * (8 + eta2)))
        self.c1 = self.bstar * c2
        c3 = -2 * coef * xi * (J3 / J2) * n * math.sin(self.i) / e if e > 1e-4 else 0
        self.c4 = 2 * n * coef1 * a * beta2 * (
            eta * (2 + 0.5 * eta2) + e * (0.5 + 2 * eta2)
            - J2 * xi / (a * psi) * (-3 * con * (1 - 2 * eeta + eta2 * (1.5 - 0.5 * eeta))
                                     + 0.75 * (1 - cos2) * (2 * eta2 - eeta * (1 + eta2)) * math.cos(2 * self.argp)))
        self.c5 = 2 * coef1 * a * beta2 * (1 + 2.75 * (eta2 + eeta) + eeta * eta2)
        self.omgcof = self.bstar * c3 * math.cos(self.argp)
        self.xmcof = -2 / 3 * coef * self.bstar / eeta if e > 1e-4 else 0
        self.eta, self.simple = eta, a * (1 - e) < 220 / RADIUS + 1
        c1, s4 = self.c1, self.s4
        self.d2 = 4 * a * xi * c1 ** 2
        third = self.d2 * xi * c1 / 3
        self.d3 = (17 * a + s4) * third
        self.d4 = 0.5 * third * a * xi * (221 * a + 31 * s4) * c1
        self.t3 = self.d2 + 2 * c1 ** 2
        self.t4 = 0.25 * (3 * self.d3 + c1 * (12 * self.d2 + 10 * c1 ** 2))
        self.t5 = 0.2 * (3 * self.d4 + 12 * c1 * self.d3 + 6 * self.d2 ** 2 + 15 * c1 ** 2 * (2 * self.d2 + c1 ** 2))

    def rates(self):
        n, beta2 = self.n, 1 - self.e ** 2
        cos = math.cos(self.i)
        cos2, cos4 = cos ** 2, cos ** 4
        inverse = 1 / (self.a * beta2) ** 2
        t1 = 1.5 * J2 * inverse * n
        t2 = 0.5 * t1 * J2 * inverse
        t3 = -0.46875 * J4 * inverse ** 2 * n
        self.mdot = (n + 0.5 * t1 * math.sqrt(beta2) * (3 * cos2 - 1)
                     + 0.0625 * t2 * math.sqrt(beta2) * (13 - 78 * cos2 + 137 * cos4))
        self.argpdot = (-0.5 * t1 * (1 - 5 * cos2) + 0.0625 * t2 * (7 - 114 * cos2 + 395 * cos4)
                        + t3 * (3 - 36 * cos2 + 49 * cos4))
        self.nodedot = -t1 * cos + (0.5 * t2 * (4 - 19 * cos2) + 2 * t3 * (3 - 7 * cos2)) * cos
        self.nodecf = -3.5 * beta2 * t1 * cos * self.c1

    def mean(self, t):
        """Secular gravity and drag at t minutes: axis, eccentricity, anomaly, argument of perigee, node."""
        m, argp = self.m + self.mdot * t, self.argp + self.argpdot * t
        node = self.node + self.nodedot * t + self.nodecf * t * t
        a, e, longitude = 1 - self.c1 * t, self.bstar * self.c4 * t, 1.5 * self.c1 * t * t
        if not self.simple:
            shift = self.omgcof * t + self.xmcof * ((1 + self.eta * math.cos(m)) ** 3
                                                    - (1 + self.eta * math.cos(self.m)) ** 3)
            m, argp = m + shift, argp - shift
            a -= self.d2 * t ** 2 + self.d3 * t ** 3 + self.d4 * t ** 4
            e += self.bstar * self.c5 * (math.sin(m) - math.sin(self.m))
            longitude += self.t3 * t ** 3 + t ** 4 * (self.t4 + t * self.t5)
        return self.a * a * a, self.e - e, m + self.n * longitude, argp, node

    def at(self, micros):
        """The position in km at a time since the epoch; or a refusal number, 11 to 14."""
        a, e, m, argp, node = self.mean(micros / 60_000_000)
        for value, limit in ((e, 1), (e, -0.001), (a, 0.95)):
            assert abs(value - limit) > 1e-7
        if e >= 1 or e < -0.001 or a < 0.95:
            return 11
        if e < 0:
            e = 1e-6
        sin, cos = math.sin(self.i), math.cos(self.i)
        over = 1 / (a * (1 - e * e))
        ax = e * math.cos(argp)
        ay = e * math.sin(argp) - over * 0.5 * (J3 / J2) * sin
        u = (m + argp - over * 0.25 * (J3 / J2) * sin * (3 + 5 * cos) / (1 + cos) * ax) % TURN
        anomaly = self.kepler(u, ax, ay)
        s, c = math.sin(anomaly), math.cos(anomaly)
        el2 = ax * ax + ay * ay
        pl = a * (1 - el2)
        assert abs(pl) > 1e-6
        if pl < 0:
            return 13
        r = a * (1 - ax * c - ay * s)
        beta = math.sqrt(1 - el2)
        part = (ax * s - ay * c) / (1 + beta)
        sinu = a / r * (s - ay - ax * part)
        cosu = a / r * (c - ax + ay * part)
        sin2, cos2 = 2 * cosu * sinu, 1 - 2 * sinu * sinu
        t1, t2 = 0.5 * J2 / pl, 0.5 * J2 / pl ** 2
        mrt = r * (1 - 1.5 * t2 * beta * (3 * cos ** 2 - 1)) + 0.5 * t1 * sin ** 2 * cos2
        assert abs(mrt - 1) > 1e-7
        if mrt < 1:
            return 14
        su = math.atan2(sinu, cosu) - 0.25 * t2 * (7 * cos ** 2 - 1) * sin2
        node += 1.5 * t2 * cos * sin2
        i = self.i + 1.5 * t2 * cos * sin * cos2
        along, across = math.cos(su), math.sin(su)
        x = along * math.cos(node) - across * math.cos(i) * math.sin(node)
        y = along * math.sin(node) + across * math.cos(i) * math.cos(node)
        return [mrt * RADIUS * k for k in (x, y, across * math.sin(i))]

    @staticmethod
    def kepler(u, ax, ay):
        anomaly = u
        for _ in range(10):
            s, c = math.sin(anomaly), math.cos(anomaly)
            step = (u - ay * c + ax * s - anomaly) / (1 - c * ax - s * ay)
            anomaly += max(-0.95, min(0.95, step))
            if abs(step) < 1e-12:
                break
        return anomaly


# ------------------------------------------------------------------ the published positions

VECTORS = Path(__file__).resolve().parent.parent / "bench/vectors"


def published():
    """The lines of each published satellite, by its number, and its positions by microseconds since the epoch."""
    lines = [line for line in (VECTORS / "SGP4-VER.TLE").read_bytes().splitlines() if line[:1] in (b"1", b"2")]
    found, rows = {}, []
    for one, two in zip(lines[::2], lines[1::2]):
        found.setdefault(int(one[2:7]), (one[:69], two[:69], {}))
    for line in (VECTORS / "tcppver.out").read_text().splitlines():
        words = line.split()
        if words[1] == "xx":
            rows = found[int(words[0])][2]
        else:
            rows[round(float(words[0]) * 60_000_000)] = [float(word) for word in words[1:4]]
    return found


def main():
    for number, (one, two, rows) in published().items():
        if kind(two) == "near":
            near = Near(one, two)
            print(number, max(math.dist(near.at(time), position) for time, position in rows.items()))


if __name__ == "__main__":
    main()
