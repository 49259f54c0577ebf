"""Julian dates and minutes as whole microseconds: the nearest, ties to even.

A Julian date comes as two floats, whose exact sum counts. The nearest whole number of microseconds to it
is what a satellite is asked for, so that the time asked lies at most half a microsecond, some 4E-6 km of
a low orbit, from the one given.
"""

from __future__ import annotations

from typing import Any

from ._arrays import numpy
from ._checked import real

#: The Julian date of 1957 January 1, 0h, from which instants count, and the microseconds of a day.
START = 2_435_839.5
DAY = 86_400_000_000
MINUTE = 60_000_000


def nearest(numerator: int, denominator: int) -> int:
    """The whole number nearest to a fraction, ties to even."""
    whole, rest = divmod(numerator, denominator)
    return whole + (2 * rest > denominator or 2 * rest == denominator and whole & 1)


def instant(jd: Any, fr: Any) -> int:
    """Microseconds since 1957 of a Julian date and fraction, before it negative, of any size."""
    a, b = real(jd, "a Julian date").as_integer_ratio()
    c, d = real(fr, "a fraction of a day").as_integer_ratio()
    return nearest((2 * (a * d + c * b) - int(2 * START) * b * d) * (DAY // 2), b * d)


def minutes(tsince: Any) -> int:
    """Microseconds of a number of minutes, of any size."""
    a, b = real(tsince, "a number of minutes").as_integer_ratio()
    return nearest(a * MINUTE, b)


def instants(jd: Any, fr: Any) -> Any:
    """The same for NumPy arrays of one dimension and one length, as int64 and no farther than 2^62.

    Where the Julian date is within 40,000 days of 1957 and the fraction of 0, every step below is exact but
    for two: the rest of a day, at most a half, is off by at most 2^-54, and its microseconds by 2^-18 more,
    together by less than 2^-16 of a microsecond. What lies so close to the middle between two microseconds,
    or outside, is worked out by `instant`.
    """
    day, part, sizes = jd - _START, fr, numpy.empty((2, len(jd)))
    numpy.absolute(day, sizes[0])
    numpy.absolute(fr, sizes[1])
    inside = _largest(sizes) <= _DAYS
    if not inside:
        doubtful = ~(sizes <= _DAYS).all(0)
        day, part = numpy.where(doubtful, 0.0, day), numpy.where(doubtful, 0.0, fr)
    whole = day + part
    numpy.rint(whole, whole)
    day -= whole
    day += part
    day *= _DAY
    near = numpy.rint(day)
    day -= near
    whole *= _DAY
    whole += near
    counts = whole.astype(numpy.int64)
    numpy.absolute(day, day)
    if inside and _largest(day) <= _CLOSE:
        return counts
    close = day > _CLOSE
    for at in numpy.flatnonzero(close if inside else close | doubtful):
        counts[at] = min(max(instant(jd[at], fr[at]), -(2**62)), 2**62)
    return counts


_DAYS, _CLOSE = 40_000, 0.5 - 2**-16

if numpy is not None:
    # Arrays of no dimension: NumPy takes them in less time than Python's floats.
    _START, _DAY = numpy.array(START), numpy.array(float(DAY))


def _largest(sizes: Any) -> Any:
    """The largest of an array's sizes, 0 where there are none; a NaN where one is, which is below nothing."""
    return numpy.maximum.reduce(sizes, None, initial=0.0)


def pairs(jd: Any, fr: Any) -> list[tuple[float, float]]:
    """Two sequences of one length, side by side."""
    for numbers in (jd, fr):
        if isinstance(numbers, (str, bytes, dict)) or not hasattr(numbers, "__len__"):
            raise TypeError(f"Julian dates are a sequence of numbers, not {type(numbers).__name__}")
    if len(jd) != len(fr):
        raise ValueError(f"{len(jd)} Julian dates and {len(fr)} fractions: there have to be as many")
    return [(real(a, "a Julian date"), real(b, "a fraction of a day")) for a, b in zip(jd, fr)]


def instants_of(jd: Any, fr: Any) -> Any:
    """The instants of Julian dates and fractions as they are given: two NumPy arrays, or two sequences.

    The array is for reading: the next call may have the same one.
    """
    if not isinstance(jd, numpy.ndarray) or not isinstance(fr, numpy.ndarray):
        numbers = numpy.array(pairs(jd, fr), float).reshape(-1, 2)
        jd, fr = numbers[:, 0], numbers[:, 1]
    if jd.ndim != 1 or jd.shape != fr.shape:
        raise ValueError(f"Julian dates of shape {jd.shape}, fractions of {fr.shape}: one dimension, as many of both")
    if jd.dtype != float or fr.dtype != float:
        if jd.dtype.kind not in "iuf" or fr.dtype.kind not in "iuf":
            raise TypeError(f"Julian dates of type {jd.dtype} and fractions of {fr.dtype} are no floats")
        jd, fr = jd.astype(float), fr.astype(float)
    return _once(jd, fr) if len(jd) <= _KEPT else instants(jd, fr)


#: The longest list of dates whose instants are kept.
_KEPT = 4096

_last: tuple[Any, Any] = None, None


def _once(jd: Any, fr: Any) -> Any:
    """The instants of two arrays of floats, kept for the next call: satellite after satellite is asked for one list.

    They are found by the bits of all dates, so that an array written to in between is a new one. The pair that is
    kept is taken and put as one object, whole for every thread; nobody may write to the instants.
    """
    global _last
    dates = jd.tobytes(), fr.tobytes()
    kept, counts = _last
    if kept != dates:
        counts = instants(jd, fr)
        counts.flags.writeable = False
        _last = dates, counts
    return counts
