"""Calendar dates as Julian dates, by sgp4's names."""

from __future__ import annotations

import datetime
from typing import Any

from .._checked import real, whole

_JULIAN_OF_ORDINAL_0 = 1_721_424.5


def jday(year: int, mon: int, day: int, hr: int, minute: int, sec: float) -> tuple[float, float]:
    """The Julian date of a day's midnight, and the fraction of the day.

    >>> jday(2020, 2, 11, 13, 57, 0)
    (2458890.5, 0.58125)
    """
    date = datetime.date(whole(year, "a year"), whole(mon, "a month"), whole(day, "a day"))
    seconds = real(sec, "a number of seconds") + real(minute, "a minute") * 60 + real(hr, "an hour") * 3600
    return date.toordinal() + _JULIAN_OF_ORDINAL_0, seconds / 86400


def days2mdhms(year: int, days: float, round_to_microsecond: Any = 6) -> tuple[int, int, int, int, float]:
    """Month, day, hour, minute and second of a day of the year, 1.0 being January 1, 0h.

    The second is rounded to as many decimals as `round_to_microsecond` says, not at all where it is 0.

    >>> days2mdhms(2000, 179.78495062)
    (6, 27, 18, 50, 19.733568)
    """
    places = whole(round_to_microsecond, "a number of decimals", range(16))
    whole_days, part = divmod(real(days, "a day of the year"), 1.0)
    if abs(whole_days) > 1000:
        raise ValueError(f"{days} is no day of a year")
    seconds = round(part * 86400, places) if places else part * 86400
    start = datetime.date(whole(year, "a year"), 1, 1).toordinal() + int(whole_days) - 1
    extra, seconds = divmod(seconds, 86400.0)
    date = datetime.date.fromordinal(start + int(extra))
    minutes, second = divmod(seconds, 60.0)
    hour, minute = divmod(int(minutes), 60)
    return date.month, date.day, hour, minute, round(second, places) if places else second
