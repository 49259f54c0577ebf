"""Rows of many satellites in NumPy arrays, with sgp4's errors."""

from __future__ import annotations

from collections.abc import Sequence
from math import nan
from typing import Any, Union

from .._arrays import numpy
from .._library import STATE
from .._memory import Memory, Unopened, address
from .errors import translated

Asked = Union[Memory, Unopened]


def fill(satellites: Sequence[Asked], times: Any, errors: Any, states: Any) -> list[int]:
    """The rows of m satellites at n instants, int64, into arrays of m × n errors and of m × n × 6 numbers.

    Both arrays lie in memory without gaps. A refused row has NaNs. What comes back is the refusal of each
    satellite's last row, where there are rows.
    """
    count = len(times)
    if not errors.size:
        return []
    since = times - numpy.array([[satellite.epoch] for satellite in satellites])
    rounds = numpy.empty(count, numpy.uint8)
    first = address(since), address(errors), address(states), address(rounds)
    for place, satellite in enumerate(satellites):
        row = place * count
        satellite.request_rows(first[0] + 8 * row, count, first[1] + row, first[2] + 8 * STATE * row, first[3])
    last: list[int] = errors[:, -1].tolist()
    marked(errors.reshape(-1), states.reshape(-1, STATE))
    return last


def marked(errors: Any, states: Any) -> None:
    """Refusals become errors, and refused rows NaNs, in place: n numbers and n × 6."""
    if numpy.count_nonzero(errors):
        refused = numpy.flatnonzero(errors)
        states[refused] = nan
        errors[refused] = translated(errors[refused])
