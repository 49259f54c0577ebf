"""A satellite's memory, lent to the library one call at a time."""

from __future__ import annotations

import ctypes
import threading
from array import array
from ctypes import addressof
from typing import Any, Union

from . import _answer
from ._arrays import numpy
from ._checked import Text, octets
from ._library import LIST_LIMIT, LOOK, MARKS, NUMBERS, PASS, STATE, library
from .refusal import Refused, of_lines


class _Struct(ctypes.Structure):
    _fields_ = [
        ("numbers", ctypes.c_double * NUMBERS),
        ("marks", ctypes.c_uint32 * MARKS),
        ("state", ctypes.c_double * STATE),
    ]


class Memory:
    """An opened satellite. Calls may come from any thread; each waits until the last has ended."""

    __slots__ = ("_struct", "_numbers", "_marks", "_state", "_lock", "epoch")

    def __init__(self, line1: Text, line2: Text) -> None:
        """Opens two lines; or a refusal 1 to 8."""
        one, two = octets(line1, "line 1"), octets(line2, "line 2")
        self._struct = _Struct()
        start = addressof(self._struct)
        self._numbers = start + _Struct.numbers.offset
        self._marks = start + _Struct.marks.offset
        self._state = start + _Struct.state.offset
        self._lock = threading.Lock()
        answer = library.open(one, len(one), two, len(two), self._numbers, NUMBERS, self._marks, MARKS)
        if answer:
            raise of_lines(answer, line1, line2)
        #: The epoch's instant, in microseconds since 1957.
        self.epoch: int = self._struct.marks[5] << 32 | self._struct.marks[4]

    def request(self, time: int) -> tuple[int, list[float]]:
        """One time: the answer, and the six numbers of the state where it is answered."""
        with self._lock:
            answer = library.request(self._numbers, NUMBERS, self._marks, MARKS, time, self._state, STATE)
            state = self._struct.state[:]
        if answer & 0xFFFF0000 or answer & 0xFF and answer & 0xFF00:
            _answer.foreign(answer)
        return answer, state

    def request_rows(self, times: int, count: int, refusals: int, states: int, rounds: int) -> int:
        """Any number of times, in lists of 1,024, between addresses; the strides of all.

        Rows do not depend on what was asked before, so that lists after one another are one.
        """
        strides = 0
        with self._lock:
            for at in range(0, count, LIST_LIMIT):
                rows = min(LIST_LIMIT, count - at)
                answer = library.request_list(
                    self._numbers, NUMBERS, self._marks, MARKS, times + 8 * at, rows, refusals + at, rows,
                    states + 8 * STATE * at, STATE * rows, rounds + at, rows,
                )  # fmt: skip
                if answer & 0xFFFFFFFF:
                    _answer.foreign(answer)
                strides += answer >> 32
        return strides

    def windows(self, station: Any, start: int, step: int, samples: int) -> tuple[int, list[int], list[int]]:
        """The answer of a call for windows, and the instants at which they begin and end."""
        places = min(samples, LIST_LIMIT) // 2 + 1
        firsts, lasts = (ctypes.c_uint64 * places)(), (ctypes.c_uint64 * places)()
        with self._lock:
            answer = library.windows(
                self._numbers, NUMBERS, self._marks, MARKS, addressof(station), 3, start, step, samples,
                addressof(firsts), places, addressof(lasts), places,
            )  # fmt: skip
        found = _answer.place(answer)
        if _answer.detail(answer) or found > places:
            _answer.foreign(answer)
        return answer, firsts[:found], lasts[:found]

    def next_pass(self, station: Any, start: int, step: int, samples: int) -> tuple[int, list[int]]:
        """The answer of a call for a pass, and the four instants where there is one."""
        room = (ctypes.c_uint64 * PASS)()
        with self._lock:
            answer = library.next_pass(
                self._numbers, NUMBERS, self._marks, MARKS, addressof(station), len(station), start, step, samples,
                addressof(room), PASS,
            )  # fmt: skip
        found = _answer.place(answer)
        if _answer.detail(answer) or found not in (0, 1, 3, 5, 7) or not found and _answer.count(answer):
            _answer.foreign(answer)
        return answer, room[:] if found else []

    def look(self, station: Any, instant: int) -> tuple[int, list[float]]:
        """The answer of a look, and its three numbers where it is answered."""
        room = (ctypes.c_double * LOOK)()
        with self._lock:
            answer = library.look(
                self._numbers, NUMBERS, self._marks, MARKS, addressof(station), len(station), instant,
                addressof(room), LOOK,
            )  # fmt: skip
        return answer, room[:]


class Rooms:
    """Memory for the rows of a list: refusals, states (six numbers a row) and rounds.

    The three are NumPy arrays where NumPy is installed, else arrays of the standard library.
    """

    __slots__ = ("refusals", "states", "rounds")

    def __init__(self, count: int) -> None:
        if numpy is None:
            self.refusals: Any = array("B", bytes(count))
            self.states: Any = array("d", bytes(8 * STATE * count))
            self.rounds: Any = array("B", bytes(count))
        else:
            self.refusals = numpy.empty(count, numpy.uint8)
            self.states = numpy.empty((count, STATE))
            self.rounds = numpy.empty(count, numpy.uint8)

    def fill(self, memory: Memory, times: Any) -> int:
        """Asks a satellite for as many times, int64, as there are rows; the strides of all."""
        places = address(self.refusals), address(self.states), address(self.rounds)
        return memory.request_rows(address(times), len(times), *places)


def address(memory: Any) -> int:
    """Where the elements of an array lie, which is its own and stays as long as it does; 0 where there are none."""
    return addressof(_octet(memory)) if len(memory) else 0


#: The first byte of an array, in place. Of NumPy's ways to an address each takes three times as long.
_octet = ctypes.c_char.from_buffer


class Unopened:
    """A pair that reads and does not open, asked as a satellite is: each time is refused as opening was."""

    __slots__ = ("number",)

    epoch = 0

    def __init__(self, number: int) -> None:
        self.number = number

    def request(self, time: int) -> tuple[int, list[float]]:
        return self.number, [0.0] * STATE

    def request_rows(self, times: int, count: int, refusals: int, states: int, rounds: int) -> int:
        ctypes.memset(refusals, self.number, count)
        ctypes.memset(states, 0, 8 * STATE * count)
        return 0


def opened(line1: Text, line2: Text) -> Union[Memory, Unopened]:
    """A satellite of lines that read, or what refusal 7 or 8 leaves of it; others are raised."""
    try:
        return Memory(line1, line2)
    except Refused as refused:
        if refused.number not in (7, 8):
            raise
        return Unopened(refused.number)
