"""The shared library: found, checked and declared. Nothing else of the package speaks C.

`include/saddlekerf.h` says what each function does. Memory is lent as an address and a number of
elements, so that the caller of a function here answers for both; lines are lent as `bytes`.

A call that may take long gives the interpreter's lock away; a short one keeps it, since getting it
back would take longer than the call.
"""

from __future__ import annotations

import ctypes
import os
from ctypes import c_char_p, c_int64, c_size_t, c_uint32, c_uint64, c_void_p
from pathlib import Path
from typing import Any

VERSION = 400
ABI = "saddlekerf_abi_3"

NUMBERS = 83
MARKS = 6
STATE = 6
LIST_LIMIT = 1024
SAMPLES_LIMIT = 1024
STEP_LIMIT = 86_400
PASS = 4
LOOK = 3
GEODETIC = 4
TIME_LIMIT = 315_532_800_000_000
PRINT_ROOM = 900
LINE = 69
FIELDS = 22
ROSTER = 8832
PAIR = 138
PLACES = 64
COUNTS = 17
PAIRS_LIMIT = 4096
CHANGES_ROOM = 24_448
PLAN_LIMIT = 256
BID_LIMIT = 1_000_000_000

_LINE = (c_char_p, c_size_t)
_LENT = (c_void_p, c_size_t)
_PAIR = _LINE + _LINE
_SATELLITE = _LENT + _LENT
_ROSTER = _LENT + _LENT

_SHORT: dict[str, tuple[Any, ...]] = {
    "version": (),
    "read": _PAIR,
    "checksum": _LINE,
    "print": _PAIR + _LENT,
    "epoch": _PAIR + (c_void_p,),
    "record": _PAIR + _LENT,
    "form": _PAIR + _LENT,
    "meaning": _LENT,
    "write": _LENT + (c_uint32,) + _LENT,
    "fill_row": _ROSTER,
    "lodge": _ROSTER + _PAIR,
    "withdraw": _ROSTER + (c_uint64,),
    "changes": _ROSTER + _ROSTER + _LENT,
    "move": (c_uint64, c_int64, c_void_p),
    "date": (c_uint64,) + _LENT,
    "instant": (c_uint64, c_uint64, c_uint64, c_void_p),
    "award": _LENT + _LENT + (c_uint64, c_uint64),
    "best_order": _LENT,
    "open": _PAIR + _SATELLITE,
    "request": _SATELLITE + (c_int64,) + _LENT,
    "look": _SATELLITE + _LENT + (c_uint64,) + _LENT,
}

_LONG: dict[str, tuple[Any, ...]] = {
    "report": _LINE + _LENT,
    "request_list": _SATELLITE + _LENT + _LENT + _LENT + _LENT,
    "windows": _SATELLITE + _LENT + (c_uint64, c_uint64, c_size_t) + _LENT + _LENT,
    "next_pass": _SATELLITE + _LENT + (c_uint64, c_uint64, c_uint32) + _LENT,
}


def _path() -> Path:
    """The file: the one that SADDLEKERF_LIBRARY names, else the one beside this module."""
    named = os.environ.get("SADDLEKERF_LIBRARY")
    return Path(named) if named else Path(__file__).with_name("libsaddlekerf.so")


class _Library:
    """The functions of the header by their names without the prefix."""

    def __init__(self, path: Path) -> None:
        if not path.is_file():
            raise ImportError(
                f"there is no {path}: make it from the archive with the command that python/README.md has"
            )
        try:
            short, long = ctypes.PyDLL(str(path)), ctypes.CDLL(str(path))
        except OSError as error:
            raise ImportError(f"{path} cannot be loaded: {error}") from error
        if not hasattr(short, ABI):
            raise ImportError(f"{path} is of another version of Saddlekerf: it has no {ABI}")
        for handle, functions in ((short, _SHORT), (long, _LONG)):
            for name, arguments in functions.items():
                setattr(self, name, _declared(handle, name, arguments))

    def __getattr__(self, name: str) -> Any:
        raise AttributeError(f"saddlekerf.h has no function {name}")


def _declared(handle: ctypes.CDLL, name: str, arguments: tuple[Any, ...]) -> Any:
    function = handle["saddlekerf_" + name]
    function.argtypes = arguments
    function.restype = c_uint64
    return function


library = _Library(_path())


def version() -> int:
    """The version of the library: 10000 × major + 100 × minor + patch."""
    return int(library.version())


def environment_is_default() -> bool:
    """Whether this thread's floating-point environment is the one that the proofs speak of.

    That is rounding to nearest, subnormal numbers kept, every trap masked: the state in which a
    program starts. A module built with `-ffast-math` may change it, and other bits come out then.

    >>> environment_is_default()
    True
    """
    room = (c_uint32 * 8)()
    mathematics = ctypes.PyDLL("libm.so.6")
    if mathematics.fegetenv(room) != 0:
        raise OSError("fegetenv failed")
    return room[7] & 0xFFC0 == 0x1F80
