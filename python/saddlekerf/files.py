"""Catalogues: files of two- and three-line sets, gone through pair by pair."""

from __future__ import annotations

import os
from collections.abc import Iterable, Iterator
from typing import BinaryIO, NamedTuple, Optional, Union

from .mending import Repair, mend as _mend
from .record import Record, read
from .refusal import Refused

#: A line of so many bytes is no name.
_LONG = 60


class Entry(NamedTuple):
    """A pair of a catalogue with its record, or with the refusal of its lines.

    The lines are as they were read, mended where that was asked for, without their ends. `number1` and
    `number2` count the file's lines from 1; a line that is missing has no bytes and the number 0.
    """

    name: Optional[str]
    line1: bytes
    line2: bytes
    number1: int
    number2: int
    record: Optional[Record]
    refusal: Optional[Refused]
    repairs: tuple[Repair, ...] = ()


def load(source: Union[str, os.PathLike[str], BinaryIO, Iterable[bytes]], *, mend: bool = False) -> Iterator[Entry]:
    """Goes through a catalogue: every pair with its line numbers, and its record or its refusal.

    `source` is a path, a file opened for bytes, or lines of bytes. It is read as far as it is asked,
    so that catalogues may have any size. A line ends at a newline or at a carriage return and a
    newline. Blank lines are passed over. A line that begins with `1 ` or `2 `, or has 60 bytes or more,
    belongs to a pair; any other is the name of the pair that follows, with or without the `0 ` of
    three-line sets in front. (A shorter line that begins with `1 ` is a name too where another such
    line follows it.) A line of a pair without its other, and a name without a pair, is a pair whose
    other line is empty, and is refused: nothing is passed over in silence.

    With `mend` the published habits are repaired first (`saddlekerf.mend`), and each pair comes with
    its list of repairs.
    """
    if isinstance(source, (str, os.PathLike)):
        return _of_path(os.fspath(source), mend)
    if isinstance(source, (bytes, bytearray)) or not hasattr(source, "__iter__"):
        raise TypeError(f"a catalogue is a path or a file opened for bytes, not {type(source).__name__}")
    return _entries(source, mend)


def _of_path(path: str, mending: bool) -> Iterator[Entry]:
    file = open(path, "rb")

    def entries() -> Iterator[Entry]:
        with file:
            yield from _entries(file, mending)

    return entries()


class _Line(NamedTuple):
    text: bytes
    number: int


_MISSING = _Line(b"", 0)


def _entries(source: Iterable[bytes], mending: bool) -> Iterator[Entry]:
    """Pairs as they are met: a name, a line 1 and a line 2, any of which may be missing."""
    name = first = _MISSING
    for line in _lines(source):
        start, long = line.text[:2], len(line.text) >= _LONG
        if first is _MISSING:
            if start == b"2 ":
                yield _entry(name, _MISSING, line, mending)
                name = _MISSING
            elif start == b"1 " or long:
                first = line
            else:
                if name is not _MISSING:
                    yield _entry(_MISSING, name, _MISSING, mending)
                name = line
        elif start == b"2 " or long and start != b"1 ":
            yield _entry(name, first, line, mending)
            name = first = _MISSING
        elif start == b"1 " and name is _MISSING and len(first.text) < _LONG:
            name, first = first, line
        else:
            yield _entry(name, first, _MISSING, mending)
            name, first = (_MISSING, line) if start == b"1 " else (line, _MISSING)
    if first is not _MISSING:
        yield _entry(name, first, _MISSING, mending)
    elif name is not _MISSING:
        yield _entry(_MISSING, name, _MISSING, mending)


def _lines(source: Iterable[bytes]) -> Iterator[_Line]:
    """The lines that are not blank, without their ends."""
    for number, line in enumerate(source, 1):
        if not isinstance(line, bytes):
            raise TypeError(f"a catalogue has lines of bytes, not of {type(line).__name__}: open it with 'rb'")
        if line.endswith(b"\n"):
            line = line[: -2 if line.endswith(b"\r\n") else -1]
        if not line.isspace() and line:
            yield _Line(line, number)


def _entry(name: _Line, first: _Line, second: _Line, mending: bool) -> Entry:
    line1, line2 = first.text, second.text
    repairs: list[Repair] = []
    if mending:
        line1, line2, repairs = _mend(line1, line2)
    record, refusal = None, None
    try:
        record = read(line1, line2)
    except Refused as refused:
        refusal = refused.with_traceback(None)
    return Entry(_named(name.text), line1, line2, first.number, second.number, record, refusal, tuple(repairs))


def _named(name: bytes) -> Optional[str]:
    text = name.decode("utf-8", "backslashreplace").strip()
    return (text[2:].lstrip() if text.startswith("0 ") else text) or None
