"""Satellites as lines, by the proved writer."""

from __future__ import annotations

from .satrec import Satrec


def export_tle(satrec: Satrec) -> tuple[str, str]:
    """Both lines of a satellite, in the library's own spelling; they read as the same record."""
    if not isinstance(satrec, Satrec):
        raise TypeError(f"a satellite is a saddlekerf.sgp4.Satrec, not {type(satrec).__name__}")
    return satrec.record.write()
