"""The proved library under the names and in the units of the package sgp4.

    from saddlekerf.sgp4 import Satrec, SatrecArray, jday

What differs from that package, all of it on purpose:

- Lines are judged strictly: `twoline2rv` raises `saddlekerf.Refused`, a ValueError, with the line and
  the column, where sgp4 reads on. White space behind the lines is taken off, as sgp4 does.
- A Julian date and fraction, or a number of minutes, become the nearest microsecond.
- A refused time has NaNs for position and velocity. `error` and what comes first in an answer is sgp4's
  number where it has one (`SGP4_ERRORS`, 1 to 6) and the library's own where it has none: 8, a satellite
  that cannot be set up, 9, a time more than 3,652 days from the epoch, and 15, a state that is not finite.
- The constants are those of WGS-72, and satellites come from lines: other constants, `sgp4init` and the
  model's inner numbers raise with a sentence.
"""

from . import exporter
from .dates import days2mdhms, jday
from .errors import REFUSALS, SGP4_ERRORS
from .satrec import WGS72, WGS72OLD, WGS84, Satrec
from .satrec_array import SatrecArray

#: As in sgp4.api: the numbers are not worked out in Python.
accelerated = True

__all__ = [
    "REFUSALS", "SGP4_ERRORS", "WGS72", "WGS72OLD", "WGS84", "Satrec", "SatrecArray", "accelerated",
    "days2mdhms", "exporter", "jday",
]  # fmt: skip
