"""Two-line element sets and SGP4, proved bit for bit.

The package adds types and text to the proved library, no arithmetic of its own on orbits: every
position comes out of it. `saddlekerf.sgp4` has the names of the package sgp4.

>>> import saddlekerf
>>> line1 = "1 00005U 58002B   00179.78495062  .00000023  00000-0  28098-4 0  4753"
>>> line2 = "2 00005  34.2682 348.7242 1859667 331.7664  19.3264 10.82419157413667"
>>> saddlekerf.read(line1, line2).inclination_degrees
34.2682
>>> satellite = saddlekerf.Satellite.open(line1, line2)
>>> satellite.at(saddlekerf.Microseconds.from_minutes(360)).position[0]
-7154.031202015704
>>> try:
...     saddlekerf.read(line1, line2.replace("34.2682", "34,2682"))
... except saddlekerf.Refused as refused:
...     print(refused.sentence)
line 2, column 12 of the inclination (columns 9-16) is ','; a point may stand there
"""

from ._library import environment_is_default, version
from .award import Offer, check_plan
from .files import Entry, load
from .instant import FARTHEST, Date, Instant, Microseconds, Strides
from .mending import Repair, mend
from .order import best_order
from .record import Exponential, Record, checksum, epoch, form, meaning, printed, read
from .refusal import Refused
from .reports import Report, report
from .roster import Pair, Roster, changes
from .satellite import Answer, Look, Pass, Rows, Satellite, State, Window, Windows

__all__ = [
    "FARTHEST", "Answer", "Date", "Entry", "Exponential", "Instant", "Look", "Microseconds", "Offer", "Pair", "Pass",
    "Record", "Refused", "Repair", "Report", "Roster", "Rows", "Satellite", "State", "Strides", "Window",
    "Windows", "best_order", "changes", "check_plan", "checksum", "environment_is_default", "epoch", "form", "load",
    "meaning", "mend", "printed", "read", "report", "version",
]  # fmt: skip

__version__ = "0.4.0"
