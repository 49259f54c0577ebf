"""NumPy where it is installed, else None: every caller has a way without it."""

from __future__ import annotations

from typing import Any

numpy: Any
try:
    import numpy
except ImportError:
    numpy = None
