"""The package without NumPy: the tests that do not need it, in an interpreter that cannot import it."""

from __future__ import annotations

import re
import subprocess
import sys
import unittest

from saddlekerf._arrays import numpy

from .common import ROOT

PROGRAM = """
import sys, unittest
sys.modules["numpy"] = None
names = ["published", "satellite", "sgp4", "threads", "garbage", "julian"]
suite = unittest.defaultTestLoader.loadTestsFromNames(["tests.test_" + name for name in names])
result = unittest.TextTestRunner(verbosity=0).run(suite)
sys.exit(not result.wasSuccessful())
"""

LISTS = """
import sys
sys.modules["numpy"] = None
from tests.common import LINE1, LINE2
from saddlekerf.sgp4 import Satrec, SatrecArray
satellite = Satrec.twoline2rv(LINE1, LINE2)
e, r, v = satellite.sgp4_array([2451722.5, 0.0], [0.5, 0.0])
assert e == [0, 9] and r[0] == satellite.sgp4(2451722.5, 0.5)[1] and len(v[1]) == 3, (e, r, v)
assert SatrecArray([satellite] * 3).sgp4([2451722.5], [0.5]) == ([[0]] * 3, [r[:1]] * 3, [v[:1]] * 3)
assert satellite.sgp4_array([], []) == ([], [], [])
"""


@unittest.skipIf(numpy is None, "NumPy is not installed: all tests run without it")
class WithoutNumPy(unittest.TestCase):
    def run_alone(self, program: str) -> subprocess.CompletedProcess[str]:
        command = [sys.executable, "-c", program]
        return subprocess.run(command, cwd=ROOT / "python", capture_output=True, text=True)

    def test_the_same_tests(self) -> None:
        run = self.run_alone(PROGRAM)
        self.assertEqual(run.returncode, 0, run.stderr)
        ran, skipped = re.search(r"Ran (\d+) tests", run.stderr), re.search(r"skipped=(\d+)", run.stderr)
        self.assertGreater(int(ran[1]) - int(skipped[1]), 25)

    def test_lists(self) -> None:
        run = self.run_alone(LISTS)
        self.assertEqual(run.returncode, 0, run.stderr)
