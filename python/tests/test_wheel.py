"""The wheel: built without a network, installed and imported where there is no Rattle kit."""

from __future__ import annotations

import shutil
import subprocess
import sys
import tempfile
import unittest
import zipfile
from pathlib import Path
from typing import Optional

import saddlekerf

from .common import LINE1, LINE2, ROOT

PROGRAM = f"""
import os, saddlekerf
assert "kit" not in os.environ["PATH"] and "site-packages" in saddlekerf.__file__, saddlekerf.__file__
from saddlekerf.sgp4 import Satrec
print(Satrec.twoline2rv({LINE1!r}, {LINE2!r}).sgp4_tsince(360.0)[1][0])
"""


def builder() -> Optional[str]:
    """A Python that has pip, setuptools, wheel and venv."""
    for python in (sys.executable, "/usr/bin/python3"):
        command = [python, "-c", "import setuptools, wheel, pip, venv, ensurepip"]
        if shutil.which(python) and subprocess.run(command, capture_output=True).returncode == 0:
            return python
    return None


class Wheel(unittest.TestCase):
    def test_built_installed_imported(self) -> None:
        python = builder()
        if python is None:
            self.skipTest("no Python with pip, setuptools, wheel and venv (Debian: python3-pip and so on)")
        with tempfile.TemporaryDirectory() as folder:
            source = Path(folder, "source")
            ignored = shutil.ignore_patterns("__pycache__", "build", "dist", "*.egg-info", "tests", "benchmarks")
            shutil.copytree(ROOT / "python", source, ignore=ignored)
            options = ["--no-index", "--no-deps", "--no-build-isolation", "--wheel-dir", folder]
            self.called(python, "-m", "pip", "wheel", *options, str(source))
            wheel, = Path(folder).glob("*.whl")
            self.assertEqual(wheel.name, f"saddlekerf-{saddlekerf.__version__}-py3-none-linux_x86_64.whl")
            names = zipfile.ZipFile(wheel).namelist()
            for name in ("libsaddlekerf.so", "py.typed", "sgp4/satrec.py"):
                self.assertIn(f"saddlekerf/{name}", names)
            self.called(python, "-m", "venv", f"{folder}/fresh")
            self.called(f"{folder}/fresh/bin/pip", "install", "--no-index", str(wheel))
            printed = self.called(f"{folder}/fresh/bin/python", "-c", PROGRAM, cwd=folder)
            self.assertEqual(printed, "-7154.031202015704\n")

    def called(self, *command: str, cwd: Optional[str] = None) -> str:
        """What a command prints, with nothing of this environment but a plain PATH."""
        environment = {"PATH": "/usr/bin:/bin", "HOME": "/nonexistent", "PIP_DISABLE_PIP_VERSION_CHECK": "1"}
        run = subprocess.run(command, capture_output=True, text=True, env=environment, cwd=cwd)
        self.assertEqual(run.returncode, 0, run.stdout + run.stderr)
        return run.stdout
