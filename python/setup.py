"""Builds the wheel: makes the shared library from the archive, and tags the wheel with its platform.

The library speaks C alone, so that one wheel is for every Python 3 of the platform.
"""

import subprocess
from pathlib import Path

from setuptools import setup
from setuptools.command.build_py import build_py
from setuptools.dist import Distribution

try:
    from wheel.bdist_wheel import bdist_wheel
except ImportError:  # setuptools 70.1 and newer have their own
    from setuptools.command.bdist_wheel import bdist_wheel

HERE = Path(__file__).resolve().parent
ARCHIVE = HERE.parent / "target/staticlib/libsaddlekerf.a"
LIBRARY = HERE / "saddlekerf/libsaddlekerf.so"


class Build(build_py):
    def run(self):
        if ARCHIVE.is_file():
            whole = ["-Wl,--whole-archive", str(ARCHIVE), "-Wl,--no-whole-archive"]
            subprocess.run(["cc", "-shared", "-o", str(LIBRARY), *whole], check=True)
        elif not LIBRARY.is_file():
            raise SystemExit(f"no {ARCHIVE}: run `./archive saddlekerf` in the repository first")
        super().run()


class Platform(Distribution):
    def has_ext_modules(self):
        return True


class Wheel(bdist_wheel):
    def get_tag(self):
        return ("py3", "none", super().get_tag()[2])


setup(cmdclass={"build_py": Build, "bdist_wheel": Wheel}, distclass=Platform)
