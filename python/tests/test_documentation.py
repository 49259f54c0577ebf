"""Examples in the documentation run, and print what stands there."""

from __future__ import annotations

import contextlib
import doctest
import importlib
import io
import pkgutil
import re
import unittest

import saddlekerf

from .common import ROOT

FOUND = [name for _, name, _ in pkgutil.walk_packages(saddlekerf.__path__, "saddlekerf.")]
#: The shared library beside the modules looks like one.
MODULES = ["saddlekerf"] + [name for name in FOUND if name != "saddlekerf.libsaddlekerf"]


def examples(path: str) -> list[str]:
    """The indented blocks of a Markdown file that are Python."""
    blocks = re.findall(r"(?:^    .*\n|^\n(?=    ))+", (ROOT / path).read_text(), flags=re.M)
    python = [block for block in blocks if re.search(r"^    (from|import) ", block, flags=re.M)]
    return [re.sub(r"^    ", "", block, flags=re.M) for block in python]


class Documentation(unittest.TestCase):
    def test_docstrings(self) -> None:
        attempted = 0
        for name in MODULES:
            with self.subTest(name):
                result = doctest.testmod(importlib.import_module(name))
                self.assertEqual(result.failed, 0)
                attempted += result.attempted
        self.assertGreater(attempted, 20)

    def test_every_public_name_is_described(self) -> None:
        for name in saddlekerf.__all__:
            value = getattr(saddlekerf, name)
            self.assertTrue(value.__doc__ or name == "FARTHEST", name)

    def test_readmes(self) -> None:
        """Each example in turn, in one interpreter; a comment behind a print is what it prints."""
        for path, count in (("python/README.md", 3), ("README.md", 1)):
            found, names = examples(path), {}
            self.assertEqual(len(found), count, path)
            for example in found:
                try:
                    out = io.StringIO()
                    with contextlib.redirect_stdout(out):
                        exec(compile(example, path, "exec"), names)
                except ImportError as error:
                    self.assertIn("skyfield", str(error))
                    continue
                printed = out.getvalue().splitlines()
                self.assertEqual(len(printed), len(re.findall(r"^ *print\(", example, flags=re.M)))
                for line, expected in zip(printed, re.findall(r"print\(.*\)(?:  # (.*))?", example)):
                    self.assertIn(expected, (line, ""), path)
