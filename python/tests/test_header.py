"""The declarations of the package held against include/saddlekerf.h."""

from __future__ import annotations

import ctypes
import re
import unittest

import saddlekerf
from saddlekerf import _library, layout, refusal

from .common import ROOT

HEADER = (ROOT / "include/saddlekerf.h").read_text()
CODE = re.sub(r"/\*.*?\*/", "", HEADER, flags=re.S)

KINDS = {
    "uint64_t": ctypes.c_uint64, "int64_t": ctypes.c_int64, "size_t": ctypes.c_size_t, "uint32_t": ctypes.c_uint32,
}  # fmt: skip


def kind(parameter: str) -> object:
    """The ctypes type of a parameter; a line or a text for reading is lent as bytes."""
    if "*" not in parameter:
        return KINDS[parameter.split()[0]]
    name = parameter.split("*")[1]
    text = parameter.startswith("const uint8_t") and name not in ("roster", "first", "second")
    return ctypes.c_char_p if text else ctypes.c_void_p


class Header(unittest.TestCase):
    def test_functions(self) -> None:
        found = re.findall(r"^uint64_t saddlekerf_(\w+)\(([^)]*)\);", CODE, flags=re.M)
        self.assertGreaterEqual(len(found), 25)
        declared = {**_library._SHORT, **_library._LONG}
        for name, parameters in found:
            if name.startswith("abi_"):
                self.assertEqual(_library.ABI, f"saddlekerf_{name}")
                continue
            self.assertIn(name, declared, "a function of the header that _library.py does not declare")
            words = [] if parameters == "void" else [" ".join(p.split()) for p in parameters.split(",")]
            self.assertEqual(list(declared.pop(name)), [kind(word) for word in words], name)
        self.assertEqual(declared, {})

    def test_constants(self) -> None:
        found = dict(re.findall(r"^#define SADDLEKERF_(\w+) (?:INT64_C\()?(\d+)", CODE, flags=re.M))
        for name, value in found.items():
            if hasattr(_library, name):
                self.assertEqual(getattr(_library, name), int(value), name)
        self.assertEqual(set(found) - set(vars(_library)), {"STACK", "ROW", "OFFER_NUMBERS", "DATE"})
        self.assertEqual(saddlekerf.version(), _library.VERSION)
        numbers = [int(word) for word in saddlekerf.__version__.split(".")]
        self.assertEqual(numbers[0] * 10000 + numbers[1] * 100 + numbers[2], _library.VERSION)

    def test_refusals_and_fields(self) -> None:
        listed = CODE.split("saddlekerf_refusal_number")[1].split("}")[0]
        numbers = dict(re.findall(r"SADDLEKERF_(\w+) = (\d+)", listed))
        self.assertEqual(set(refusal.SENTENCES), {int(number) for number in numbers.values()} - {0})
        fields = re.findall(r"SADDLEKERF_FIELD_(\w+) = (\d+)", CODE)
        self.assertEqual(refusal.FIELDS, {int(number): name.lower() for name, number in fields})
        self.assertEqual({span.last for spans in layout.SPANS.values() for span in spans if span.name == "B*"}, {61})

    def test_environment(self) -> None:
        self.assertTrue(saddlekerf.environment_is_default())
        mathematics = ctypes.PyDLL("libm.so.6")
        mathematics.fesetround(0x400)  # downward
        try:
            self.assertFalse(saddlekerf.environment_is_default())
        finally:
            mathematics.fesetround(0)
        self.assertTrue(saddlekerf.environment_is_default())
