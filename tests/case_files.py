"""The cases of a program: the one that is stored, all of them in a folder, and what they have met.

A maker of cases is a module with `main_case`, `cases`, `answer` (standard output and standard error for an
input), `met` and `WANTED`; its words are those of its own description.
"""

import argparse
import re
from pathlib import Path


def write_cases(maker, folder):
    folder.mkdir(parents=True, exist_ok=True)
    for number, (name, text) in enumerate(maker.cases(), 1):
        printed, said = maker.answer(text)
        stem = folder / ("%03d-%s" % (number, re.sub(r"[^a-z0-9]+", "-", name.lower())[:40].strip("-")))
        stem.with_suffix(".in").write_bytes(text)
        stem.with_suffix(".out").write_text(printed)
        stem.with_suffix(".err").write_text(said)


def tell(maker):
    found = maker.cases()
    maker.met.clear()
    for _, text in found:
        maker.answer(text)
    for name in maker.WANTED:
        assert maker.met[name] > 0, name
    print(len(found), "cases;", ", ".join(f"{name} {count}" for name, count in sorted(maker.met.items())))


def main(maker):
    words = argparse.ArgumentParser(description=maker.__doc__, formatter_class=argparse.RawDescriptionHelpFormatter)
    words.add_argument("--write", nargs=2, metavar=("INPUT", "EXPECTED"))
    words.add_argument("--cases", metavar="FOLDER")
    words = words.parse_args()
    if words.write:
        Path(words.write[0]).write_bytes(maker.main_case())
        Path(words.write[1]).write_text(maker.answer(maker.main_case())[0])
    elif words.cases:
        write_cases(maker, Path(words.cases))
    else:
        tell(maker)
