#!/usr/bin/env python3
"""Lists the groups of functions that are the same but for names, types, numbers and texts: where one function may do.

usage: tools/twins.py FOLDER   the top of a checkout; functions of five lines and more of crates/*/src"""

import collections
import glob
import re
import sys

KEPT = ("let", "mut", "if", "else", "while", "for", "in", "return", "match", "as", "true", "false", "fn", "self")


def normal(text):
    """The text with each name as its rank, and each literal as N."""
    names = {}
    text = re.sub(r"b'(?:\\.|[^'])'|b?\"[^\"]*\"|\b\d[\w.]*\b", "N", re.sub(r"//.*", "", text))
    text = re.sub(r"[A-Za-z_]\w*", lambda m: m[0] if m[0] in KEPT else names.setdefault(m[0], f"v{len(names)}"), text)
    return re.sub(r"\s+", "", text)


def functions(root):
    """Each function: its file, its name, its parameters and body, and how many lines it has."""
    for file in sorted(glob.glob(f"{root}/crates/*/src/**/*.rt", recursive=True)):
        text = open(file, encoding="utf-8").read()
        for m in re.finditer(r"^( *)(?:pub )?(?:const )?fn (\w+)", text, re.MULTILINE):
            end = text.find(f"\n{m[1]}}}\n", m.end())
            begin = text.find(f"\n{m[1]}{{\n", m.end())
            if 0 <= begin < end:
                head = re.sub(r"\b(ensures|requires).*", "", text[m.start():begin]).split("(", 1)[1]
                body = text[begin:end]
                size = sum(1 for x in body.split("\n") if x.strip() and not x.strip().startswith("//"))
                yield file.split("crates/")[1].replace("/src", "").replace("/lib.rt", ""), m[2], head + body, size


groups = collections.defaultdict(list)
for where, name, text, size in functions(sys.argv[1]):
    if size >= 5:
        groups[normal(text)].append((f"{where}:{name}", size))
twins = sorted((g for g in groups.values() if len(g) > 1), key=lambda g: -len(g) * g[0][1])
for group in twins:
    print(f"{len(group)} x {group[0][1]} lines: {', '.join(name for name, _ in group)}")
print(len(twins), "groups")
