#!/usr/bin/env python3
"""Brings the names of the repository's own definitions and lemmas to today's spelling, once, after port.py: words in
snake case, so that absOf becomes abs_of and half-pi half_pi. Types and facts, which begin with a capital, and the
functions of src/ keep their names, and so do strings.

usage: tools/respell.py         at the top of the repository: rewrites crates/, must-fail edits and docs/ in place
       tools/respell.py --list  prints old and new name, and where two names of one file would fall together
"""

import glob
import re
import sys

WORD = re.compile(r"[^\s(){}\[\],;.:\"`⌜⌝λ|@=→×∷∙←]+")
HEAD = re.compile(r"^\s*(?:(?:unfoldable|abbrev|pub)\s+)*([^\s:(){}\[\],;.\"`λ]+)\s*(?:(?:\([^()]*(?:\([^()]*\)[^()]*)*\)|\{[^{}]*\})\s*)*:(?:\s|$)")
KEEP = {"c", "κs"}
# lemmas that would have the name of a definition that their file cites
LEMMAS = ("best_of", "is_digit", "is_seen", "row_put", "same_class")


def snake(name):
    if "◌" in name or not name[0].islower():
        return name
    out = name.replace("-", "_")
    out = re.sub(r"([A-Z])([A-Z]+)(?=$|_)", lambda m: "_" + m.group(0).lower(), out)
    out = re.sub(r"([a-z0-9'])([A-Z])", lambda m: m.group(1) + "_" + m.group(2).lower(), out)
    return out


def antt(pattern):
    return sorted(p for p in glob.glob(pattern, recursive=True) if not p.endswith("/Proof.antt") and "/out/" not in p)


def names():
    """Old and new names. A lemma that would have its definition's name gets _lem."""
    found = {name: name + "_lem" for name in LEMMAS}
    heads = set()
    for path in antt("crates/*/specs/**/*.antt") + antt("crates/*/proofs/**/*.antt"):
        for line in open(path, encoding="utf-8"):
            if line.lstrip().startswith(("--", "use ", "mod ", "pub mod ", "infix", "unfolding", "let ", "where", "|")):
                continue
            match = HEAD.match(line)
            if match and match.group(1) not in KEEP:
                heads.add(match.group(1))
    taken = {snake(h) for h in heads if "-" not in h}
    for old in heads - set(LEMMAS):
        new = snake(old)
        if new != old:
            found[old] = new + "_lem" if "-" in old and new in taken else new
    return found


def unquoted(text, turn):
    """The text with every part outside strings turned."""
    parts = re.split(r'(b?"(?:[^"\\]|\\.)*")', text)
    return "".join(p if i % 2 else turn(p) for i, p in enumerate(parts))


def turned(text, table):
    return WORD.sub(lambda m: table.get(m.group(0), m.group(0)), text)


def quoted(text, table):
    """Of prose, what stands in backquotes; elsewhere the words that are no prose."""
    prose = {o: n for o, n in table.items() if "-" not in o and o not in LEMMAS}
    parts = re.split(r"(`[^`]*`)", text)
    return "".join(turned(p, table if i % 2 else prose) for i, p in enumerate(parts))


def line_of(line, table, comment):
    at = line.find(comment)
    if at >= 0 and line.count('"', 0, at) % 2 == 0:
        return unquoted(line[:at], lambda t: turned(t, table)) + quoted(line[at:], table)
    return unquoted(line, lambda t: turned(t, table))


def file_of(path, text, table):
    if path.endswith(".md"):
        return quoted(text, {o: n for o, n in table.items() if o not in LEMMAS})
    comment = "--" if path.endswith(".antt") else "//"
    if not path.endswith(".antt"):
        table = {o: n for o, n in table.items() if o not in LEMMAS}
    if path.endswith(".edit"):
        lines = text.split("\n")
        return "\n".join(quoted(l, table) if l.startswith("#") else line_of(l, table, "\0") for l in lines)
    return "\n".join(line_of(l, table, comment) for l in text.split("\n"))


def main():
    table = names()
    files = [p for e in ("rt", "antt", "edit") for p in sorted(glob.glob(f"crates/**/*.{e}", recursive=True)) if "/out/" not in p]
    files += sorted(glob.glob("docs/**/*.md", recursive=True)) + ["README.md"]
    if "--list" in sys.argv:
        for old, new in sorted(table.items()):
            print(old, new)
        for path in files:
            words = set(WORD.findall(open(path, encoding="utf-8").read()))
            made = {}
            for w in words:
                if w in table:
                    made.setdefault(table[w], []).append(w)
            for new, olds in made.items():
                if len(olds) > 1 or new in words:
                    print("together:", path, new, olds, "already there" if new in words else "")
        return
    for path in files:
        text = open(path, encoding="utf-8").read()
        new = file_of(path, text, table)
        if new != text:
            open(path, "w", encoding="utf-8").write(new)


main()
