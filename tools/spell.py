#!/usr/bin/env python3
"""Brings the names that this repository defines to the spelling of today's Rattle, once, after port.py.

usage: python3 tools/spell.py          at the top of the repository, over what port.py wrote
       python3 tools/spell.py --look   writes nothing, and says which names would fall together in a file

A definition `checkOf` becomes `check_of`; a record's field or a constructor `few-scans` becomes `few_scans`. Lemmas keep the dash that joins
two names. A name whose turned form another name of the repository has is in KEPT or OTHER. Pages and must-fail edits take these names too, and
those that port.py gave (PORTED, read off the declarations before and after it).
"""
import collections
import json
import os
import re
import sys

HERE = os.path.dirname(os.path.abspath(__file__))
TOP = os.path.dirname(HERE)
PORTED = json.load(open(os.path.join(HERE, "ported_names.json"), encoding="utf-8"))
# Fields whose turned form is the name of a definition beside them.
OTHER = {"buffer-after": "buffer_then", "rows-after": "rows_then", "in-front": "front_in"}
# Lemmas that port.py gave a definition's name: they keep their dash, in these files.
DASHED = {
    "in_order": ["crates/search/proofs/Weighed.antt", "crates/image/proofs/Theorem.antt", "crates/meaning/proofs/Finals.antt", "crates/meaning/proofs/Row.antt"],
    "read_as": ["crates/image_read/proofs/Answered.antt", "crates/image_read/proofs/Whole.antt", "crates/image_read/proofs/Made.antt", "crates/image_read/proofs/parts/read_scan/Proof.antt"],
}
TOKEN = re.compile(r"[^\s(){}\[\],;.:\"«»`=+*/|<>&!#λ∷]+")
DECLARED = re.compile(r"^\s*(?:(?:pub|abbrev|unfoldable) )*([^\s(){},;.:\"=]+)((?: [^\s(){},;.:\"=]+)*) :(?: |$)")
BLOCK = re.compile(r"^\s*(?:(?:abbrev|unfoldable|pub) )*(record|data)\s+([^\s(){},;.:\"]+)")


def files(*ends, below="crates"):
    for folder, dirs, names in os.walk(os.path.join(TOP, below)):
        dirs[:] = sorted(d for d in dirs if d not in ("out", "target", ".git"))
        for n in sorted(names):
            if n.endswith(ends):
                yield os.path.join(folder, n)


def snake(name):
    name = name.replace("getD", "get_or")
    return re.sub(r"([a-z0-9])([A-Z])", lambda m: m.group(1) + "_" + m.group(2).lower(), name)


def names():
    turned = {}
    for p in files(".antt"):
        block = None
        for line in open(p, encoding="utf-8"):
            if not line.strip() or line.lstrip().startswith("--"):
                continue
            indent = len(line) - len(line.lstrip())
            if block is not None and indent <= block:
                block = None
            if BLOCK.match(line):
                block = indent
                continue
            m = DECLARED.match(line)
            if not m:
                continue
            for n in [m.group(1)] + m.group(2).split():
                if not n[0].islower():
                    continue
                new = snake(n)
                if block is not None:
                    new = OTHER.get(n) or new.replace("-", "_")
                if new != n:
                    turned[n] = new
    return turned


def turn(text, table):
    return TOKEN.sub(lambda m: table.get(m.group(0), m.group(0)), text)


def main(look):
    turned = names()
    together = collections.defaultdict(set)
    for p in files(".antt", ".rt"):
        short = os.path.relpath(p, TOP)
        text = open(p, encoding="utf-8").read()
        for name, where in DASHED.items():
            if short in where:
                text = re.sub(r"(?<![\w.])%s(?![\w.])" % name, name.replace("_", "-"), text)
        table = dict(turned)
        if p.endswith(".antt"):
            there = set(TOKEN.findall(text))
            new = collections.defaultdict(set)
            for t in there:
                new[table.get(t, t)].add(t)
            for n, old in new.items():
                if len(old) > 1:
                    together[n, tuple(sorted(old))].add(short)
        text = turn(text, table)
        if not look:
            open(p, "w", encoding="utf-8").write(text)
    if look:
        for (n, old), where in sorted(together.items()):
            print(n, old, len(where), sorted(where)[:3])
        return
    both = {a: turned.get(b, b) for a, b in PORTED.items()} | turned
    pages = [os.path.join(TOP, "README.md")] + list(files(".md", below="docs")) + list(files(".edit")) + list(files(".edit", below="edits"))
    for p in pages:
        text = open(p, encoding="utf-8").read()
        open(p, "w", encoding="utf-8").write(turn(text, both))


if __name__ == "__main__":
    main("--look" in sys.argv)
