#!/usr/bin/env python3
"""Respells the repository's own definitions and laws, as tools/respell.txt lists them: a line a name, old then new.

usage: python3 tools/respell.py        at the top, once, on a tree that the toolchain's own port script has turned

Names of functions, of C and of texts stay. A name of one word with `_` is respelled in .antt files alone, since code may
have a name like it. The script says where a new name stood in a file already.
"""
import glob
import os
import re

TOP = os.path.dirname(os.path.dirname(os.path.abspath(__file__)))
WORD = re.compile(r"(?<![\w'₀-₉·-])[^\W\d][\w'₀-₉]*(?:-[\w'₀-₉]+)*(?![\w'₀-₉-])")


def table():
    with open(os.path.join(TOP, "tools", "respell.txt"), encoding="utf-8") as f:
        return dict(line.split() for line in f if line.strip())


def plain(name):
    return "-" not in name and name == name.lower()


def turn(path, names):
    with open(path, encoding="utf-8") as f:
        text = f.read()
    if path.endswith(".rt") or path.endswith(".edit"):
        names = {a: b for a, b in names.items() if not plain(a)}
    seen = set(WORD.findall(text))
    for old, new in names.items():
        if old in seen and new in seen and new not in names:
            print(f"{os.path.relpath(path, TOP)}: {new} stands beside {old}")
    now = WORD.sub(lambda m: names.get(m.group(0), m.group(0)), text)
    if now != text:
        with open(path, "w", encoding="utf-8") as f:
            f.write(now)


names = table()
for pattern in ("crates/*/src/*.rt", "crates/*/specs/**/*.antt", "crates/*/proofs/**/*.antt", "crates/*/must-fail/*.edit"):
    for path in sorted(glob.glob(os.path.join(TOP, pattern), recursive=True)):
        turn(path, names)
