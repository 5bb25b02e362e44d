#!/usr/bin/env python3
"""Brings the names of definitions and lemmas that the kit's port.py leaves to the spelling of today's kit.

usage: python3 tools/respell.py [FOLDER]     once, after port.py, at the top of the repository (or of FOLDER)

Words are in snake case, types in camel case; a lemma keeps the dash between two names, and ends in _lem where a function
of src/ has its name. The names stand in respell.names. Comments and strings keep theirs, as do functions of src/.
"""
import os
import re
import sys

HERE = os.path.dirname(os.path.realpath(__file__))
TOKEN = re.compile(r"[^\s(){}\[\],;.λ→\"]+")
PARTS = re.compile(r'("(?:[^"\\\n]|\\.)*"|//[^\n]*|(?:(?<=\s)|^)--[^\n]*)', re.M)


def table():
    with open(os.path.join(HERE, "respell.names"), encoding="utf-8") as f:
        return dict(line.split() for line in f if not line.startswith("#"))


def turned(text, names):
    def one(m):
        word = m.group(0)
        if word not in names:
            return word
        if m.start() and m.string[m.start() - 1] == ".":
            return word.replace("-", "_")
        return names[word]

    return TOKEN.sub(one, text)


def main():
    root = sys.argv[1] if len(sys.argv) > 1 else "."
    names = table()
    changed = 0
    for folder, dirs, files in os.walk(os.path.join(root, "crates")):
        dirs[:] = sorted(d for d in dirs if d != "out")
        for f in sorted(files):
            if not f.endswith((".rt", ".antt", ".edit")):
                continue
            path = os.path.join(folder, f)
            with open(path, encoding="utf-8") as t:
                old = t.read()
            new = "".join(p if i % 2 else turned(p, names) for i, p in enumerate(PARTS.split(old)))
            if new != old:
                changed += 1
                with open(path, "w", encoding="utf-8") as t:
                    t.write(new)
    print(f"respell: {changed} files changed")


main()
