#!/usr/bin/env python3
"""Lists functions of one shape: bodies that are the same once names, numbers and texts are taken out.

Run it at the top of the repository: tools/shapes.py [ROOT]. A shape of fewer than four tokens is left out.
"""
import re
import sys
from collections import defaultdict
from pathlib import Path

TOKEN = re.compile(r'b?"(?:[^"\\]|\\.)*"|b?\'(?:[^\'\\]|\\.)\'|[A-Za-z_]\w*|\d[\w]*|=>|->|::|\.\.=?|[^\s\w]')
KEYWORDS = {"if", "else", "match", "while", "for", "in", "let", "mut", "return", "loop", "as", "self", "Some", "None", "Ok", "Err", "true", "false"}


def functions(text):
    """Each function's name with its body."""
    for found in re.finditer(r"\bfn (\w+)", text):
        brace = re.compile(r"\n?[ ]*\{\n").search(text, found.end())
        end = text.find(";", found.end())
        if not brace or (0 <= end < brace.start() and "\n    {" not in text[found.end():end]):
            continue
        depth, at = 1, brace.end()
        while depth and at < len(text):
            depth += {"{": 1, "}": -1}.get(text[at], 0)
            at += 1
        yield found.group(1), text[brace.end():at - 1]


def shape(body):
    body = re.sub(r"//[^\n]*", "", body)
    return " ".join(t if t in KEYWORDS or not (t[0].isalnum() or t[0] in "_\"'b") else ("n" if t[0].isdigit() else "x") for t in TOKEN.findall(body))


def main():
    root = Path(sys.argv[1] if len(sys.argv) > 1 else ".")
    shapes = defaultdict(list)
    for path in sorted(root.glob("crates/*/src/**/*.rt")):
        for name, body in functions(path.read_text()):
            key = shape(body)
            if len(key.split()) >= 4:
                shapes[key].append(f"{path.relative_to(root)} {name}")
    groups = [names for names in shapes.values() if len(names) > 1]
    for names in sorted(groups, key=len, reverse=True):
        print(f"{len(names)}: " + "; ".join(names))
    print(f"{len(groups)} shapes, {sum(map(len, groups))} functions")


if __name__ == "__main__":
    main()
