#!/usr/bin/env python3
"""Lists the places in src/ that an older form of the language may have left, by the points of docs/DESIGN-PASS.md.

Run it at the top of a repository: tools/places.py [ROOT]. It prints each place that a pattern finds, and the counts at the end; a person decides
which of them are such places. `tools/shapes.py` lists functions of one shape.
"""
import re
import sys
from collections import Counter, defaultdict
from pathlib import Path

# what is looked for, by point: a name, and a pattern over a line
LINES = [
    ("1 a flag", r"\b(taken|spent|sends|good|well|rejected|wanted|busy|open|several): bool"),
    ("1 a number for a kind", r"fn \w+(<[^>]*>)?\([^)]*\b(reply|handling|ignored|kind|auth|outcome): u8|\bfn (send|withdraw|spent)\b[^{]*-> u8"),
    ("1 an own case for a refusal", r"Met::Refused"),
    ("3 a loop over numbers", r"\bfor \w+ in [^{]*\.\.|\bwhile \w+ [<>]"),
    ("4 a combinator by hand", r"^\s+(None => (None|Ok|Err|\{\}|0|\(0)|Some\(_\) => (None|Ok|Err|true)|Some\((\w+)\) => Some\(|Ok\(\(\)\) => \{\}|_ => false,|None => second|None => Met)"),
    ("4 words by hand", r"^\s*(pub )?fn (\w+_words?|words|hexadecimal|about)\("),
    ("4 a conversion or comparison by hand", r"\bfn (is_gone|is_unconfirmed|is_rejected|is_well|same_kind|order_numbers|imsi_of|auth_of|outcome_of|number|read_several|read_store)\("),
    ("6 a length beside a buffer", r"^\s+(pub(\(crate\))? )?(len|count): (usize|u8),"),
    ("6 an index in place of a link", r"Option<u16>,$"),
    ("6 a list searched by hand", r"low < high|kept\[i\]|entries\[i\]"),
    ("7 a switch on a step", r"\bsends\b"),
]
DERIVES = re.compile(r"#\[derive\(Clone, Copy\)\]\n(?:\s*#[^\n]*\n)*\s*(?:pub(?:\(crate\))? )?(struct|enum) (\w+)")
CLAUSE = re.compile(r"^\s+((?:requires|ensures)\b.*\})$", re.M)
FUNCTION = re.compile(r"\bfn (\w+)(?:<[^(]*>)?\(([^)]*)\)")


def pairs(text):
    """Each function's pairs of parameters, by name and type."""
    for name, inner in FUNCTION.findall(text):
        params = [re.sub(r"\s+", " ", p).strip() for p in re.split(r",(?![^<]*>)", inner)]
        params = [p for p in params if ":" in p]
        yield from (((params[i], params[j]), name) for i in range(len(params)) for j in range(i + 1, len(params)))


def main():
    root = Path(sys.argv[1] if len(sys.argv) > 1 else ".")
    counts, clauses, together = Counter(), Counter(), defaultdict(list)
    for path in sorted(root.glob("crates/*/src/**/*.rt")):
        text = path.read_text()
        place = path.relative_to(root / "crates")
        for number, line in enumerate(text.splitlines(), 1):
            for name, pattern in LINES:
                if re.search(pattern, line):
                    counts[name] += 1
                    print(f"{name}: {place}:{number}: {line.strip()}")
        for kind, name in DERIVES.findall(text):
            counts["4 a type with no derived equality"] += 1
            print(f"4 a type with no derived equality: {place}: {kind} {name}")
        clauses.update(c.strip() for c in CLAUSE.findall(text))
        counts["5 the state spelled in a clause"] += len(re.findall(r"state S\.entries S\.room", text))
        counts["5 the limit beside its key"] += len(re.findall(r"\bLIMIT\b", text))
        for pair, name in pairs(text):
            together[pair].append(f"{place.parts[0]}/{name}")
    for clause, n in clauses.most_common():
        if n > 2:
            counts["5 a clause in three contracts or more"] += 1
            print(f"5 a clause in three contracts or more: {n} times: {clause}")
    for pair, names in sorted(together.items(), key=lambda item: -len(item[1])):
        if len(names) > 2:
            counts["5 parameters together in three functions or more"] += 1
            print(f"5 parameters together in three functions or more: {len(names)} times: {', '.join(pair)}: {' '.join(names)}")
    answers = [len(re.findall(r"^pub \S+ : goal\.", p.read_text(), re.M)) for p in root.glob("crates/*/proofs/**/*.antt")]
    counts["8 answers"] = sum(answers)
    counts["8 lines of proofs"] = sum(len(p.read_text().splitlines()) for p in root.glob("crates/*/proofs/**/*.antt"))
    counts["8 lines of src"] = sum(len(p.read_text().splitlines()) for p in root.glob("crates/*/src/**/*.rt"))
    for name in sorted(counts):
        print(f"{counts[name]:6} {name}")


if __name__ == "__main__":
    main()
