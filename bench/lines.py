#!/usr/bin/env python3
"""The lines of the crates by kind: code, contracts, imports of clauses, comments, blanks, definitions (specs/), lemma files, answers and invariants, and
how many wrong edits there are. The gate's budget is a time for each 1,000 of these lines.

usage: python3 bench/lines.py
"""
import re
from collections import Counter
from pathlib import Path

CRATES = Path(__file__).resolve().parent.parent / "crates"


def kinds_of_code(text):
    """The kind of each line of a .rt file. A clause goes from its first word to the brace that closes it."""
    depth = 0
    importing = False
    for line in text.split("\n")[:-1]:
        word = line.strip()
        if importing:
            importing = not word.endswith(";")
            yield "imports of clauses"
        elif depth > 0:
            depth += word.count("{") - word.count("}")
            yield "contracts"
        elif not word:
            yield "blanks"
        elif word.startswith("//"):
            yield "comments"
        elif re.match(r"(pub )?ghost use\b", word):
            importing = not word.endswith(";")
            yield "imports of clauses"
        elif re.match(r"(ensures|requires|ghost)\b", word):
            depth = word.count("{") - word.count("}")
            yield "contracts"
        else:
            yield "code"


def kind_of_proof(path):
    """The kind of a file below proofs/: those of a function stand in its folder."""
    return "answers and invariants" if path.name in ("Answers.antt", "Invariants.antt", "Proof.antt") else "lemma files"


def main():
    lines, files = Counter(), Counter()
    for path in sorted(CRATES.glob("*/src/**/*.rt")):
        lines.update(kinds_of_code(path.read_text()))
    for path in sorted(CRATES.glob("*/specs/**/*.antt")):
        lines["definitions"] += path.read_text().count("\n")
    for path in sorted(CRATES.glob("*/proofs/**/*.antt")):
        lines[kind_of_proof(path)] += path.read_text().count("\n")
        files[kind_of_proof(path)] += 1
    print("| Kind | Lines |\n|---|---|")
    for kind in ("code", "contracts", "imports of clauses", "comments", "blanks", "definitions", "lemma files", "answers and invariants"):
        print(f"| {kind}{f' ({files[kind]})' if files[kind] else ''} | {lines[kind]:,} |")
    print(f"| all | {sum(lines.values()):,} |")
    edits = len(list(CRATES.glob("*/must-fail/*.edit")))
    print(f"\n{len(list(CRATES.iterdir()))} crates, {edits} wrong edits in the gate, "
          f"{len(list(CRATES.parent.glob('tests/edits/*/*.edit')))} outside of it")


if __name__ == "__main__":
    main()
