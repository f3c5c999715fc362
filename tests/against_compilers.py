#!/usr/bin/env python3
"""Lets align read what compilers make of loops over integers in C.

    tests/against_compilers.py [COUNT] [--seed N]

COUNT loops (240; loop_sources.py makes them) are compiled by gcc and clang at -O1, -O2 and -O3, with and without
-mavx2, with and without -fcf-protection=none. Each function is read by `align show`. It prints how many were read, and
the refusals by kind, class and mnemonic. A refusal that is no class of what the table leaves out has to be mended: the
status is 1 where there is one.
"""
import argparse
import collections
import itertools
import pathlib
import random
import re
import shutil
import subprocess
import sys
import tempfile

import mnemonic_cases
import loop_sources
import run_files

TABLE = {row[0] for row in mnemonic_cases.rows()} | {row[0] for row in mnemonic_cases.vector_rows()}
MEND = "to be mended"
LATER = "a constant of the pool (later)"

# classes of mnemonics that the table leaves out
CLASSES = [
    ("vectors under names of floating point",
     r"v?(mov|shuf|unpck[lh]|blend|blendv|perm|permil|broadcast|insert|extract|test|maskmov|movmsk|movh|movl|movhl|"
     r"movlh|mov[au]|movnt|movsh|movsl|and|andn|or|xor)(ps|pd|ss|sd)|v?mov(ddup|s[lh]dup)|"
     r"v(insert|extract|perm2|broadcast)f128"),
    ("floating point",
     r"v?(u?comi|cvt|add|sub|mul|div|sqrt|min|max|cmp|round|fn?m)\w*(ss|sd|ps|pd|dq|pi|si|sil|siq)"),
    ("vectors that are left out",
     r"vp\w+|vextract\w+|vinsert\w+|vbroadcasti128|vzeroall|v?lddqu|v?movntdqa?|"
     r"p(insr|extr|blend|mul|min|max|abs|shuf|cmp|mov|align|ack|hadd|sign|test|s[lr]l|sra)\w*"),
    ("division", r"i?div[bwlq]|cltd|cqto|cwtd"),
    ("products of two registers' width", r"mul[bwlq]|imulb|mulx[lq]"),
    ("carries and single bits", r"adc[bwlq]|sbb[bwlq]|bt[rsc]?[wlq]|cmc|stc|clc"),
    ("rotations and double shifts", r"ro[lr][bwlq]|sh[lr]d[wlq]|sh[lr]x[lq]|sarx[lq]|rorx[lq]"),
    ("counts of bits, and bytes in another order",
     r"bs[fr][wlq]|[tl]zcnt\w*|popcnt[wlq]|bswap[lq]|andn[lq]|bls\w+|movbe\w+"),
    ("calls", r"callq?|leaveq?"),
    ("widening of %al, %ax and %rax by the sign", r"cwtl|cbtw"),
    ("strings", r"rep|repz|repnz|stos[bwlq]|movs[bwlq]|lods[bwlq]|scas[bwlq]"),
    ("exchanges", r"xchg[bwlq]|cmpxchg\w*|xadd\w*"),
    ("traps", r"ud2|int3|hlt"),
    ("longer forms of nop", r"nop[wl]|data16|xchg"),
]


# classes of operands that the table leaves out
OPERANDS = [
    ("shifts by a register", r"v?(ps|sh|sa|ro)[lr]\w+ [%(\d].*,"),
    ("products of two registers' width", r"imul[wlq] [^,]*(\(.*\))?$"),
    ("high bytes of registers", r".*%[abcd]h\b"),
    ("jumps through a table", r"jmp \*"),
    ("segments", r".*%[c-g]s:"),
    ("other operands of push and pop", r"(push|pop)q "),
    ("addresses of names", r".*[ ,]\$?[A-Za-z_.][\w.]*([+-]\d+)?(\(|,|$)"),
]


def class_of(kind, statement):
    """The class of a refusal, by its kind and the statement of its line."""
    mnemonic, _, rest = statement.partition(" ")
    if mnemonic == "jmp" and re.fullmatch(r"[A-Za-z_]\w*(@PLT)?", rest):
        return "calls"
    if kind == "pool-refused":
        return LATER if re.search(r"\.LC\w*([+-]\d+)?\(", rest) else "memory of a name"
    if kind == "unknown-instruction" and mnemonic not in TABLE:
        for name, pattern in CLASSES:
            if re.fullmatch(pattern, mnemonic):
                return name
        return "other instructions"
    if kind == "bad-operand":
        for name, pattern in OPERANDS:
            if re.match(pattern, statement):
                return name
    return MEND


class Tally:
    """What was read, and what was refused and why."""

    def __init__(self):
        self.read, self.instructions = collections.Counter(), 0
        self.kinds, self.classes, self.words = (collections.Counter() for _ in range(3))
        self.mend = collections.defaultdict(list)

    def add(self, setting, name, shown, lines):
        if shown.insns is not None:
            self.read[setting] += 1
            self.instructions += len(shown.insns)
            return
        statement = " ".join(lines[shown.line - 1].split("#")[0].split()) if shown.line else ""
        alias = shown.kind == "no-function" and any(re.match(rf"\s*\.set\s+{name},", line) for line in lines)
        why = "another name of a function" if alias else class_of(shown.kind, statement)
        self.kinds[shown.kind] += 1
        self.classes[why] += 1
        if shown.kind == "unknown-instruction":
            self.words[statement.partition(" ")[0]] += 1
        if why == MEND:
            key = (shown.kind, statement.partition(" ")[0])
            self.mend[key].append(f"{' '.join(setting)} {name} line {shown.line}: {statement}")

    def report(self, tried):
        print(f"functions {tried}, read {sum(self.read.values())}, refused {sum(self.kinds.values())}; "
              f"instructions read {self.instructions}")
        print("read, by compiler and options:")
        for setting, n in sorted(self.read.items()):
            print(f"  {' '.join(setting)}: {n}")
        counters = (("kind", self.kinds, None), ("class", self.classes, None), ("unknown mnemonic", self.words, 25))
        for title, counter, most in counters:
            print(f"refused, by {title}:")
            for what, n in counter.most_common(most):
                print(f"  {what}: {n}")
        print(f"{MEND}: {sum(len(cases) for cases in self.mend.values())}")
        for (kind, word), cases in sorted(self.mend.items(), key=lambda item: -len(item[1]))[:5]:
            print(f"  {kind} {word}: {len(cases)}, as {cases[0]}")


def compiled(setting, source, target):
    """The lines of what a compiler makes of a source, or none where it fails."""
    run = subprocess.run(list(setting) + ["-S", "-w", str(source), "-o", str(target)], capture_output=True, text=True)
    if run.returncode:
        print(f"not compiled: {' '.join(setting)}: {run.stderr.strip().splitlines()[:1]}")
        return None
    return target.read_text().split("\n")


def settings(compilers):
    """Each compiler with its options."""
    for words in itertools.product(compilers, ("-O1", "-O2", "-O3"), ("-mavx2", ""), ("-fcf-protection=none", "")):
        yield tuple(word for word in words if word)


def main():
    parser = argparse.ArgumentParser()
    parser.add_argument("count", type=int, nargs="?", default=240)
    parser.add_argument("--seed", type=int, default=1)
    options = parser.parse_args()
    compilers = [name for name in ("gcc", "clang") if shutil.which(name)]
    for name in sorted({"gcc", "clang"} - set(compilers)):
        print(f"skipped: no {name}")
    if not compilers:
        sys.exit(0)
    run_files.need_align()
    loops = loop_sources.loops(random.Random(options.seed), options.count)
    tally, tried, broken = Tally(), 0, 0
    with tempfile.TemporaryDirectory() as name:
        source, target = pathlib.Path(name) / "loops.c", pathlib.Path(name) / "loops.s"
        for start in range(0, len(loops), 10):
            part = loops[start:start + 10]
            source.write_text(loop_sources.HEAD + "".join(text for *_, text in part))
            for setting in settings(compilers):
                lines = compiled(setting, source, target)
                broken += lines is None
                for _, function, _ in part if lines else []:
                    tried += 1
                    tally.add(setting, function, run_files.show_file(target, function), lines)
    tally.report(tried)
    sys.exit(1 if tally.mend or broken else 0)


if __name__ == "__main__":
    main()
