#!/usr/bin/env python3
"""The processor time of the gate from nothing, by crate and by kind: proofs, tests (each proved, too), wrong edits. With
names it is that of these crates and those below them; with --kept only what no earlier run on this machine kept.

Runs `rt ci` in this checkout (with `--anew`, where the kit has it) and looks, ten times a second, at the processes of the prover that it starts: a
check in a folder of an edit is an edit's, one of a crate's tests is a test's, each other one is a proof's. What is left
of the whole (compilers, programs, tests that run, processes too short to be seen) is printed as the rest. Behind the table
stand the sums by kind and the whole, which is what `/usr/bin/time -v rt ci` tells. Names of crates are those that the
checks are started with.

usage: python3 bench/gate.py [--kept] [NAME..]
"""
import os
import resource
import subprocess
import sys
import tempfile
import time
from collections import defaultdict
from pathlib import Path

TICK = os.sysconf("SC_CLK_TCK")


def children(pids):
    """The processes of the table that are among these or below them."""
    parents = {}
    for entry in Path("/proc").iterdir():
        if entry.name.isdigit():
            try:
                fields = (entry / "stat").read_text().rsplit(")", 1)[1].split()
            except OSError:
                continue
            parents[int(entry.name)] = (int(fields[1]), int(fields[11]) + int(fields[12]))
    found = set(pids)
    grown = True
    while grown:
        grown = False
        for pid, (parent, _) in parents.items():
            if parent in found and pid not in found:
                found.add(pid)
                grown = True
    return {pid: parents[pid][1] for pid in found if pid in parents}


def kind_of(pid):
    """Crate and kind of a check, or None where the process is no check."""
    try:
        words = (Path("/proc") / str(pid) / "cmdline").read_text().split("\0")
        folder = os.readlink(f"/proc/{pid}/cwd")
    except OSError:
        return None
    if len(words) < 4 or not words[0].endswith("rattle") or words[1] not in ("check", "build", "test") or "--crate-name" not in words:
        return None
    crate = words[words.index("--crate-name") + 1]
    if "rt-edit" in folder:
        return crate, "edits"
    return crate, "tests" if "--test" in words or words[1] == "test" else "proofs"


def main():
    log = open(os.path.join(tempfile.gettempdir(), "align-gate.log"), "w+")
    shown = subprocess.run(["rt", "help"], capture_output=True, text=True)
    names = [word for word in sys.argv[1:] if word != "--kept"]
    anew = ["--anew"] if "--anew" in shown.stdout + shown.stderr and "--kept" not in sys.argv else []
    run = subprocess.Popen(["rt", "ci", *names, *anew], stdout=log, stderr=subprocess.STDOUT)
    spent, kinds, start = {}, {}, time.monotonic()
    while run.poll() is None:
        for pid, ticks in children([run.pid]).items():
            kinds[pid] = kinds.get(pid) or kind_of(pid)
            spent[pid] = ticks
        time.sleep(0.1)
    log.seek(0)
    text = log.read()
    table = defaultdict(float)
    for pid, ticks in spent.items():
        if kinds.get(pid):
            table[kinds[pid]] += ticks / TICK
    used = resource.getrusage(resource.RUSAGE_CHILDREN)
    whole = used.ru_utime + used.ru_stime
    print("| Crate | Proofs | Tests | Wrong edits |\n|---|---|---|---|")
    for crate in sorted({crate for crate, _ in table}):
        row = [f"{table[(crate, kind)]:.0f} s" if (crate, kind) in table else "" for kind in ("proofs", "tests", "edits")]
        print(f"| `{crate}` | " + " | ".join(row) + " |")
    sums = [sum(value for (_, k), value in table.items() if k == kind) / 60 for kind in ("proofs", "tests", "edits")]
    print("| all | " + " | ".join(f"{value:.1f} min" for value in sums) + " |")
    proofs, tests, edits = sums
    print(f"\nby kind: proofs {proofs:.1f} min, tests {tests:.1f} min, wrong edits {edits:.1f} min, rest {whole / 60 - sum(sums):.1f} min")
    print(f"whole {whole / 60:.1f} min of processor time ({used.ru_utime:.0f} s user, {used.ru_stime:.0f} s system), "
          f"{(time.monotonic() - start) / 60:.1f} min of clock, {used.ru_maxrss // 1024} MiB at most in one process")
    for line in text.splitlines():
        if line.startswith("rt: ") and ("refused" in line or "failed" in line) or run.returncode and "error" in line:
            print(line[:200])
    print(text.strip().splitlines()[-1] if text.strip() else "no output")
    return run.returncode


if __name__ == "__main__":
    sys.exit(main())
