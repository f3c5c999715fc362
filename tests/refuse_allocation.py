#!/usr/bin/env python3
"""Refuses each allocation of worked runs in turn: the proved program has to end with status 7 and to print nothing.

    python3 tests/refuse_allocation.py

Twelve runs of `align`: ten of decide, run and show over files of examples/, one whose file is refused, and one whose
arguments are no command; and four of `certificate_cases`, which read two certificates and write them again. Each is run
once as it is, and its allocations are counted. Then, for each number n up to that count, it is run with the n-th call of
malloc, calloc or realloc refused, and again with the n-th and all behind it. The library of tests/refuse_allocation.c,
which $CC (cc) compiles, refuses them. The variable ALIGN names the program `align`.
"""
import os
import struct
import subprocess
import sys
import tempfile

from certificate_cases import KINDS, STANDING

HERE = os.path.dirname(os.path.abspath(__file__))
EXAMPLES = os.path.join(os.path.dirname(HERE), "examples")
CERTIFICATE_CASES = os.path.join(HERE, "../crates/certificate_cases/out/certificate_cases")
DECIDE, SHOW = "decide {0}/left.s f {0}/right.s g", "show {0}/gcc.s f"
RUN = "run {0}/{1} f {0}/admission {0}/tests.json"
RUNS = [(DECIDE.format("swapped_sum"), 0), (DECIDE.format("off_by_one"), 1), (DECIDE.format("compiled_difference"), 0),
        (DECIDE.format("wrong_register"), 1), (RUN.format("summed_words", "gcc.s"), 0),
        (RUN.format("summed_words", "clang.s"), 0), (RUN.format("incremented_words", "gcc.s"), 0),
        (RUN.format("vectorised_words", "gcc.s") + " --steps 100", 0), (SHOW.format("counted_bits"), 0),
        (SHOW.format("vectorised_words"), 0), ("decide swapped_sum/left.s f counted_bits/gcc.s f", 3),
        ("run --stepped 5 a f b c", 4)]
# a task and the text on standard input
CERTIFICATES = [("read", STANDING), ("again", STANDING), ("read", KINDS), ("again", KINDS)]


class Program:
    """A program and the library before it."""

    def __init__(self, path, folder, library):
        self.path, self.counts = os.path.abspath(path), os.path.join(folder, "counts")
        self.variables = {"LD_PRELOAD": library, "REFUSE_COUNTS": self.counts}

    def run(self, words, text, asked):
        """How a run ended: its status and what it printed on both outputs; and its numbers of allocations and refusals."""
        with open(self.counts, "wb") as file:
            file.write(bytes(16))
        done = subprocess.run([self.path, *words], cwd=EXAMPLES, env=self.variables | asked, timeout=60, input=text,
                              capture_output=True, check=False)
        with open(self.counts, "rb") as file:
            return (done.returncode, done.stdout, done.stderr), struct.unpack("=QQ", file.read())

    def refuse(self, words, text, wanted):
        """Refuses each allocation of a run in turn. The number of them, and a line for each end but one with status 7 and nothing
        printed, or for another status than this with none refused."""
        (status, printed, errors), (total, _) = self.run(words, text, {})
        failures = []
        if status != wanted or not printed or errors or not total:
            failures.append(f"nothing refused: status {status}, {total} allocations, printed {printed + errors!r}")
        for number in range(1, total + 1):
            for on in ({}, {"REFUSE_ON": "1"}):
                end, (_, refused) = self.run(words, text, on | {"REFUSE": str(number)})
                if end != (7, b"", b"") or not refused or not on and refused != 1:
                    failures.append(f"allocation {number}{' and on' if on else ''}: {refused} refused, {end}")
        return total, failures


def main():
    """Goes over the runs."""
    align = os.environ.get("ALIGN", os.path.join(HERE, "../crates/align/out/align"))
    for program in align, CERTIFICATE_CASES:
        if not os.access(program, os.X_OK):
            sys.exit(f"no program {program}: build it first (rt ci), or name align in ALIGN")
    failed, runs = 0, 0
    with tempfile.TemporaryDirectory() as folder:
        library = os.path.join(folder, "refuse_allocation.so")
        subprocess.run([os.environ.get("CC", "cc"), "-O2", "-Wall", "-shared", "-fPIC", "-o", library,
                        os.path.join(HERE, "refuse_allocation.c")], check=True)
        rows = [(align, line, b"", status) for line, status in RUNS]
        rows += [(CERTIFICATE_CASES, task, text.encode(), 0) for task, text in CERTIFICATES]
        for program, line, text, status in rows:
            total, failures = Program(program, folder, library).refuse(line.split(), text, status)
            told = f"{line}, of a certificate of {len(text)} bytes" if text else line
            print(f"{'FAIL' if failures else 'ok  '} {told}: {total} allocations", *failures[:9], sep="\n     ")
            failed, runs = failed + len(failures), runs + 2 * total
    print(f"{runs // 2} allocations, each refused alone and with all behind it: {runs} runs, {failed} failures")
    sys.exit(1 if failed else 0)


if __name__ == "__main__":
    main()
