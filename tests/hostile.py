#!/usr/bin/env python3
"""Gives the program random, mutated and odd functions, admissions, tests and arguments, and judges each answer.

    python3 tests/hostile.py COUNT [--seed N] [--first K] [--milliseconds M] [--keep FOLDER]

Runs `align run`, `align decide` and `align show` COUNT times. Each has to end without a signal, within 10 s, with an
answer or a named refusal whose text has one of the forms of its status (tests/report_forms.py), and within M (50) ms,
or 40 times that where its files have more than 1 MiB: a run above that is done again, up to five times, and the
least time counts. The inputs follow from the seed (1) and the number of the run alone, so `1 --first K` does run K
again. The environment variable ALIGN names the program. The files and arguments of each failure are kept in a folder
of their own, below FOLDER. Exit status 1 where there is one.
"""
import argparse
import collections
import os
import random
import select
import shutil
import signal
import sys
import tempfile
import time

sys.path.insert(0, os.path.dirname(os.path.abspath(__file__)))
import hostile_inputs  # noqa: E402
import report_forms  # noqa: E402

LARGE = 40  # how many times as long a run may take whose files have more than 1 MiB
HANG_SECONDS = 10


class Runner:
    """Runs the program in a folder in memory, one run after another."""

    def __init__(self, program):
        self.program = program
        os.mkdir("folder")
        os.symlink("loop", "loop")
        opened = lambda name: os.open(name, os.O_RDWR | os.O_CREAT | os.O_TRUNC, 0o600)
        self.out, self.err, self.none = opened(".out"), opened(".err"), os.open("/dev/null", os.O_RDONLY)
        self.actions = [(os.POSIX_SPAWN_DUP2, self.none, 0), (os.POSIX_SPAWN_DUP2, self.out, 1),
                        (os.POSIX_SPAWN_DUP2, self.err, 2)]

    def run(self, words):
        """The status of a run (negative: a signal ended it, None: it hangs), what it printed, and its seconds."""
        for file in (self.out, self.err):
            os.ftruncate(file, 0)
            os.lseek(file, 0, os.SEEK_SET)
        start = time.perf_counter()
        child = os.posix_spawn(self.program, [b"align", *words], {}, file_actions=self.actions)
        ended = wait(child, HANG_SECONDS)
        seconds = time.perf_counter() - start
        printed, errors = (os.pread(file, 1 << 26, 0) for file in (self.out, self.err))
        return ended, printed, errors, seconds


def wait(child, seconds):
    """Waits for a process to end: its status, or None where it had to be killed."""
    handle = os.pidfd_open(child)
    poll = select.poll()
    poll.register(handle, select.POLLIN)
    ended = bool(poll.poll(seconds * 1000))
    os.close(handle)
    if not ended:
        os.kill(child, signal.SIGKILL)
    status = os.waitstatus_to_exitcode(os.waitpid(child, 0)[1])
    return status if ended else None


def write(files, before):
    """Writes the files of a run in place of those of the run before."""
    for name in before:
        if name not in files:
            os.unlink(name)
    for name, text in files.items():
        handle = os.open(name, os.O_WRONLY | os.O_CREAT | os.O_TRUNC, 0o600)
        os.write(handle, text)
        os.close(handle)


def keep(folder, number, words, files, result, why):
    """Keeps the files, the arguments and the answer of a failed run; gives the folder's name."""
    kept = os.path.join(folder, str(number))
    os.makedirs(kept, exist_ok=True)
    for name, text in files.items():
        with open(os.path.join(os.fsencode(kept), name), "wb") as file:
            file.write(text)
    status, printed, errors, seconds = result
    parts = {"why": f"{why}\nstatus {status}\nseconds {seconds:.3f}\n".encode(), "arguments": b"\n".join(words),
             "printed": printed, "errors": errors}
    for name, text in parts.items():
        with open(os.path.join(kept, f"answer.{name}"), "wb") as file:
            file.write(text)
    return kept


def judge(words, files, result):
    """What is wrong with the result of a run but for its time, or None."""
    status, printed, errors, _ = result
    if status is None:
        return f"still running after {HANG_SECONDS} s"
    if status < 0:
        return f"ended by {signal.Signals(-status).name}"
    texts = {os.fsdecode(name): text for name, text in files.items()}
    return report_forms.judge(words, status, printed, errors, texts)


class Tally:
    """What the runs came to."""

    def __init__(self):
        self.answers, self.tests = collections.Counter(), collections.Counter()
        self.slowest, self.again, self.failures = {False: (0, None), True: (0, None)}, 0, 0

    def add(self, number, words, result, is_large):
        """Counts an answer."""
        status, printed, _, seconds = result
        kind = report_forms.kind_of(words, status, printed)
        self.answers[kind] += 1
        self.slowest[is_large] = max(self.slowest[is_large], (seconds, number))
        if kind == "0  runs":
            for line in printed.splitlines():
                if line.startswith(b"test "):
                    self.tests[line.split()[2].decode()] += 1

    def show(self, count, seconds):
        """Prints the table of the answers."""
        print(f"{'status and answer':<42}{'runs':>9}")
        for kind, runs in sorted(self.answers.items()):
            print(f"{kind:<42}{runs:>9}")
        for word, tests in sorted(self.tests.items()):
            print(f"   {'test ' + word:<39}{tests:>9}")
        print(f"runs {count}, failures {self.failures}, in {seconds:.0f} s")
        print(f"done again as they took too long at first: {self.again}; "
              f"slowest {self.slowest[False][0] * 1000:.1f} ms (run {self.slowest[False][1]}), "
              f"with files above 1 MiB {self.slowest[True][0] * 1000:.1f} ms (run {self.slowest[True][1]})")


def one(inputs, runner, tally, options, number, before):
    """One run: its input, the answer, and what is wrong with it."""
    words, files = inputs.make(random.Random(options.seed << 32 | number))
    write(files, before)
    result = runner.run(words)
    why = judge(words, files, result)
    is_large = sum(map(len, files.values())) > 1 << 20
    most = options.milliseconds / 1000 * (LARGE if is_large else 1)
    if not why and result[3] > most:
        tally.again += 1
        for _ in range(5):
            result = min(result, runner.run(words), key=lambda it: it[3])
            if result[3] <= most:
                break
        why = judge(words, files, result)
        if not why and result[3] > most:
            why = f"{result[3] * 1000:.0f} ms"
    tally.add(number, words, result, is_large)
    if why:
        tally.failures += 1
        if tally.failures <= 100:
            print(f"FAIL {keep(options.keep, number, words, files, result, why)}: {why}", flush=True)
    return files


def main():
    """Does the runs and prints the table."""
    usage = "hostile.py COUNT [--seed N] [--first K] [--milliseconds M] [--keep FOLDER]"
    parser = argparse.ArgumentParser(usage=usage)
    parser.add_argument("count", type=int)
    parser.add_argument("--seed", type=int, default=1)
    parser.add_argument("--first", type=int, default=1)
    parser.add_argument("--milliseconds", type=int, default=50)
    parser.add_argument("--keep", default=os.path.join(tempfile.gettempdir(), "hostile_failures"))
    options = parser.parse_args()
    options.keep = os.path.abspath(options.keep)
    program = os.path.abspath(os.environ.get("ALIGN", os.path.join(hostile_inputs.ROOT, "crates/align/out/align")))
    if not os.access(program, os.X_OK):
        sys.exit(f"no program {program}: build it first (rt ci), or name it in ALIGN")
    signal.signal(signal.SIGTERM, lambda *_: sys.exit(143))
    inputs, tally, start = hostile_inputs.Inputs(), Tally(), time.monotonic()
    folder = tempfile.mkdtemp(dir="/dev/shm" if os.path.isdir("/dev/shm") else None)
    try:
        os.chdir(folder)
        runner, before = Runner(program), {}
        for number in range(options.first, options.first + options.count):
            before = one(inputs, runner, tally, options, number, before)
            if number % 20000 == 0:
                print(f"{number} ..", file=sys.stderr, flush=True)
    finally:
        os.chdir("/")
        shutil.rmtree(folder)
    tally.show(options.count, time.monotonic() - start)
    sys.exit(1 if tally.failures else 0)


if __name__ == "__main__":
    main()
