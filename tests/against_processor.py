#!/usr/bin/env python3
"""Runs random functions by `align run` and on this processor, and compares how they end.

    tests/against_processor.py [COUNT] [--seed N] [--jobs N] [--plant NAME|all] [--no-rows]

COUNT functions (2000) over all rows of the instruction table are made from the seed, each with some test states. What
the program prints of a function must be, to the byte, what the native runs make of it: how each test ends and at which
step, the live outputs, the bytes of memory that have changed. The status is 1 where a report differs. The program is
the one that the variable ALIGN names, else crates/align/out/align. The processor needs AVX2; without it, or without as
and gcc, nothing is done. --plant makes a mistake on the processor's side, which must be found: the status is then 1
where it is not. docs/TESTING.md says more.
"""
import argparse
import collections
import functools
import multiprocessing
import os
import pathlib
import random
import re
import shutil
import struct
import subprocess
import sys
import tempfile

HERE = pathlib.Path(__file__).resolve().parent
sys.path.insert(0, str(HERE / "against_processor"))
sys.dont_write_bytecode = True
import functions  # noqa: E402
import plants  # noqa: E402
import rows  # noqa: E402
import states  # noqa: E402

BATCH = 200     # functions that are assembled and run natively together
FILE = 40       # functions of one file that the program reads
FEW = 100       # a row with fewer executions is listed


def native_lines(number, function, plant):
    """A function for the assembler, with a label at each place."""
    lines, place = [], 0
    for item in function.items:
        if isinstance(item, str):
            lines.append(item + ":")
            continue
        planted = plant(item) if plant else None
        lines += [f".LP{number}_{place}:"] + (planted or [item.text()])
        place += 1
    return lines + [f".LP{number}_{place}:"]


def assembled(folder, made, plant):
    """The machine code of all functions, and the offsets of each one's places and end. The code begins with a table."""
    table, lines = [], []
    for number, function in enumerate(made):
        count = len(function.insns())
        table += [f".long .LP{number}_{i}-.LT" for i in range(count + 1)]
        lines += native_lines(number, function, plant)
    (folder / "native.s").write_text("\n".join([".text", ".LT:"] + table + lines) + "\n")
    subprocess.run(["as", "-o", "native.o", "native.s"], cwd=folder, check=True)
    subprocess.run(["objcopy", "-O", "binary", "-j", ".text", "native.o", "native.bin"], cwd=folder, check=True)
    numbers = struct.unpack_from(f"<{len(table)}I", (folder / "native.bin").read_bytes())
    offsets, at = [], 0
    for function in made:
        offsets.append(numbers[at:at + len(function.insns()) + 1])
        at += len(offsets[-1])
    return offsets


def native_results(folder, driver, made, tests, plant_name):
    """For each function the results of its tests on this processor, or None where its end is known without them."""
    plant = plants.PLANTS[plant_name][1] if plant_name else None
    offsets = assembled(folder, made, plant)
    job = states.slots_job(plant_name == plants.SLOTS_PLANT)
    for function, places, ours in zip(made, offsets, tests):
        job += b"" if function.expected else states.function_job(places, ours)
    (folder / "jobs").write_bytes(job)
    subprocess.run([driver, "native.bin", "jobs", "results"], cwd=folder, check=True, timeout=300)
    data, at, results = (folder / "results").read_bytes(), 0, []
    for function, ours in zip(made, tests):
        found = []
        for state in [] if function.expected else ours:
            result, at = states.read_result(data, at, state, len(function.insns()))
            found.append(result)
        results.append(found or [None] * len(ours))
    return results


def printed(folder, align, file, function, ours):
    """What the program prints of a function under its tests."""
    (folder / "admission").write_text(function.admission())
    (folder / "tests.json").write_text(states.tests_text(ours))
    options = [] if function.steps is None else ["--steps", str(function.steps)]
    command = [align, "run", file, function.name, "admission", "tests.json"] + options
    done = subprocess.run(command, cwd=folder, stdout=subprocess.PIPE, stderr=subprocess.STDOUT, close_fds=False)
    return done.stdout.decode(errors="replace") + ("" if done.returncode == 0 else f"status {done.returncode}\n")


def difference(function, ours, expected, got):
    """What is shown of a difference."""
    parts = [f"difference: {function.name}", function.text() + function.admission() + states.tests_text(ours)]
    steps = "" if function.steps is None else f"--steps {function.steps}\n"
    return "\n".join(parts) + f"\n{steps}-- from the processor\n{expected}-- from the program\n{got}"


def count_executions(counts, ends, function, results):
    """Adds up how often each row was executed, with which operands and immediates, and how tests ended."""
    for result in results:
        if result is None:
            ends[function.expected[0] + " without the processor"] += 1
            continue
        over = function.steps is not None and result.steps > function.steps
        ends["running" if over else "faulted" if result.signal else "returned"] += 1
        for insn, times in zip(function.insns(), result.begun):
            if times:
                counts[insn.row.mnemonic, insn.row.width_name(), insn.kinds, insn.number] += times


@functools.lru_cache(maxsize=10)
def make_batch(seed, index, count):
    """The functions of a batch, with their tests; kept for further planted mistakes."""
    draw = random.Random(f"{seed}/{index}")
    made = [functions.make_function(draw, f"f{i}") for i in range(count)]
    tests = [[states.make_state(draw, function, k + 1) for k in range(draw.choice((2, 3, 3, 4)))] for function in made]
    return made, tests


def run_batch(task):
    """Runs a batch; gives the executions, how tests ended, and the differences (the first one where one is planted)."""
    seed, index, count, plant, align, driver, top = task
    made, tests = make_batch(seed, index, count)
    counts, ends, wrong = collections.Counter(), collections.Counter(), []
    with tempfile.TemporaryDirectory(dir=top) as name:
        folder = pathlib.Path(name)
        results = native_results(folder, driver, made, tests, plant)
        for i, (function, ours, found) in enumerate(zip(made, tests, results)):
            if i % FILE == 0:
                (folder / f"part{i // FILE}.s").write_text("".join(f.text() for f in made[i:i + FILE]))
            expected = "".join(states.test_report(function, k + 1, state, result)
                               for k, (state, result) in enumerate(zip(ours, found)))
            got = printed(folder, align, f"part{i // FILE}.s", function, ours)
            if got != expected:
                wrong.append(f"batch {index} " + difference(function, ours, expected, got))
                if plant:
                    break
                continue
            count_executions(counts, ends, function, found)
    return counts, ends, wrong


def summed(parts):
    """Counts by name, as one text."""
    return " ".join(f"{name}:{times}" for name, times in sorted(parts.items(), key=lambda part: str(part[0])))


def show_rows(counts):
    """The table of executions: of each row their number, by widths, operand kinds and classes of immediates."""
    groups = collections.defaultdict(lambda: [collections.Counter() for _ in range(3)])
    for (mnemonic, width, kinds, number), times in counts.items():
        widths, operands, numbers = groups[rows.BY_NAME[mnemonic, width].group()]
        widths[width] += times
        operands[kinds or "none"] += times
        if number:
            numbers[number] += times
    for name in sorted(groups):
        widths, operands, numbers = groups[name]
        print(f"{name}: {sum(widths.values())}; {summed(widths)}; {summed(operands)}; {summed(numbers) or 'none'}")


def show_few(counts):
    """Each mnemonic, at each of its widths, that was executed seldom."""
    times = collections.Counter()
    for (mnemonic, width, _, _), n in counts.items():
        times[mnemonic, width] += n
    few = [f"{mnemonic} {width}: {times[mnemonic, width]}" for mnemonic, width in rows.BY_NAME
           if times[mnemonic, width] < FEW]
    least = min(times[key] for key in rows.BY_NAME)
    print(f"mnemonics by width {len(rows.BY_NAME)}, least executions {least}, with fewer than {FEW}: {len(few)}")
    for line in few:
        print("  " + line)


def run_all(tasks, jobs):
    """The results of all batches, in order."""
    if jobs == 1:
        yield from map(run_batch, tasks)
        return
    with multiprocessing.Pool(jobs) as pool:
        yield from pool.imap(run_batch, tasks)


def program():
    """The program that is tried."""
    return os.path.abspath(os.environ.get("ALIGN") or str(HERE.parent / "crates/align/out/align"))


def tasks_of(options, plant, driver, top):
    """The batches of a run."""
    for index, start in enumerate(range(0, options.count, BATCH)):
        count = min(BATCH, options.count - start)
        yield options.seed, index, count, plant, program(), driver, top


def compare(options, driver, top):
    """Compares all functions, and shows what was executed. The status."""
    counts, ends, wrong = collections.Counter(), collections.Counter(), []
    for some, ended, differences in run_all(tasks_of(options, None, driver, top), options.jobs):
        counts.update(some)
        ends.update(ended)
        wrong += differences
        for text in differences:
            print(text)
    if not options.no_rows:
        show_rows(counts)
    show_few(counts)
    print(f"functions {options.count} seed {options.seed}; tests: {summed(ends)}; instructions {sum(counts.values())}")
    print(f"differences {len(wrong)}")
    return 1 if wrong else 0


def functions_until(options, name, driver, top):
    """How many functions were compared when a planted mistake was found, or None where it was not."""
    for done, task in enumerate(tasks_of(options, name, driver, top)):
        wrong = run_batch(task)[2]
        if wrong:
            return done * BATCH + 1 + int(re.search(r"difference: f(\d+)", wrong[0])[1])
    return None


def try_plants(options, driver, top):
    """Makes each planted mistake in turn; each has to give a difference. The status."""
    missed = 0
    for name in list(plants.PLANTS) if options.plant == "all" else [options.plant]:
        needed = functions_until(options, name, driver, top)
        missed += needed is None
        print(f"{name}: {plants.PLANTS[name][0]}: {'NOT FOUND' if needed is None else f'found at function {needed}'}",
              flush=True)
    print(f"planted mistakes that were not found: {missed}")
    return 1 if missed else 0


def what_is_missing():
    """Why nothing can be done, or None."""
    for tool in ("as", "gcc", "objcopy"):
        if not shutil.which(tool):
            return f"no {tool}"
    info = pathlib.Path("/proc/cpuinfo")
    return None if info.exists() and " avx2 " in info.read_text() else "the processor has no AVX2"


def read_options():
    """The command's options."""
    parser = argparse.ArgumentParser(description=__doc__.split("\n")[0])
    parser.add_argument("count", nargs="?", type=int, default=2000)
    parser.add_argument("--seed", type=int, default=1)
    parser.add_argument("--jobs", type=int, default=os.cpu_count())
    parser.add_argument("--plant", choices=["all"] + list(plants.PLANTS))
    parser.add_argument("--no-rows", action="store_true", help="leave out the table of executions")
    return parser.parse_args()


def main():
    """Compares, or tries planted mistakes; the status."""
    options = read_options()
    missing = what_is_missing()
    if missing:
        print(f"skipped: {missing}")
        return 0
    if not os.access(program(), os.X_OK):
        print(f"build the program first: there is no {program()}", file=sys.stderr)
        return 2
    with tempfile.TemporaryDirectory(dir="/dev/shm" if os.path.isdir("/dev/shm") else None) as top:
        driver = os.path.join(top, "native")
        subprocess.run(["gcc", "-O2", "-o", driver, str(HERE / "against_processor/native.c")], check=True)
        return (try_plants if options.plant else compare)(options, driver, top)


if __name__ == "__main__":
    sys.exit(main())
