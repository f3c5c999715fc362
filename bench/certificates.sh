#!/bin/sh
# Times the reading of certificates, and their reading and writing, on 100 MB of chains of 5 to 8,000 numbers and on 90 MB of
# short ones, three times each; and takes the memory of texts of 50 MB whose certificates cost most of it, in bytes for each
# byte of the text, which is itself held too. Build first: rt ci, or rt run in crates/certificate_cases.
cases=$(cd "$(dirname "$0")/.." && pwd)/crates/certificate_cases/out/certificate_cases
[ -x "$cases" ] || { echo "build the program first: rt run in crates/certificate_cases" >&2; exit 2; }
work=$(mktemp -d)
trap 'rm -rf "$work"' EXIT
python3 - "$cases" "$work/text" <<'P'
import os, random, sys, time

PROGRAM, PATH = sys.argv[1:]
EMPTY = "align-certificate 1\nnodes 0\nedges 0\n"
NODES = "align-certificate 1\nnodes 3\nnode 0 0 0 0 0 0\nnode 1 - - 0 0 0\nnode 2 0 0 0 0 {}\n"

def write(front, block, times, behind):
    """Writes a text with a block so many times. Its number of bytes."""
    with open(PATH, "w") as file:
        file.write(front)
        for _ in range(times):
            file.write(block)
        file.write(behind)
    return os.path.getsize(PATH)

def run(task):
    """Seconds of the clock and of the processor, and the most memory, of one run."""
    actions = [(os.POSIX_SPAWN_OPEN, 0, PATH, os.O_RDONLY, 0),
               (os.POSIX_SPAWN_OPEN, 1, PATH + ".answer", os.O_CREAT | os.O_WRONLY | os.O_TRUNC, 0o600)]
    start = time.monotonic()
    child = os.posix_spawn(PROGRAM, [PROGRAM, task], os.environ, file_actions=actions)
    _, status, used = os.wait4(child, 0)
    clock = time.monotonic() - start
    with open(PATH + ".answer") as answer:
        assert status == 0 and answer.read() == "ok\n", (task, status)
    return clock, used.ru_utime + used.ru_stime, used.ru_maxrss * 1024

def chain(chance, numbers):
    """The line of a chain of about so many numbers, a third of them literals."""
    lits = [f"{chance.choice(['', '-'])}{chance.randint(1, 99999)} " for _ in range(numbers // 3)]
    return f"r {''.join(lits)}0 {' '.join(str(chance.randint(1, 999999)) for _ in range(numbers // 3 * 2 + 1))}\n"

def show_times(name, lines, size):
    block = "".join(lines)
    times = int(size / len(block))
    length = write(f"{EMPTY}duties 1\nleaf {times * len(lines)}\n", block, times, "end\n")
    for turn in 1, 2, 3:
        shown = []
        for task in "read", "again":
            clock, used, most = run(task)
            shown.append(f"{task} {clock:.2f} s, {length / used / 1e6:.0f} MB a second of the processor, {most / 1e6:.0f} MB")
        print(f"{name}, {length / 1e6:.0f} MB: {'; '.join(shown)}")

def memory(name, front, piece, behind):
    """Bytes of memory for each byte of the text, where the front counts the pieces."""
    times = int(50e6 / len(piece) / 1000)
    length = write(front.format(1000 * times), 1000 * piece, times, behind)
    most = run("read")[2] / length
    print(f"{name}: {most:.1f} bytes a byte")
    return most, name

chance = random.Random(1)
show_times("chains", [chain(chance, chance.choice([5, 50, 500, 2500, 8000])) for _ in range(200)], 100e6)
show_times("short chains", [chain(chance, 3) for _ in range(2000)], 90e6)
duties, leaf = EMPTY + "duties {}\n", EMPTY + "duties 1\nleaf {}\n"
texts = [("splits", duties, "split 0 0 1 apart 0\nleaf 0\n", "end\n"),
         ("sums", NODES, "inv lin 0 0 0\n", "edges 0\nduties 0\nend\n"),
         ("sums of a term", NODES, "inv lin 0 1 0 l.r8 0\n", "edges 0\nduties 0\nend\n"),
         ("edges", "align-certificate 1\nnodes 0\nedges {}\n", "edge 0 0\nleft 1 0\nright 1 0\n", "duties 0\nend\n"),
         ("literals of one chain", EMPTY + "duties 1\nleaf 1\nr ", "1 ", "0 1\nend\n"),
         ("pivots of one chain", EMPTY + "duties 1\nleaf 1\nr 0 1", " 1 1", "\nend\n")]
for step in "r 0 1\n", "r 1 0 1\n", "r 1 0 1 1 1\n", "t 0 1 0 0\n":
    texts.append((f"one leaf of '{step[:-1]}'", leaf, step, "end\n"))
    for steps in 0, 1, 2, 3, 5, 6, 17, 65, 513, 1025:
        texts.append((f"leaves of {steps} '{step[:-1]}'", duties, f"leaf {steps}\n" + steps * step, "end\n"))
print("most memory: %.1f bytes a byte, %s" % max(memory(*text) for text in texts))
P
