#!/bin/sh
# Times the nodes: full sheets of 65,536 nodes that are built, the last node of one that is evaluated, and a system of 40
# forms over 60 atoms that is solved; and the memory of one sheet. Build first: rt ci, or rt run in crates/node_bench.
nodes=$(cd "$(dirname "$0")/.." && pwd)/crates/node_bench/out/node_bench
[ -x "$nodes" ] || { echo "build the program first: rt run in crates/node_bench" >&2; exit 2; }
python3 - "$nodes" <<'P'
import os, re, subprocess, sys, time

def start(*times):
    return subprocess.Popen([sys.argv[1], *map(str, times)], stdout=subprocess.DEVNULL)

def seconds(*times):
    """The processor time of one run."""
    _, status, used = os.wait4(start(*times).pid, 0)
    assert status == 0, times
    return used.ru_utime + used.ru_stime

child = start(100, 0, 0)
time.sleep(0.3)
with open(f"/proc/{child.pid}/status") as status:
    most = int(re.search(r"VmHWM:\s*(\d+)", status.read()).group(1))
print(f"memory with one sheet: {most / 1024:.1f} MiB")
child.wait()
for turn in 1, 2, 3:
    # each run builds one sheet besides, to evaluate it
    once = seconds(0, 0, 0)
    builds, evals, solves = (seconds(*times) - once for times in ((100, 0, 0), (0, 200, 0), (0, 0, 500)))
    print(f"build {6.5536 / builds:.2f} million nodes a second, eval of the last of 65,536 nodes {evals / 200 * 1e3:.2f} ms, "
          f"solve {solves / 500 * 1e3:.2f} ms")
P
