#!/bin/sh
# Times the clauses of a duty with 100 products of 64 bits, and tells the memory that they take: what the program has at
# most with one list of them, less what it has without. Build first: rt ci, or rt run in crates/clause_bench.
clauses=$(cd "$(dirname "$0")/.." && pwd)/crates/clause_bench/out/clause_bench
[ -x "$clauses" ] || { echo "build the program first: rt run in crates/clause_bench" >&2; exit 2; }
python3 - "$clauses" <<'P'
import os, subprocess, sys

def used(times):
    """What one run prints, and its processor time and the most memory that it has."""
    child = subprocess.Popen([sys.argv[1], str(times)], stdout=subprocess.PIPE, text=True)
    text = child.stdout.read()
    _, status, usage = os.wait4(child.pid, 0)
    assert status == 0, times
    return text, usage.ru_utime + usage.ru_stime, usage.ru_maxrss * 1024

count = int(used(1)[0].split()[0])
print(f"{count} clauses")
for turn in 1, 2, 3:
    none, one, many = used(0), used(1), used(11)
    print(f"{10 * count / (many[1] - one[1]) / 1e6:.1f} million clauses a second, {(one[2] - none[2]) / count:.1f} bytes a clause")
P
