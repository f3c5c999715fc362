#!/bin/sh
# Times 100 million steps of the machine, three times each: a loop of four instructions, of which one reads memory and one
# writes it, and a loop that adds vectors from memory up. Build first: rt ci, or rt run in crates/step_bench.
steps=$(cd "$(dirname "$0")/.." && pwd)/crates/step_bench/out/step_bench
[ -x "$steps" ] || { echo "build the program first: rt run in crates/step_bench" >&2; exit 2; }
for loop in "" vectors; do for turn in 1 2 3; do
  python3 - "$steps" 100000000 $loop <<'P'
import resource, subprocess, sys
done = subprocess.run(sys.argv[1:], capture_output=True, text=True)
used = resource.getrusage(resource.RUSAGE_CHILDREN)
print(f"{sys.argv[3] if len(sys.argv) > 3 else 'words'}: {done.stdout.splitlines()[0]}: {used.ru_utime:.2f} s, {int(sys.argv[2]) / used.ru_utime / 1e6:.1f} million steps a second")
P
done; done
