#!/bin/sh
# Times `align decide` on two texts of 16 MiB, each a function of 4,096 instructions and comments behind it, and on one of
# 16 MiB of line ends, three times each. The texts are made in a folder of their own and removed. Build first: rt ci.
align=$(cd "$(dirname "$0")/.." && pwd)/crates/align/out/align
[ -x "$align" ] || { echo "build the program first: rt ci" >&2; exit 2; }
work=$(mktemp -d)
trap 'rm -rf "$work"' EXIT
cd "$work" || exit 2
python3 - <<'P'
size = 16777216
comment = b"# " + b"a comment of a line " * 10 + b"\n"
for name, label in (("left", b"f:\n"), ("right", b"g:\n")):
    text = label + b"addq %rdi,%rax\n" * 4095 + b"ret\n"
    with open(name, "wb") as file:
        file.write(text + comment * ((size - len(text)) // len(comment)))
with open("line_ends", "wb") as file:
    file.write(b"\n" * size)
P
for arguments in "left f right g" "line_ends f right g"; do
  for turn in 1 2 3; do
    # shellcheck disable=SC2086
    python3 - "$align" decide $arguments <<'P'
import resource, subprocess, sys, time
start = time.monotonic()
done = subprocess.run(sys.argv[1:], capture_output=True)
seconds = time.monotonic() - start
peak = resource.getrusage(resource.RUSAGE_CHILDREN).ru_maxrss // 1024
print(f"{' '.join(sys.argv[2:])}: status {done.returncode}, {seconds:.2f} s, {peak} MiB")
P
  done
done
