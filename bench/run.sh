#!/bin/sh
# Times `align run`: a loop of 20,000 steps over 64 tests, 64 tests of 65,536 bytes each, and the reading of a file of
# tests of 16 MiB, beside the JSON reader of python3 on the same file. Build first: rt ci.
align=$(cd "$(dirname "$0")/.." && pwd)/crates/align/out/align
[ -x "$align" ] || { echo "build the program first: rt ci" >&2; exit 2; }
work=$(mktemp -d)
trap 'rm -rf "$work"' EXIT
cd "$work" || exit 2
python3 - <<'P'
import json
def write(name, text):
    with open(name, "w") as file:
        file.write(text)
write("loop.s", "f:\n.L1:\n\taddl\t(%rdi,%rcx,4), %eax\n\taddq\t$1, %rcx\n\tandl\t$1023, %ecx\n\tjmp\t.L1\n")
write("loop.admit", "admit 1\nregion words %rdi 4096 read\nlive %eax\n")
write("loop.tests", json.dumps({"tests": [{"regs": {"rdi": 4096, "rcx": k}} for k in range(64)]}))
write("bytes.s", "f:\n\tmovl\t(%rdi), %eax\n\tret\n")
write("bytes.admit", "admit 1\nregion bytes %rdi 65536 read\nlive %eax\n")
piece = {"at": 65536, "hex": "5a" * 65536}
write("bytes.tests", json.dumps({"tests": [{"regs": {"rdi": 65536}, "mem": [piece]} for k in range(64)]}))
# 16 MiB: 64 tests of one byte each, and blanks; 64 tests whose pieces have one byte; digits of pieces that are too many
blank = " " * 262000
write("blanks.tests", '{"tests":[' + ",".join('{"regs":{"rdi":65536},%s"mem":[]}' % blank for k in range(64)) + "]}")
pieces = ",".join('{"at":%d,"hex":"5a"}' % (65536 + k) for k in range(9900))
write("pieces.tests", '{"tests":[' + ",".join('{"regs":{"rdi":65536},"mem":[%s]}' % pieces for k in range(63)) + "]}")
P
for run in "loop.s loop.admit loop.tests" "bytes.s bytes.admit bytes.tests" "bytes.s bytes.admit blanks.tests" "bytes.s bytes.admit pieces.tests"; do
  # shellcheck disable=SC2086
  python3 - "$align" $run <<'P'
import json, os, resource, subprocess, sys, time
align, text, admission, tests = sys.argv[1:]
best = None
for turn in range(3):
    start = time.monotonic()
    done = subprocess.run([align, "run", text, "f", admission, tests], capture_output=True, text=True)
    best = min(best or 1e9, time.monotonic() - start)
peak = resource.getrusage(resource.RUSAGE_CHILDREN).ru_maxrss // 1024
first = done.stdout.split("\n")[0]
reader = subprocess.run([sys.executable, "-c", """
import json, resource, sys, time
start = time.monotonic()
with open(sys.argv[1]) as file:
    json.load(file)
print(f"{time.monotonic() - start:.2f} s, {resource.getrusage(resource.RUSAGE_SELF).ru_maxrss // 1024} MiB")
""", tests], capture_output=True, text=True).stdout.strip()
size = os.path.getsize(tests) / 2**20
print(f"{tests} ({size:.1f} MiB): status {done.returncode}, first line '{first}', {best:.2f} s, {peak} MiB; json.load {reader}")
P
done
