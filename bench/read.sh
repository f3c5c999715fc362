#!/bin/sh
# Times the reading of texts of 16 MiB: one function of 4,096 instructions among comments and directives, beside the
# assembler `as` on the same file; and four hostile texts (a label a line, a jump a line, open parentheses, one line).
# `align decide` reads the file once, and then finds the right file absent, so nearly all of its time is the reading.
# Build first: rt ci.
align=$(cd "$(dirname "$0")/.." && pwd)/crates/align/out/align
[ -x "$align" ] || { echo "build the program first: rt ci" >&2; exit 2; }
work=$(mktemp -d)
trap 'rm -rf "$work"' EXIT
cd "$work" || exit 2
python3 - <<'P'
size = 16 * 1024 * 1024
def write(name, text):
    with open(name, "wb") as file:
        file.write(text[:size])
insns = [b"\taddl\t(%rdi,%rcx,4), %eax\n", b"\tmovq\t%rax, 8(%rsi)\n", b"\tcmpq\t$77, %rdx\n", b"\tleaq\t16(%rsp), %r11\n"]
comment = b"\t# " + b"a comment of a line " * 10 + b"\n"
body = b"".join(insns[k % 4] + comment * 19 for k in range(4095))
text = b"f:\n" + body
write("function.s", text + comment * ((size - len(text) - 10) // len(comment)) + b"\tret\n")
write("labels.s", b"f:\n" + b"".join(b".L%d:\n" % k for k in range(1700000)) + b"ret\n")
jumps = b"f:\n" + b"".join(b"\tjmp\t.Llast\n" for k in range(4095)) + b".Llast:\n\tret\n"
labels = b"".join(b".L%d:\n" % k for k in range(1600000))
write("jumps.s", jumps + labels)
write("parentheses.s", b"f:\n" + (b"\tmovq " + b"(" * 4000 + b",%rax\n") * 4190)
write("line.s", b"f:\n" + b"a" * (size - 3))
P
for text in function labels jumps parentheses line; do
  python3 - "$align" "$text.s" <<'P'
import resource, subprocess, sys, time
best = None
for turn in range(3):
    start = time.monotonic()
    done = subprocess.run([sys.argv[1], "decide", sys.argv[2], "f", "absent.s", "g"], capture_output=True, text=True)
    best = min(best or 1e9, time.monotonic() - start)
peak = resource.getrusage(resource.RUSAGE_CHILDREN).ru_maxrss // 1024
print(f"{sys.argv[2]}: status {done.returncode} {done.stdout.strip()}, {best:.2f} s, {peak} MiB")
P
done
if command -v as >/dev/null; then
  python3 - <<'P'
import subprocess, time
for text in ("function.s", "labels.s"):
    best = None
    for turn in range(3):
        start = time.monotonic()
        subprocess.run(["as", text, "-o", "object.o"], stderr=subprocess.DEVNULL)
        best = min(best or 1e9, time.monotonic() - start)
    print(f"as {text}: {best:.2f} s")
P
fi
