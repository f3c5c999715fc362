"""What the scripts of this folder share to run programs on files: align itself, an assembler and a disassembler.

The environment variable ALIGN names the program; without it that is crates/align/out/align.
"""
import bisect
import collections
import os
import pathlib
import re
import shutil
import subprocess
import sys

ROOT = pathlib.Path(__file__).resolve().parent.parent
ALIGN = os.environ.get("ALIGN") or str(ROOT / "crates/align/out/align")

# what `align show` said: the printed instructions, or None with the line and the kind of the refusal
Shown = collections.namedtuple("Shown", "insns line kind")
# what an assembler made: the bytes, the instructions as the disassembler writes them, and its messages; bytes is None
# where it refused the text
Code = collections.namedtuple("Code", "bytes insns messages")
# an instruction as the disassembler writes it, with its address
Disassembled = collections.namedtuple("Disassembled", "address text")

END = "end_of_text_"


def skip_without(*tools):
    """Ends the script with a line where one of these tools is missing."""
    for tool in tools:
        if shutil.which(tool) is None:
            print(f"skipped: no {tool}")
            sys.exit(0)


def need_align():
    """Ends the script where the program is not built."""
    if not os.access(ALIGN, os.X_OK):
        print(f"build the program first: no {ALIGN}", file=sys.stderr)
        sys.exit(2)


def show_file(path, name):
    """What `align show` says of a function of a file."""
    run = subprocess.run([ALIGN, "show", "--", str(path), name], capture_output=True)
    out = run.stdout.decode("utf-8", "replace")
    if run.returncode == 0:
        lines = out.split("\n")[2:-1]
        return Shown([re.sub(r"^[* ] \d+ ", "", line) for line in lines], None, None)
    refusal = re.fullmatch(r"refused left line (\d+) (\S+)\n", out)
    if run.returncode == 3 and refusal:
        return Shown(None, int(refusal[1]), refusal[2])
    raise RuntimeError(f"align show ended with {run.returncode}: {out!r}")


def show_text(text, name, folder):
    """What `align show` says of a function of a text."""
    path = pathlib.Path(folder) / "shown.s"
    path.write_bytes(text.encode("utf-8", "surrogateescape"))
    return show_file(path, name)


def show_all(texts, folder):
    """What `align show` says of each (name, text)."""
    return [show_text(text, name, folder) for name, text in texts]


def text_of(name, insns):
    """The printed instructions as a function's text, with labels in place of places."""
    targets = {int(k) for insn in insns for k in re.findall(r"@(\d+)$", insn)}
    lines = [f"{name}:"]
    for place, insn in enumerate(insns):
        if place in targets:
            lines.append(f".L{name}_at_{place}:")
        lines.append("\t" + re.sub(r"@(\d+)$", rf".L{name}_at_\1", insn))
    return "\n".join(lines) + "\n"


def disassembly(thing):
    """Each symbol of the code of an object file, with the bytes and the instructions behind it."""
    run = subprocess.run(["objdump", "-d", "-z", "-w", "-M", "suffix", "--insn-width=16", "-j", ".text", thing],
                         capture_output=True, text=True)
    parts, code, insns = {}, bytearray(), []
    for line in run.stdout.split("\n"):
        head = re.fullmatch(r"[0-9a-f]+ <(.*)>:", line)
        if head:
            code, insns = bytearray(), []
            parts[head[1]] = (code, insns)
        cells = line.split("\t")
        if len(cells) >= 2 and cells[0].endswith(":") and parts:
            code.extend(bytes.fromhex(cells[1]))
            insns.append(Disassembled(int(cells[0].strip()[:-1], 16), cells[2].strip() if len(cells) > 2 else ""))
    return parts


def assembler_run(text, folder):
    """Runs the assembler on a text: the object file, or None, and the messages as (line, whether an error, words)."""
    source, thing = os.path.join(folder, "text.s"), os.path.join(folder, "text.o")
    with open(source, "wb") as file:
        file.write(text.encode("utf-8", "surrogateescape"))
    run = subprocess.run(["as", "--64", "-o", thing, source], capture_output=True, cwd=folder)
    messages = []
    for line in run.stderr.decode("utf-8", "replace").split("\n"):
        found = re.match(r".*?text\.s:(\d+): (Error|Warning|Fatal error|Info)\w*: (.*)", line)
        if found:
            messages.append((int(found[1]), "rror" in found[2], found[3]))
    if run.returncode and not any(error for _, error, _ in messages):
        messages.append((0, True, run.stderr.decode("utf-8", "replace").strip().split("\n")[-1]))
    return (thing if run.returncode == 0 else None), messages


def assembled_alone(text, folder):
    """What the assembler makes of a text by itself: all that it puts into the section of code."""
    thing, messages = assembler_run(text, folder)
    words = [words for _, _, words in messages]
    if thing is None:
        return Code(None, None, words)
    parts = disassembly(thing).values()
    return Code(b"".join(bytes(code) for code, _ in parts), [insn for _, insns in parts for insn in insns], words)


def joined(texts, chosen):
    """The chosen texts in one, each ended by a label and an instruction, and the first line of each of them."""
    parts, starts, line = [], [], 1
    for k in chosen:
        starts.append(line)
        part = texts[k][1] + ("" if texts[k][1].endswith("\n") else "\n") + f"{END}{k}: hlt\n"
        parts.append(part)
        line += part.count("\n")
    return "".join(parts), starts


def assembled(texts, folder):
    """What the assembler makes of each (name, text). They go into one file, so their labels have to differ."""
    codes, chosen = [None] * len(texts), list(range(len(texts)))
    while chosen:
        whole, starts = joined(texts, chosen)
        thing, messages = assembler_run(whole, folder)
        said = collections.defaultdict(list)
        for line, error, words in messages:
            said[chosen[max(0, bisect.bisect_right(starts, line) - 1)]].append((error, words))
        bad = [k for k in chosen if any(error for error, _ in said[k])]
        for k in bad:
            codes[k] = Code(None, None, [words for _, words in said[k]])
        if thing:
            parts = disassembly(thing)
            for k in chosen:
                code, insns = parts[texts[k][0]]
                codes[k] = Code(bytes(code), insns, [words for _, words in said[k]])
            break
        chosen = [k for k in chosen if k not in set(bad)]
    return codes
