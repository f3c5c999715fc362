#!/usr/bin/env python3
"""Makes the table of cases that the crate processor_cases compares with the instruction table.

It assembles the general instructions with GNU as, runs them on this processor for values at the edges, and prints one
case a line, numbers alone. The table was made by:  python3 tests/processor_cases.py >crates/processor_cases/stdin

A flag is written 0 or 1, and 2 where it is unset; flags stand in the order CF PF ZF SF OF. A line is one of
   0 OP W A B  BEFORE.. VALUE AFTER..     an operation, by its number in OPS
   2 COND W A B  BEFORE.. VALUE AFTER..   the cmov of a condition, by its number in CONDS
   3 COND W A B  BEFORE.. VALUE AFTER..   the set of a condition
   1 COND FLAGS.. HOLDS                   whether a condition holds; 2 where a flag that it reads is unset
with the width, the destination and the source as words of that width (in a widening row the source of the source's
width, in a shift the count), the flags before, the result, and the flags after.

A processor has no unset flags. What they do is found by two runs, with the unset flags 0 and 1 before: a flag that
comes out as it went in was kept, so it stays unset; one that comes out the same in both was set. The project's own
rules stand where the manual leaves a flag undefined: after imul every flag is unset (the manual defines two), after a
shift by more than 1 the overflow flag. A condition has no value where a flag that it reads is unset (READS, from the
manual's table of conditions), also where the other flags decide it.
"""
import ctypes, itertools, os, subprocess, tempfile

OPS = ["mov", "movabs", "add", "sub", "cmp", "test", "and", "or", "xor", "inc", "dec", "neg", "not", "shl", "shr",
       "sar", "imul", "lea", "movzx8", "movzx16", "movsx8", "movsx16", "movsx32", "cltq"]
CONDS = ["e", "ne", "b", "ae", "be", "a", "l", "ge", "le", "g", "s", "ns", "o", "no", "p", "np"]
CF, PF, ZF, SF, OF = range(5)
READS = {"e": [ZF], "b": [CF], "be": [CF, ZF], "l": [SF, OF], "le": [ZF, SF, OF], "s": [SF], "o": [OF], "p": [PF]}
READS.update({"ne": READS["e"], "ae": READS["b"], "a": READS["be"], "ge": READS["l"], "g": READS["le"],
              "ns": READS["s"], "no": READS["o"], "np": READS["p"]})
SUFFIX = {8: "b", 16: "w", 32: "l", 64: "q"}
RAX = {8: "%al", 16: "%ax", 32: "%eax", 64: "%rax"}
RCX = {8: "%cl", 16: "%cx", 32: "%ecx", 64: "%rcx"}
FLAG_BITS = [0, 2, 6, 7, 11]  # CF PF ZF SF OF in RFLAGS
BEFORE = [[0] * 5, [1] * 5, [2] * 5, [1, 0, 0, 0, 0], [0, 1, 1, 1, 1], [2, 0, 1, 2, 0], [0, 2, 2, 1, 2]]


def edges(w):
    top = 1 << (w - 1)
    return [0, 1, 2 * top - 1, top, top - 1, 0x5AA5C33C0FF01E87 % (2 * top)]


def rows():
    """Each row: operation, width, destination, source, the instruction over %rax and %rcx."""
    for op in ["mov", "add", "sub", "cmp", "test", "and", "or", "xor"]:
        for w in (8, 16, 32, 64):
            pairs = itertools.product(edges(w)[:5], edges(w)[:5]) if op != "mov" else zip(edges(w)[::-1], edges(w))
            for a, b in pairs:
                yield op, w, a, b, f"{op}{SUFFIX[w]} {RCX[w]},{RAX[w]}"
    for b in edges(64):
        yield "movabs", 64, 7, b, f"movabsq ${b},%rax"
    for op in ["inc", "dec", "neg", "not"]:
        for w in (8, 16, 32, 64):
            for a in edges(w):
                yield op, w, a, 0, f"{op}{SUFFIX[w]} {RAX[w]}"
    for op in ["shl", "shr", "sar"]:
        for w in (8, 16, 32, 64):
            for k in (1, 2, w - 1):
                for a in edges(w):
                    yield op, w, a, k, f"{op}{SUFFIX[w]} ${k},{RAX[w]}"
    for w in (16, 32, 64):
        for a, b in itertools.product(edges(w)[:5], edges(w)[:5]):
            yield "imul", w, a, b, f"imul{SUFFIX[w]} {RCX[w]},{RAX[w]}"
    for w in (32, 64):
        for b in edges(64):
            yield "lea", w, 0, b, f"lea{SUFFIX[w]} (%rcx),{RAX[w]}"
    for kind, widenings in (("z", [(8, 16), (8, 32), (8, 64), (16, 32), (16, 64)]),
                            ("s", [(8, 16), (8, 32), (8, 64), (16, 32), (16, 64), (32, 64)])):
        for m, w in widenings:
            for b in edges(m):
                yield f"mov{kind}x{m}", w, 0, b, f"mov{kind}{SUFFIX[m]}{SUFFIX[w]} {RCX[m]},{RAX[w]}"
    for b in edges(32):
        yield "cltq", 64, 0, b, "movq %rcx,%rax; cltq"


def assembled(texts):
    """Functions over (destination, source, flags before, where to put the flags after) that give %rax."""
    lines = [".text"]
    for i, text in enumerate(texts):
        lines += [f".globl row_{i}", f"row_{i}:", "movq %rdx,%r8", "movq %rcx,%r9", "movq %rdi,%rax", "movq %rsi,%rcx",
                  "pushq %r8", "popfq"] + text.split("; ") + ["pushfq", "popq (%r9)", "ret"]
    lines += ['.section .note.GNU-stack,"",@progbits']
    folder = tempfile.mkdtemp()
    source, thing, library = (os.path.join(folder, name) for name in ("rows.s", "rows.o", "rows.so"))
    with open(source, "w") as file:
        file.write("\n".join(lines) + "\n")
    subprocess.run(["as", "-o", thing, source], check=True)
    subprocess.run(["ld", "-shared", "-o", library, thing], check=True)
    return ctypes.CDLL(library)


def run(library, i, a, b, before):
    """The result and the flags after, from flags that are all 0 or 1."""
    function = library[f"row_{i}"]
    function.restype = ctypes.c_uint64
    function.argtypes = [ctypes.c_uint64] * 3 + [ctypes.c_void_p]
    after = ctypes.c_uint64(0)
    rflags = 2 + sum(flag << bit for flag, bit in zip(before, FLAG_BITS))
    value = function(a, b, rflags, ctypes.addressof(after))
    return value, [after.value >> bit & 1 for bit in FLAG_BITS]


def run_unset(library, i, a, b, before):
    """The same from flags of which some are unset."""
    fillings = [[filler if flag == 2 else flag for flag in before] for filler in (0, 1)]
    (value, low), (other, high) = (run(library, i, a, b, filling) for filling in fillings)
    assert value == other, "the result depends on an unset flag"
    return value, [0 if pair == (0, 0) else 1 if pair == (1, 1) else 2 for pair in zip(low, high)]


def flags_of_conditions(cond):
    """All flags that are set, and for each flag alone, and all flags, some that are unset."""
    yield from (list(flags) for flags in itertools.product((0, 1), repeat=5))
    for unset in range(5):
        for others in (0, 1):
            yield [2 if flag == unset else others for flag in range(5)]
    yield [2] * 5


def main():
    general = list(rows())
    # the results of cmp and test, which are not written, are those of sub and and
    shown = [text.replace("cmp", "sub").replace("test", "and") for *_, text in general]
    moves = [(c, w, f"cmov{cond}{SUFFIX[w]} {RCX[w]},{RAX[w]}") for c, cond in enumerate(CONDS) for w in (16, 32, 64)]
    sets = [f"set{cond} %al" for cond in CONDS]
    library = assembled([text for *_, text in general] + shown + [text for *_, text in moves] + sets)
    first_move = 2 * len(general)
    first_set = first_move + len(moves)
    for i, (op, w, a, b, _) in enumerate(general):
        before = BEFORE[i % len(BEFORE)]
        _, flags = run_unset(library, i, a, b, before)
        value, _ = run_unset(library, len(general) + i, a, b, before)
        if op == "imul":
            flags = [2] * 5
        if op in ("shl", "shr", "sar") and b != 1:
            flags[OF] = 2
        print(0, OPS.index(op), w, a, b, *before, value % (1 << w), *flags)
    for c, cond in enumerate(CONDS):
        for flags in flags_of_conditions(cond):
            if any(flags[flag] == 2 for flag in READS[cond]):
                holds = 2
            else:
                value, _ = run_unset(library, first_set + c, 0, 0, flags)
                holds = value & 1
            print(1, c, *flags, holds)
    for i, (c, w, _) in enumerate(moves):
        a, b = edges(w)[5], edges(w)[2] ^ edges(w)[5]
        for outcome in (0, 1):
            # flags at which the condition has this outcome, with the flags that it doesn't read unset
            for flags in itertools.product((0, 1), repeat=5):
                if run(library, first_set + c, 0, 0, flags)[0] & 1 == outcome:
                    before = [flag if k in READS[CONDS[c]] else 2 for k, flag in enumerate(flags)]
                    value, after = run_unset(library, first_move + i, a, b, before)
                    print(2, c, w, a, b, *before, value % (1 << w), *after)
                    if w == 64:
                        value, after = run_unset(library, first_set + c, a, b, before)
                        print(3, c, 8, a % 256, 0, *before, value % 256, *after)
                    break


if __name__ == "__main__":
    main()
