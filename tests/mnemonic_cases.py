#!/usr/bin/env python3
"""Makes the lines of crates/mnemonic_cases/stdin, one of each general mnemonic and of each form of each one on vectors, and
what must be printed of them (stdout).

The mnemonics are those of crates/insn_spellings/specs/LegacyRows.antt and VexRows.antt. What is printed follows the rules of
printed instructions: the first name of a condition, the suffix of the width, `shl` for `sal`, `pand` for `andps`, numbers
as signed ones, and those that control vectors as they are.

    tests/mnemonic_cases.py        # writes both files
"""
import pathlib
import re

ROOT = pathlib.Path(__file__).resolve().parent.parent / "crates"
WIDE = "rax rcx rdx rbx rsp rbp rsi rdi r8 r9 r10 r11 r12 r13 r14 r15".split()
LONG = "eax ecx edx ebx esp ebp esi edi r8d r9d r10d r11d r12d r13d r14d r15d".split()
SHORT = "ax cx dx bx sp bp si di r8w r9w r10w r11w r12w r13w r14w r15w".split()
BYTE = "al cl dl bl spl bpl sil dil r8b r9b r10b r11b r12b r13b r14b r15b".split()
NAMES = {64: WIDE, 32: LONG, 16: SHORT, 8: BYTE}
LETTER = {8: "b", 16: "w", 32: "l", 64: "q"}
# immediates as they are written and as they are printed, by the form's width
NUMBERS = {8: ("$255", "$-1"), 16: ("$40000", "$-25536"), 32: ("$0x80000000", "$-2147483648"), 64: ("$-2147483648",) * 2}
# memory as it is written and as it is printed
PLACES = [
    ("(%rdi)", "(%rdi)"),
    ("0(%rsi,%rcx)", "(%rsi,%rcx,1)"),
    ("-8( %rbp )", "-8(%rbp)"),
    ("0x10(,%r9,8)", "16(,%r9,8)"),
    ("2147483647(%r15,%r14,4)", "2147483647(%r15,%r14,4)"),
]


def rows():
    text = (ROOT / "insn_spellings/specs/LegacyRows.antt").read_text()
    for mnemonic, op, w in re.findall(r' row \(codes "(\w+)"\) (\(\w+ \w+\)|\w+) (\d+)', text):
        yield mnemonic, op.strip("()").split(), int(w)


def vector_rows():
    """Each mnemonic on vectors, and the words of its operation."""
    for name in ("LegacyRows", "VexRows"):
        text = (ROOT / f"insn_spellings/specs/{name}.antt").read_text()
        for mnemonic, op in re.findall(r'(?:vector|vex|upper)_row \(codes "(\w+)"\) (.*?) ∷', text):
            yield mnemonic, re.findall(r"\w+", op)


def source(n, w):
    """The operand of a source of w bits, and how it is printed: by turns a register, memory and an immediate."""
    if n % 3 == 0:
        return NUMBERS[w]
    if n % 3 == 1:
        return PLACES[n % len(PLACES)]
    return ("%" + NAMES[w][n % 16],) * 2


def readable(n, w):
    return PLACES[n % len(PLACES)] if n % 2 else ("%" + NAMES[w][n % 16],) * 2


def register(n, w):
    return ("%" + NAMES[w][n % 16],) * 2


def line(n, mnemonic, op, w):
    """The line of a row, and how it is printed."""
    name = op[0]
    letter = LETTER.get(w, "")
    if name in ("Ret", "Nop", "Endbr64", "Cltq"):
        return mnemonic, name.lower()
    if name in ("Jump", "Jmp"):
        return mnemonic + " .L1", ("jmp" if name == "Jmp" else "j" + op[1].lower()) + " @1"
    if name == "Set":
        a = readable(n, 8)
        return f"{mnemonic} {a[0]}", f"set{op[1].lower()} {a[1]}"
    if name in ("Push", "Pop"):
        a = register(n, 64)
        return f"{mnemonic} {a[0]}", f"{name.lower()}q {a[1]}"
    if name in ("Inc", "Dec", "Neg", "Not"):
        a = readable(n, w)
        return f"{mnemonic} {a[0]}", f"{name.lower()}{letter} {a[1]}"
    if name in ("Shl", "Shr", "Sar"):
        a = readable(n, w)
        if n % 2:
            return f"{mnemonic} {a[0]}", f"{name.lower()}{letter} $1,{a[1]}"
        return f"{mnemonic} ${w - 1},{a[0]}", f"{name.lower()}{letter} ${w - 1},{a[1]}"
    if name == "Cmov":
        v = w or (16, 32, 64)[n % 3]
        a, b = readable(n, v), register(n + 3, v)
        return f"{mnemonic} {a[0]},{b[0]}", f"cmov{op[1].lower()}{LETTER[v]} {a[1]},{b[1]}"
    if name in ("Movzx", "Movsx"):
        m = int(op[1])
        a, b = readable(n, m), register(n + 5, w)
        return f"{mnemonic} {a[0]},{b[0]}", f"mov{name[3]}{LETTER[m]}{letter} {a[1]},{b[1]}"
    if name == "Lea":
        a, b = PLACES[n % len(PLACES)], register(n, w)
        return f"{mnemonic} {a[0]},{b[0]}", f"lea{letter} {a[1]},{b[1]}"
    if name == "Movabs":
        return f"{mnemonic} $0xffffffffffffffff,%rax", "movabsq $-1,%rax"
    if name == "Imul":
        a, b, c = NUMBERS[w], readable(n, w), register(n + 1, w)
        return f"{mnemonic} {a[0]},{b[0]},{c[0]}", f"imul{letter} {a[1]},{b[1]},{c[1]}"
    # two operands, of which the source is any
    a, b = source(n, w), register(n + 2, w)
    return f"{mnemonic} {a[0]} , {b[0]}", f"{name.lower()}{letter} {a[1]},{b[1]}"


# what is printed of other names of the operations by bits
NAMED = {"andps": "pand", "andnps": "pandn", "orps": "por", "xorps": "pxor"}
SHIFTS = {"Psll", "Psrl", "Psra", "Pslldq", "Psrldq"}
COPIES = {"Movdqa", "Movdqu", "Movaps", "Movups"}


def vector(n, w):
    return (f"%{'xmm' if w == 128 else 'ymm'}{n % 16}",) * 2


def vector_source(n, w):
    """A vector register or memory, by turns."""
    return PLACES[n % len(PLACES)] if n % 2 else vector(n, w)


def control(n):
    return ("$0xff", "$255") if n % 4 == 0 else (f"${n % 256}",) * 2


def vector_operands(n, words, vex, w):
    """The operands of each form of an operation on vectors of w bits."""
    op = next(word for word in words if word not in ("Lanewise", "Moving"))
    both = [vector(n + 1, w)] if not vex else [vector(n + 1, w), vector(n + 2, w)]
    low = w == 128
    if op == "Vzeroupper":
        return [[]] if not low else []
    if op in SHIFTS:
        return [[control(n)] + both]
    if op in COPIES:
        return [[vector_source(n, w), vector(n + 3, w)], [vector(n + 3, w), PLACES[n % len(PLACES)]]]
    if op in ("Movd", "Movq"):
        v = 32 if op == "Movd" else 64
        pairs = [[readable(n, v), vector(n, 128)], [vector(n, 128), readable(n + 1, v)]]
        return (pairs + ([[vector(n, 128), vector(n + 1, 128)]] if v == 64 else [])) if low else []
    if op in ("Pshufd", "Pshuflw", "Pshufhw", "Permq"):
        return [[control(n), vector_source(n, w), vector(n + 3, w)]] if op != "Permq" or not low else []
    if op in ("Pabs",):
        return [[vector_source(n, w), vector(n + 3, w)]]
    if op in ("Pbroadcast", "Pmovzx", "Pmovsx"):
        return [[vector_source(n, 128), vector(n + 3, w)]]
    if op == "Extracti128":
        return [] if low else [[control(n), vector(n, 256), vector(n + 1, 128)], [control(n), vector(n, 256), PLACES[n % 5]]]
    if op in ("Inserti128", "Perm2i128"):
        return [] if low else [[control(n), vector_source(n, 128 if op[0] == "I" else 256)] + both]
    if op == "Pmovmskb":
        return [[vector(n, w), register(n, 32)]]
    return [[vector_source(n, w)] + both]


def vector_lines():
    """A line of each form of each mnemonic on vectors, of 128 bits and with VEX of 256, and of `movq` without VEX."""
    n = 0
    for mnemonic, words in list(vector_rows()) + [("movq", ["Moving", "Movq"])]:
        vex = mnemonic[0] == "v"
        stem = mnemonic[1:] if vex else mnemonic
        printed = ("v" if vex else "") + NAMED.get(stem, stem)
        for w in (128, 256) if vex else (128,):
            for operands in vector_operands(n, words, vex, w):
                written = " " + " , ".join(a for a, _ in operands) if operands else ""
                shown = " " + ",".join(b for _, b in operands) if operands else ""
                yield mnemonic + written, printed + shown
                n += 1


def main():
    lines = [line(n, *row) for n, row in enumerate(rows())] + list(vector_lines())
    out = ROOT / "mnemonic_cases"
    (out / "stdin").write_text("".join(a + "\n" for a, _ in lines))
    (out / "stdout").write_text("".join(b + "\n" for _, b in lines) + f"rows {len(lines)}\nwrong 0\n")
    print(len(lines), "rows")


if __name__ == "__main__":
    main()
