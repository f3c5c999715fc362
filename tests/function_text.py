"""Makes texts of functions: each form of each instruction of the table, random functions, and statements that are odd.

The mnemonics and the forms of those on vectors come from mnemonic_cases.py, which reads them from the table's definitions;
the forms of general instructions are those of crates/insn_table/specs/Forms.antt.
"""
import itertools
import re

import mnemonic_cases
from mnemonic_cases import BYTE, LETTER, LONG, NAMES, SHORT, WIDE

# the least and the greatest immediate of a form's width
RANGES = {8: (-128, 255), 16: (-32768, 65535), 32: (-2**31, 2**32 - 1), 64: (-2**31, 2**31 - 1)}
BITWISE = ("andps", "andnps", "orps", "xorps")


def numbers(w):
    """The immediates of a form of w bits at the edges."""
    low, high = RANGES[w]
    return sorted({low, low + 1, -1, 0, 1, 127, 128, min(high, 2**(w - 1) - 1), min(high, 2**(w - 1)), high - 1, high}
                  | ({-128, -129} if w > 8 else set()))


def addresses():
    """Memory operands: each base and each index, the scales, displacements at the edges, and parts left out."""
    for n, base in enumerate(WIDE):
        yield f"(%{base})"
        yield f"{n - 8}(%{base})"
        if base != "rsp":
            yield f"(%rdi,%{base},{1 << n % 4})"
            yield f"{16 * n}(,%{base},{1 << n % 4})"
    for base, index in itertools.product(("rsp", "rbp", "r12", "r13"), ("rbp", "r12", "r13")):
        yield f"(%{base},%{index},8)"
    for disp in (-2**31, -2**31 + 1, -129, -128, -1, 0, 1, 127, 128, 2**31 - 1):
        yield f"{disp}(%rax)"
        yield f"{disp}(%rbp,%r9,2)"
        yield f"{disp}(,%rdx,4)"
    yield from ("(%rsi,%rcx)", "(,%rcx)", "-0x10(,%rcx)", "0x7FfFfFfF(%rsi)", "0x0(%rsi)", "-0(%rsi)", "0x00010(%rsi)",
                "( %rdi )", "8(\t%rdi , %rcx , 4 )", "( , %rcx, 8)")


ADDRESSES = list(addresses())


def classes(op, w):
    """The forms of a general operation of w bits, each a list of classes of operands: r a register, m memory, i an
    immediate, or any of these together; c the count of a shift, x a number of 64 bits, l a label."""
    name = op[0]
    if name in ("Ret", "Nop", "Endbr64", "Cltq"):
        return [[]]
    if name in ("Jump", "Jmp"):
        return [[("l", w)]]
    if name in ("Push", "Pop"):
        return [[("r", w)]]
    if name in ("Set", "Inc", "Dec", "Neg", "Not"):
        return [[("rm", w)]]
    if name in ("Shl", "Shr", "Sar"):
        return [[("c", w), ("rm", w)], [("rm", w)]]
    if name in ("Movzx", "Movsx"):
        return [[("rm", int(op[1])), ("r", w)]]
    if name == "Imul":
        return [[("rm", w), ("r", w)], [("i", w), ("r", w)], [("i", w), ("rm", w), ("r", w)]]
    if name == "Lea":
        return [[("m", w), ("r", w)]]
    if name == "Movabs":
        return [[("x", w), ("r", w)]]
    if name == "Cmov":
        return [[("rm", v), ("r", v)] for v in ((16, 32, 64) if w == 0 else (w,))]
    return [[("irm", w), ("rm", w)]]


def operands_of(kind, w, turn):
    """Operands of one kind: all numbers at the edges, and of registers and memory one, by turns."""
    if kind == "i":
        return [f"${n}" for n in numbers(w)]
    if kind == "x":
        edges = (-2**63, -2**31 - 1, -1, 0, 1, 2**31, 2**63 - 1, 2**63, 2**64 - 1)
        return [f"${n}" for n in edges] + ["$0xFfFf0123456789aB"]
    if kind == "c":
        return [f"${n}" for n in sorted({1, 2, w // 2, w - 1})]
    if kind == "m":
        return [ADDRESSES[turn % len(ADDRESSES)]]
    return ["%" + NAMES[w][turn % 16]]


def general_statements():
    """A statement of each form of each general instruction but the jumps, with every number at the edges."""
    turn = 0
    for mnemonic, op, w in mnemonic_cases.rows():
        for form in classes(op, w):
            for kinds in itertools.product(*(kinds for kinds, _ in form)):
                if kinds.count("m") > 1 or "l" in kinds:
                    continue
                choices = []
                for kind, (_, v) in zip(kinds, form):
                    turn += 1
                    choices.append(operands_of(kind, v, turn * 7 // 3))
                for operands in itertools.product(*choices):
                    yield (mnemonic + " " + ",".join(operands)).strip()


def register_statements():
    """Every register of every width on both sides, and every address, also of vectors."""
    for w, names in NAMES.items():
        for n, name in enumerate(names):
            yield f"mov{LETTER[w]} %{name},%{names[(5 * n + 3) % 16]}"
    for n in range(16):
        yield f"vmovdqa %ymm{n},%ymm{(5 * n + 3) % 16}"
        yield f"vmovdqa %xmm{n},%xmm{(7 * n + 9) % 16}"
        yield f"movdqa %xmm{n},%xmm{(5 * n + 3) % 16}"
        yield f"vpsubd %ymm{n},%ymm{(5 * n + 3) % 16},%ymm{(3 * n + 1) % 16}"
        yield f"vpaddd %ymm{n},%ymm{(5 * n + 3) % 16},%ymm{(3 * n + 1) % 16}"
        yield f"vpxor %xmm{n},%xmm{(3 * n + 5) % 16},%xmm{(7 * n + 2) % 16}"
    for n, address in enumerate(ADDRESSES):
        yield f"movl {address},%{LONG[n % 16]}"
        yield f"leaq {address},%{WIDE[n % 16]}"
        yield f"movb %{BYTE[n % 16]},{address}"
        yield f"addw ${n},{address}"
        yield f"paddd {address},%xmm{n % 16}"
        yield f"vpaddd {address},%ymm{n % 16},%ymm{3 * n % 16}"


def vector_statements():
    """A statement of each form of each instruction on vectors, with registers and memory; controls at the edges."""
    seen = set()
    for mnemonic, words in list(mnemonic_cases.vector_rows()) + [("movq", ["Moving", "Movq"])]:
        for w in (128, 256) if mnemonic[0] == "v" else (128,):
            for turn in range(8):
                for operands in mnemonic_cases.vector_operands(3 * turn, words, mnemonic[0] == "v", w):
                    written = [written for written, _ in operands]
                    firsts = ["$0", "$1", "$127", "$128", "$255"] if written and written[0][0] == "$" else written[:1]
                    for first in firsts or [""]:
                        statement = (mnemonic + " " + ",".join([first] + written[1:])).strip()
                        if statement not in seen:
                            seen.add(statement)
                            yield statement


def jumps():
    """The mnemonics of jumps."""
    return [mnemonic for mnemonic, op, _ in mnemonic_cases.rows() if op[0] in ("Jump", "Jmp")]


def statements():
    """All statements but jumps, and `rep ret`."""
    found = list(general_statements()) + list(register_statements()) + list(vector_statements())
    return list(dict.fromkeys(found)) + ["rep ret", "rep \t ret"]


def one_instruction(name, statement):
    """The function of one instruction, and a return behind it where it does not return itself."""
    tail = "" if re.match(r"(rep\s+)?ret", statement) else "\tret\n"
    return f"{name}:\n\t{statement}\n{tail}"


def one_jump(name, mnemonic, far):
    """A function of a jump forward and one backward, near or so far that it needs four bytes."""
    fill = "\taddq $1000,%rax\n" * (40 if far else 1)
    label = f".L{name}"
    return (f"{name}:\n{label}_1:\n{fill}\t{mnemonic} {label}_2\n\tincq %rax\n\t{mnemonic} {label}_1\n{fill}"
            f"{label}_2:\n\tret\n")


# random functions

# directives that leave the code as it is
QUIET = [".text", ".ident \"a b\"", ".some_symbol = 4", ".weak some_name", ".hidden some_name", ".loc 1 5 3",
         ".set a, b", ".section .text"]
ALIGNING = [".p2align 4,,10", ".p2align 3", ".align 16", ".balign 8", ".p2align 4,0x90"]
COMMENTS = ["", "", "", " # a comment", "\t# \u00e4 ; ret", "#", " # .L1: ret"]


def respelled(draw, statement):
    """The statement with numbers, blanks and left out parts spelled in other ways."""
    def number(found):
        if draw.random() < 0.5:
            return found[0]
        digits = f"{int(found[2]):x}" if draw.random() < 0.5 else f"{int(found[2]):X}"
        return found[1] + "0x" + "0" * draw.choice((0, 0, 3)) + digits
    word, _, rest = statement.partition(" ")
    rest = re.sub(r"(\$-?)(\d+)\b", number, rest)
    rest = re.sub(r"((?:^|,)\s*-?)(\d+)(?=\()", number, rest)
    if draw.random() < 0.5:
        rest = rest.replace(",1)", ")")
    if draw.random() < 0.3:
        rest = re.sub(r"(^|,)\(", r"\g<1>0(", rest)
    for sign in ",()":
        if draw.random() < 0.2:
            blank = draw.choice((" ", "\t", "  "))
            rest = rest.replace(sign, {",": blank + "," + blank, "(": "(" + blank, ")": blank + ")"}[sign])
    return (word + draw.choice((" ", "\t", " \t ")) + rest).strip() if rest else word


class RandomFunction:
    """A random function under a name, with the categories of what an assembler may encode otherwise."""

    def __init__(self, draw, name, pool, jump_words):
        self.draw, self.name, self.pool, self.jump_words = draw, name, pool, jump_words
        self.size = draw.choice((1, 3, 10, 30, 100))
        count = draw.randrange(0, 2 + self.size // 4)
        self.places = {f".L{name}_{k}": draw.randrange(self.size + 1) for k in range(count)}
        self.aligned = draw.random() < 0.2
        self.cfi = draw.random() < 0.5
        self.end = draw.choice(("\n", "\n", "\r\n"))

    def directive(self):
        if self.aligned and self.draw.random() < 0.3:
            return "\t" + self.draw.choice(ALIGNING)
        return "\t" + self.draw.choice(QUIET)

    def statement(self):
        draw = self.draw
        if self.places and draw.random() < 0.2:
            return draw.choice(self.jump_words) + draw.choice((" ", "\t")) + draw.choice(list(self.places))
        if draw.random() < 0.02:
            return draw.choice(("rep ret", "ret", "retq"))
        return respelled(draw, draw.choice(self.pool))

    def lines(self):
        draw = self.draw
        for k in range(self.size + 1):
            labels = [label for label, place in self.places.items() if place == k]
            together = draw.random() < 0.3
            for label in [] if together else labels:
                yield label + ":" + draw.choice(COMMENTS)
            if draw.random() < 0.2:
                yield self.directive()
            start = "".join(label + ":" + draw.choice(("", " ")) for label in labels) if together else ""
            ends = ("ret", "ret", "retq", "jmp " + self.name)
            statement = self.statement() if k < self.size else draw.choice(ends)
            yield start + draw.choice(("\t", "", "  ")) + statement + draw.choice(COMMENTS)
            if draw.random() < 0.1:
                yield draw.choice(("", "   ", "\t"))

    def text(self):
        head = ["\t.file 1 \"a.c\"", f"\t.type {self.name}, @function", f"{self.name}:"]
        head += ["\t.cfi_startproc"] if self.cfi else []
        tail = (["\t.cfi_endproc"] if self.cfi else []) + [f"\t.size {self.name}, .-{self.name}"]
        if self.draw.random() < 0.2:
            tail = tail[:-1] if not self.cfi else tail
        return self.end.join(head + list(self.lines()) + tail) + self.end


# what an assembler encodes otherwise, though it means the same

def plainly_spelled(text):
    """The text with spellings that have other bytes replaced by those that are printed, and the categories found."""
    found = set()
    lines = []
    for line in text.split("\n"):
        code, sharp, comment = line.partition("#")
        if re.match(r"\s*\.(p2align|align|balign)\b", code):
            found.add("alignment directives")
            continue
        plain = re.sub(r"\brep\s+ret\b", "ret", code)
        if plain != code:
            found.add("rep ret")
        bitwise = re.sub(r"(^|[\s:])(v?)(and|andn|or|xor)ps\b", r"\1\2p\3", plain)
        if bitwise != plain:
            found.add("andps, andnps, orps and xorps, printed as pand, pandn, por and pxor")
        lines.append(bitwise + sharp + comment)
    return "\n".join(lines), found
