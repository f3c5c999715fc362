"""The rows of the instruction table with the operands that they take, what they do with flags, and kinds of immediates.

The mnemonics are read from the table's own definitions (through tests/mnemonic_cases.py), and the flags that a condition
reads come from tests/processor_cases.py. What stands here is how a test draws operands of them: their roles, the bytes that
an operand in memory has, and its alignment.
"""
from dataclasses import dataclass

import mnemonic_cases
import processor_cases

CF, PF, ZF, SF, OF = range(5)
ALL_FLAGS = frozenset(range(5))
LANES = {"Byte": 8, "Word": 16, "Doubleword": 32, "Quadword": 64}
WRITERS = ("Mov", "Add", "Sub", "And", "Or", "Xor")
READERS = ("Cmp", "Test")
UNARY = ("Inc", "Dec", "Neg", "Not")
COUNTED = ("Shl", "Shr", "Sar")
SHUFFLES = ("Pshufd", "Pshuflw", "Pshufhw")
CONTROL = ("Jump", "Jmp", "Push", "Pop", "Ret")


@dataclass(frozen=True)
class Slot:
    """One operand of a form: its kind (reg, mem, imm, vec or addr), its bits, its role, and its alignment in memory."""
    kind: str
    bits: int = 0
    role: str = "r"
    align: int = 1
    numbers: str = ""


@dataclass(frozen=True)
class Row:
    """A mnemonic at one width: its operation, what tells it from others (a condition, a lane), and its forms."""
    mnemonic: str
    op: str
    detail: tuple
    width: int
    vector: str
    forms: tuple

    def group(self):
        """The name under which executions are counted: the operation, with its condition or its lanes."""
        if self.vector:
            stem = self.mnemonic[1:] if self.vector != "sse" else self.mnemonic
            return mnemonic_cases.NAMED.get(stem, stem)
        return " ".join((self.op,) + self.detail).lower()

    def width_name(self):
        """The width as the table of executions shows it."""
        return self.vector or str(self.width)


def reg(bits, role="r"):
    """A general register."""
    return Slot("reg", bits, role)


def mem(bits, role="r", align=1):
    """Memory."""
    return Slot("mem", bits, role, align)


def vec(bits, role="r"):
    """A vector register."""
    return Slot("vec", bits, role)


def imm(numbers, bits=0):
    """An immediate, drawn by one of NUMBERS."""
    return Slot("imm", bits, numbers=numbers)


def either(bits, role="r"):
    """A general register or memory."""
    return [reg(bits, role), mem(bits, role)]


def binary_forms(w, role):
    """Two operands of w bits, of which one at most is in memory; the second one has the role."""
    sources = [imm("general", w), reg(w), mem(w)]
    return [(s, d) for s in sources for d in either(w, role) if not (s.kind == "mem" and d.kind == "mem")]


def imul_forms(w):
    """The forms of products: of two operands, and of three with an immediate."""
    three = [(imm("general", w), s, reg(w, "w")) for s in either(w)]
    return [(s, reg(w, "rw")) for s in either(w)] + [(imm("general", w), reg(w, "rw"))] + three


def general_forms(op, detail, w):
    """The forms of a general operation of w bits, but for those that jump or move the stack."""
    if op in WRITERS:
        return binary_forms(w, "w" if op == "Mov" else "rw")
    if op in READERS:
        return binary_forms(w, "r")
    if op in UNARY:
        return [(d,) for d in either(w, "rw")]
    if op in COUNTED:
        return [(d,) for d in either(w, "rw")] + [(imm("count", w), d) for d in either(w, "rw")] * 2
    if op == "Imul":
        return imul_forms(w)
    if op == "Movabs":
        return [(imm("wide", 64), reg(64, "w"))]
    if op == "Lea":
        return [(Slot("addr"), reg(w, "w"))]
    if op in ("Movzx", "Movsx"):
        return [(s, reg(w, "w")) for s in either(int(detail[0]))]
    if op == "Cmov":
        return [(s, reg(w, "rw")) for s in either(w)]
    if op == "Set":
        return [(d,) for d in either(8, "w")]
    return [()]


def alignment(op, vex, bits):
    """The bytes to which an operand of a vector instruction in memory must be aligned."""
    if vex:
        return bits // 8 if op in ("Movdqa", "Movaps") else 1
    return 16 if bits == 128 and op not in ("Movdqu", "Movups") else 1


def source_bits(op, detail, w):
    """The bits that a source in memory has."""
    if op == "Pbroadcast":
        return LANES[detail[0]]
    if op in ("Pmovzx", "Pmovsx"):
        return w * LANES[detail[0]] // LANES[detail[1]]
    return 128 if op == "Inserti128" else w


def vector_sources(op, detail, vex, w):
    """The last source that is read, a vector or memory."""
    low = 128 if op in ("Pbroadcast", "Pmovzx", "Pmovsx", "Inserti128") else w
    bits = source_bits(op, detail, w)
    return [vec(low), mem(bits, "r", alignment(op, vex, bits))]


def copy_forms(op, vex, w):
    """Copies between vectors, or between a vector and memory."""
    return [(vec(w), vec(w, "w")), (mem(w, "r", alignment(op, vex, w)), vec(w, "w")),
            (vec(w), mem(w, "w", alignment(op, vex, w)))]


def exchange_forms(op, w):
    """Bits between a general register or memory and a vector."""
    bits = 32 if op == "Movd" else 64
    if w == 256:
        return []
    into = [(s, vec(128, "w")) for s in either(bits)]
    out_of = [(vec(128), d) for d in either(bits, "w")]
    return into + out_of + ([(vec(128), vec(128, "w"))] if op == "Movq" else [])


def wide_forms(op, detail, w):
    """The forms of the operations that vectors of 256 bits alone have."""
    if w != 256:
        return []
    if op == "Extracti128":
        return [(imm("control"), vec(256), vec(128, "w")), (imm("control"), vec(256), mem(128, "w"))]
    if op == "Permq":
        return [(imm("control"), s, vec(256, "w")) for s in vector_sources(op, detail, True, 256)]
    return [(imm("control"), s, vec(256), vec(256, "w")) for s in vector_sources(op, detail, True, 256)]


def shift_forms(op, detail, vex, w):
    """Shifts by an immediate, which is drawn by the width of the lanes or as a number of bytes."""
    number = imm("bytes") if op in ("Pslldq", "Psrldq") else imm("lanes", LANES[detail[0]])
    return [(number, vec(w), vec(w, "w"))] if vex else [(number, vec(w, "rw"))]


def vector_forms(op, detail, vex, w):
    """The forms of an operation on vectors of w bits."""
    if op == "Vzeroupper":
        return [()] if w == 256 else []
    if op in mnemonic_cases.SHIFTS:
        return shift_forms(op, detail, vex, w)
    if op in mnemonic_cases.COPIES:
        return copy_forms(op, vex, w)
    if op in ("Movd", "Movq"):
        return exchange_forms(op, w)
    if op in ("Extracti128", "Permq", "Inserti128", "Perm2i128"):
        return wide_forms(op, detail, w)
    sources = vector_sources(op, detail, vex, w)
    if op in SHUFFLES:
        return [(imm("control"), s, vec(w, "w")) for s in sources]
    if op in ("Pabs", "Pbroadcast", "Pmovzx", "Pmovsx"):
        return [(s, vec(w, "w")) for s in sources]
    if op == "Pmovmskb":
        return [(vec(w), reg(32, "w"))]
    return [(s, vec(w), vec(w, "w")) if vex else (s, vec(w, "rw")) for s in sources]


def general_rows():
    """The rows without vectors; where a suffix may be left out, one for each width."""
    for mnemonic, (op, *detail), width in mnemonic_cases.rows():
        for w in (width,) if width else (16, 32, 64):
            yield Row(mnemonic, op, tuple(detail), w, "", tuple(general_forms(op, detail, w)))


def vector_rows():
    """The rows of vectors, at each width that they have."""
    named = list(mnemonic_cases.vector_rows()) + [("movq", ["Moving", "Movq"])]
    for mnemonic, words in named:
        op, *detail = (word for word in words if word not in ("Lanewise", "Moving"))
        vex = mnemonic.startswith("v")
        for w in (128, 256) if vex else (128,):
            forms = vector_forms(op, detail, vex, w)
            if forms:
                yield Row(mnemonic, op, tuple(detail), w, f"vex{w}" if vex else "sse", tuple(forms))


ROWS = list(general_rows()) + list(vector_rows())
JUMPS = [row for row in ROWS if row.op == "Jump"]
PLAIN = [row for row in ROWS if row.op not in CONTROL]
# moves by a condition have many names, so each is drawn half as often
DRAWN = [row for row in PLAIN for _ in range(1 if row.op == "Cmov" else 2)]
IN_MEMORY = [row for row in DRAWN if any(slot.kind == "mem" for form in row.forms for slot in form)]
ALIGNED = [row for row in PLAIN if row.op in ("Movdqa", "Movaps")]
BY_NAME = {(row.mnemonic, row.width_name()): row for row in ROWS}


def condition(row):
    """The first name of a row's condition."""
    return row.detail[0].lower()


def reads(row):
    """The flags that a row reads."""
    return frozenset(processor_cases.READS[condition(row)]) if row.op in ("Cmov", "Set", "Jump") else frozenset()


def flags_after(row, count, flags):
    """The flags that are set behind a row, which shifts by count where it shifts."""
    if row.vector:
        return flags
    if row.op in ("Add", "Sub", "Cmp", "Test", "And", "Or", "Xor", "Neg"):
        return ALL_FLAGS
    if row.op in ("Inc", "Dec"):
        return flags | {PF, ZF, SF, OF}
    if row.op in COUNTED:
        return ALL_FLAGS if count == 1 else ALL_FLAGS - {OF}
    return frozenset() if row.op == "Imul" else flags


def general_number(draw, w):
    """A class of immediates of a form of w bits, and one of them."""
    top = 1 << (min(w, 32) - 1)
    classes = {"0": 0, "1": 1, "-1": -1, "least": -top, "greatest": top - 1,
               "byte": draw.randrange(-128, 128), "any": draw.randrange(-top, top)}
    if w <= 32:
        classes["unsigned"] = draw.choice((top, 2 * top - 1, draw.randrange(top, 2 * top)))
    name = draw.choice(list(classes))
    return name, classes[name]


def wide_number(draw, w):
    """The same for an immediate of 64 bits."""
    classes = {"0": 0, "-1": -1, "least": -(1 << 63), "unsigned": draw.randrange(1 << 63, 1 << 64),
               "greatest": (1 << 64) - 1, "any": draw.randrange(-(1 << 63), 1 << 63)}
    name = draw.choice(list(classes))
    return name, classes[name]


def count_number(draw, w):
    """The same for the count of a shift."""
    classes = {"1": 1, "w-1": w - 1, "any": draw.randrange(1, w)}
    name = draw.choice(list(classes))
    return name, classes[name]


def lane_number(draw, w):
    """The same for the count of a shift of lanes of w bits."""
    classes = {"0": 0, "1": 1, "below": draw.randrange(1, w), "w-1": w - 1, "w": w, "above": draw.randrange(w + 1, 256),
               "255": 255}
    name = draw.choice(list(classes))
    return name, classes[name]


def byte_number(draw, w):
    """The same for a shift by bytes."""
    classes = {"0": 0, "below": draw.randrange(1, 16), "15": 15, "16": 16, "above": draw.randrange(17, 256)}
    name = draw.choice(list(classes))
    return name, classes[name]


def control_number(draw, w):
    """The same for a control."""
    classes = {"0": 0, "255": 255, "any": draw.randrange(256)}
    return draw.choice([("0", 0), ("255", 255)] + [("any", classes["any"])] * 4)


NUMBERS = {"general": general_number, "wide": wide_number, "count": count_number, "lanes": lane_number,
           "bytes": byte_number, "control": control_number}
