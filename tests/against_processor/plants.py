"""Planted mistakes: what the processor is given in place of an instruction, so that a good test tells a difference.

Each one is a mistake that a table of instructions could have. It is made on the processor's side alone, and within the
place of the instruction, so the number of steps stays as it is. SLOTS_PLANT makes the processor's regions wider.
"""
import rows

SLOTS_PLANT = "regions-wider"


def plain_name(insn):
    """The mnemonic's stem without its suffix of width, and the suffix."""
    name = insn.row.mnemonic
    return (name[:-1], name[-1]) if not insn.row.vector else (name, "")


def renamed(insn, name):
    """The same operands under another mnemonic."""
    return [f"{name} {','.join(insn.operands)}"]


def swapped_sources(ops):
    """The two sources of a VEX form, where both are registers, change places."""
    def plant(insn):
        if insn.row.op in ops and insn.row.vector.startswith("vex") and insn.kinds == "VVV":
            second, first, target = insn.operands
            return [f"{insn.row.mnemonic} {first},{second},{target}"]
        return None
    return plant


def other_name(op, old, new):
    """Another mnemonic in place of one with these letters."""
    def plant(insn):
        name = insn.row.mnemonic
        if insn.row.op != op or old not in name or insn.row.detail == ("32",):
            return None
        return renamed(insn, name.replace(old, new))
    return plant


def other_control(op, change):
    """Another immediate for the same operation."""
    def plant(insn):
        if insn.row.op != op or not insn.operands or not insn.operands[0].startswith("$"):
            return None
        number = change(int(insn.operands[0][1:], 0), insn)
        return [f"{insn.row.mnemonic} {','.join([f'${number}'] + insn.operands[1:])}"]
    return plant


def sub_reversed(insn):
    """The negation of a difference."""
    if insn.row.op != "Sub" or insn.kinds not in ("RR", "IR"):
        return None
    return [insn.text(), f"neg{plain_name(insn)[1]} {insn.operands[1]}"]


def cmp_reversed(insn):
    """A comparison of its operands in the other order."""
    if insn.row.op != "Cmp" or insn.kinds != "RR":
        return None
    return [f"{insn.row.mnemonic} {insn.operands[1]},{insn.operands[0]}"]


def behind(ops, line, kinds=None):
    """One more instruction behind those of some operations, without a change of the values."""
    def plant(insn):
        return [insn.text(), line] if insn.row.op in ops and (kinds is None or insn.kinds in kinds) else None
    return plant


def legacy_clears_upper(insn):
    """A form without VEX that writes a vector clears the bits above."""
    if insn.row.vector != "sse" or not insn.operands[-1].startswith("%xmm"):
        return None
    low = insn.operands[-1]
    return [insn.text(), f"vmovdqa {low},{low}"]


def vex_keeps_upper(insn):
    """A form with VEX of 128 bits whose first source is its target keeps the bits above."""
    legacy = rows.BY_NAME.get((insn.row.mnemonic[1:], "sse"))
    if insn.row.vector != "vex128" or insn.kinds != "VVV" or insn.operands[1] != insn.operands[2] or not legacy:
        return None
    return [f"{legacy.mnemonic} {insn.operands[0]},{insn.operands[2]}"]


def increment_sets_carry(insn):
    """A sum or difference in place of one that keeps the carry."""
    if insn.row.op not in ("Inc", "Dec"):
        return None
    stem = "add" if insn.row.op == "Inc" else "sub"
    return [f"{stem}{plain_name(insn)[1]} $1,{insn.operands[0]}"]


def byte_write_clears(insn):
    """A byte that is widened by zeros in place of one that is copied."""
    if insn.row.op != "Mov" or insn.row.width != 8 or insn.kinds != "RR":
        return None
    wide = rows.mnemonic_cases.LONG[rows.mnemonic_cases.BYTE.index(insn.operands[1][1:])]
    return [f"movzbl {insn.operands[0]},%{wide}"]


def false_cmov_keeps(insn):
    """A move by a condition that doesn't hold leaves the upper half of a register of 32 bits."""
    if insn.row.op != "Cmov" or insn.row.width != 32:
        return None
    return [f"j{rows.condition(insn.row)} 1f", "jmp 2f", "1:", insn.text(), "2:"]


def push_new_pointer(insn):
    """A push of the stack pointer that stores its value after it."""
    if insn.row.op != "Push" or insn.operands != ["%rsp"]:
        return None
    return ["leaq -8(%rsp),%rsp", "movq %rsp,(%rsp)"]


def no_alignment(insn):
    """A load or store that must be aligned need not be."""
    if insn.row.op not in ("Movdqa", "Movaps") or "M" not in insn.kinds:
        return None
    return renamed(insn, ("v" if insn.row.vector != "sse" else "") + "movdqu")


def condition_not(old, new):
    """A condition is taken for another one in sets."""
    def plant(insn):
        if insn.row.op == "Set" and rows.condition(insn.row) == old:
            return [f"set{new} {insn.operands[0]}"]
        return None
    return plant


def shift_of_top(insn):
    """Arithmetic shifts of vectors by the width or more give 0."""
    if insn.row.op != "Psra" or int(insn.operands[0][1:], 0) < rows.LANES[insn.row.detail[0]]:
        return None
    return [f"{insn.row.mnemonic.replace('sra', 'srl')} {','.join(insn.operands)}"]


def masked_count(number, insn):
    """A count modulo the width of the lanes."""
    return number % rows.LANES[insn.row.detail[0]]


def reversed_fields(number, _):
    """The four fields of a control in the other order."""
    return sum((number >> (2 * k) & 3) << (6 - 2 * k) for k in range(4))


def widened_first(insn):
    """The immediate of a product is extended by zeros from 8 bits."""
    if insn.row.op != "Imul" or not insn.kinds.startswith("I"):
        return None
    number = int(insn.operands[0][1:], 0)
    if not -128 <= number < 0:
        return None
    return [f"{insn.row.mnemonic} {','.join([f'${number + 256}'] + insn.operands[1:])}"]


def low_address(insn):
    """An address is cut to 32 bits."""
    if insn.row.op != "Lea" or insn.row.width != 64 or insn.operands[1] == "%rsp":
        return None
    n = rows.mnemonic_cases.WIDE.index(insn.operands[1][1:])
    return [f"leal {insn.operands[0]},%{rows.mnemonic_cases.LONG[n]}"]


def low_mask(insn):
    """The mask of the low half."""
    if insn.row.op != "Pmovmskb" or insn.row.width != 256:
        return None
    return [f"vpmovmskb %xmm{insn.operands[0][4:]},{insn.operands[1]}"]


PLANTS = {
    "sub-reversed": ("`sub` takes the destination from the source", sub_reversed),
    "cmp-reversed": ("`cmp` compares the other way round", cmp_reversed),
    "logic-sets-carry": ("`and`, `or`, `xor`, `test` set the carry", behind(("And", "Or", "Xor", "Test"), "stc")),
    "inc-sets-carry": ("`inc` and `dec` set the carry", increment_sets_carry),
    "neg-no-borrow": ("`neg` leaves the carry 0", behind(("Neg",), "clc")),
    "shift-carry-lost": ("shifts leave the carry 0", behind(rows.COUNTED, "clc")),
    "not-sets-flags": ("`not` sets flags", behind(("Not",), "cmc")),
    "sar-as-shr": ("`sar` shifts zeros in", other_name("Sar", "sar", "shr")),
    "imul-byte-unsigned": ("`imul` extends a byte without its sign", widened_first),
    "movsx-as-movzx": ("`movsb*`, `movsw*` widen by zeros", other_name("Movsx", "movs", "movz")),
    "movzx-as-movsx": ("`movz*` widen by the sign", other_name("Movzx", "movz", "movs")),
    "cltq-zeros": ("`cltq` widens by zeros", lambda i: ["movl %eax,%eax"] if i.row.op == "Cltq" else None),
    "byte-write-clears": ("a write of 8 bits clears the bits above", byte_write_clears),
    "lea-low": ("`leaq` gives 32 bits of the address", low_address),
    "cmov-false-keeps": ("a `cmov` of 32 bits that is not done keeps the upper half", false_cmov_keeps),
    "setl-as-setle": ("`setl` is `setle`", condition_not("l", "le")),
    "seta-as-setae": ("`seta` is `setae`", condition_not("a", "ae")),
    "setp-as-setnp": ("`setp` is `setnp`", condition_not("p", "np")),
    "seto-as-sets": ("`seto` is `sets`", condition_not("o", "s")),
    "push-new-pointer": ("`pushq %rsp` stores the pointer after it", push_new_pointer),
    "no-alignment": ("`movdqa` and `movaps` need no alignment", no_alignment),
    SLOTS_PLANT: ("accesses one byte outside, or to memory that may not be written, go on", None),
    "legacy-clears-upper": ("a form without VEX clears bits 255 to 128", legacy_clears_upper),
    "vex-keeps-upper": ("a form with VEX of 128 bits keeps bits 255 to 128", vex_keeps_upper),
    "pandn-reversed": ("`pandn` inverts the other source", swapped_sources(("Pandn",))),
    "psub-reversed": ("`psub*` subtracts the other way round", swapped_sources(("Psub",))),
    "pcmpgt-reversed": ("`pcmpgt*` compares the other way round", swapped_sources(("Pcmpgt",))),
    "punpck-reversed": ("`punpck*` begins with the other source", swapped_sources(("Punpckl", "Punpckh"))),
    "pack-reversed": ("`pack*` begins with the other source", swapped_sources(("Packss", "Packuswb"))),
    "padds-wraps": ("`padds*` does not saturate", other_name("Padds", "padds", "padd")),
    "psubus-wraps": ("`psubus*` does not saturate", other_name("Psubus", "psubus", "psub")),
    "packus-signed": ("`packuswb` saturates with a sign", other_name("Packuswb", "packus", "packss")),
    "pmulh-unsigned": ("`pmulhw` multiplies without a sign", other_name("Pmulhw", "pmulhw", "pmulhuw")),
    "pmins-unsigned": ("`pmins*` compares without a sign", other_name("Pmins", "pminsd", "pminud")),
    "pmovsx-as-pmovzx": ("`pmovsx*` widens by zeros", other_name("Pmovsx", "pmovsx", "pmovzx")),
    "pshufd-reversed": ("the fields of `pshufd`'s control stand in reverse", other_control("Pshufd", reversed_fields)),
    "pshuflw-as-high": ("`pshuflw` moves the high words", other_name("Pshuflw", "pshuflw", "pshufhw")),
    "psll-masked": ("a count of `psll*` is taken modulo the width", other_control("Psll", masked_count)),
    "psra-to-zero": ("`psra*` by the width or more gives 0", shift_of_top),
    "pslldq-masked": ("a count of `pslldq` is taken modulo 16", other_control("Pslldq", lambda n, _: n % 16)),
    "perm2i128-no-zero": ("`vperm2i128` makes no zeros", other_control("Perm2i128", lambda n, _: n & 0x33)),
    "inserti128-other": ("`vinserti128` replaces the other half", other_control("Inserti128", lambda n, _: n ^ 1)),
    "pmovmskb-low": ("`vpmovmskb` of 256 bits takes the low half", low_mask),
}
