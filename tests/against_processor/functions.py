"""Random functions over the rows of the instruction table: straight-line ones, with branches, and with counted loops.

A function knows its regions of memory and the ways to them: a way is a base, an index and a scale whose sum, with a
shift, is a region's address in every test. The registers of a way are not written while it is in use, so each access
lies where it was meant to: inside, mostly at an edge, or where the function is to fault, outside of one. Flags are
followed too, so that no instruction reads one that is not set, but for the functions that are to end there.
"""
from dataclasses import dataclass, field

import mnemonic_cases
import rows
from rows import ALL_FLAGS, CF, Row

WIDE = mnemonic_cases.WIDE
RSP = WIDE.index("rsp")
RETURNS = ("ret", "retq", "rep ret")


@dataclass
class Insn:
    """An instruction: its row, its operands as text, their kinds, and the class of its immediate."""
    row: Row
    operands: list
    kinds: str = ""
    number: str = ""
    name: str = ""

    def text(self):
        """The instruction as a line of the function."""
        name = self.name or self.row.mnemonic
        return f"{name} {','.join(self.operands)}" if self.operands else name


@dataclass
class Region:
    """A region: its length, its right, and where it lies in its slot (at its start, at its end or inside)."""
    length: int
    writable: bool
    anchor: str
    phase: int
    base: str = ""
    size: str = ""
    stack: bool = False


@dataclass
class Way:
    """How an instruction names a region's bytes: byte j is at base + scale*index + shift + j. In a loop of at most so
    many turns the base goes on by a step in each."""
    region: Region
    base: int | None
    index: int | None
    scale: int
    shift: int
    step: int = 0
    turns: int = 1


@dataclass
class Function:
    """A function with all that its tests need."""
    name: str
    items: list = field(default_factory=list)
    regions: list = field(default_factory=list)
    entry_ways: list = field(default_factory=list)
    counters: dict = field(default_factory=dict)
    sizes: dict = field(default_factory=dict)
    stack: int | None = None
    live: list = field(default_factory=list)
    expected: tuple | None = None
    steps: int | None = None

    def insns(self):
        """The instructions, in the order of their places."""
        return [item for item in self.items if isinstance(item, Insn)]

    def text(self):
        """The function's text, as both sides read it."""
        lines = [item.text() if isinstance(item, Insn) else item + ":" for item in self.items]
        return "\n".join([self.name + ":"] + lines) + "\n"

    def admission(self):
        """The admission under which it runs."""
        lines = ["admit 1"]
        for i, region in enumerate(self.regions):
            right = "write" if region.writable else "read"
            lines.append(f"region r{i} {region.base} {region.size} {right}")
        if self.stack is not None:
            lines.append(f"stack {self.stack}")
        return "\n".join(lines + [" ".join(["live"] + self.live)]) + "\n"


class Builder:
    """Makes one function by random draws."""

    def __init__(self, draw, name):
        self.draw = draw
        self.function = Function(name)
        self.flags = frozenset()
        self.held = set()           # registers that are not to be written: those of ways, and counters
        self.ways = []
        self.depth = 0              # bytes pushed
        self.deepest = 0
        self.inside = 0             # depth of arms and loops
        self.written = set()        # registers, and names of vectors
        self.labels = 0
        self.faults = draw.random() < 0.12
        self.computed = None        # a way, an index that was cut to a few bits, its scale and its greatest value

    # what every part needs

    def emit(self, item):
        """Appends an instruction or a label."""
        self.function.items.append(item)

    def label(self):
        """A new label of this function."""
        self.labels += 1
        return f".L{self.function.name[1:]}_{self.labels}"

    def chance(self, p):
        """Whether something of this probability is so."""
        return self.draw.random() < p

    def free(self):
        """The registers that may be written."""
        return [n for n in range(16) if n != RSP and n not in self.held]

    def hold(self, count):
        """Some more registers that are not to be written, as far as enough others are left."""
        free = [n for n in self.free() if n not in self.function.sizes]
        chosen = self.draw.sample(free, min(count, max(0, len(free) - 6)))
        self.held.update(chosen)
        return chosen

    # regions and ways

    def add_region(self):
        """A region with one or two ways to it."""
        draw = self.draw
        stack = self.chance(0.12) and not any(r.stack for r in self.function.regions)
        length = draw.choice((1, 2, 4, 8, 16, 24, 32, 33, 47, 48, 64, 64, 80, 96, 128, 160, 200))
        anchor = draw.choice(("start", "end", "end", "inner"))
        if stack:
            anchor, length = "end", length + -length % 8
        phase = {"start": 0, "end": -length % 32, "inner": draw.randrange(32)}[anchor]
        region = Region(length, stack or self.chance(0.65), anchor, phase, stack=stack)
        ways = [self.stack_way(region)] if stack else [self.new_way(region) for _ in range(draw.choice((1, 1, 2)))]
        ways = [way for way in ways if way]
        if ways:
            self.function.regions.append(region)
            self.ways += ways
            self.function.entry_ways += [Way(**vars(way)) for way in ways]
            region.base, region.size = self.base_text(ways[0]), self.size_text(length)

    def stack_way(self, region):
        """The way to a region above the return slot, by the stack pointer."""
        return Way(region, RSP, None, 1, self.draw.choice((8, 8, 16, 32)))

    def new_way(self, region):
        """A way by a base, by an index, or by both."""
        draw = self.draw
        kind = draw.choice(("base", "base", "both", "both", "index"))
        chosen = self.hold(2 if kind == "both" else 1)
        if not chosen:
            return None
        shift = draw.choice((0, 0, draw.randrange(-300, 300), draw.randrange(-(1 << 31) + 400, (1 << 31) - 400)))
        if kind == "index":
            return Way(region, None, chosen[0], 8, shift - (shift - region.phase) % 8)
        if kind == "both" and len(chosen) == 2:
            return Way(region, chosen[0], chosen[1], draw.choice((1, 2, 4, 8)), shift)
        return Way(region, chosen[0], None, 1, shift)

    def base_text(self, way):
        """The region's address as an admission's expression."""
        terms = []
        if way.base is not None:
            terms.append("%" + WIDE[way.base])
        if way.index is not None:
            terms.append(f"{way.scale}*%{WIDE[way.index]}" if way.scale > 1 else "%" + WIDE[way.index])
        sum_text = "+".join(terms)
        return f"{sum_text}{way.shift:+d}" if way.shift or self.chance(0.1) else sum_text

    def size_text(self, length):
        """The region's length, sometimes by a register that holds a part of it."""
        if self.chance(0.85):
            return str(length) if self.chance(0.7) else hex(length)
        factor = self.draw.choice([k for k in (1, 2, 4, 8) if length % k == 0])
        free = [n for n in self.free() if n not in self.function.sizes]
        register = self.draw.choice(free)
        self.function.sizes[register] = length // factor
        return f"{factor}*%{WIDE[register]}"

    def release(self):
        """Gives up a way, whose registers may then be written."""
        way = self.draw.choice(self.ways)
        self.drop(way)

    def drop(self, way):
        """Ends the use of a way: its registers may be written again."""
        self.ways.remove(way)
        used = {n for other in self.ways for n in (other.base, other.index)}
        self.held -= {n for n in (way.base, way.index) if n is not None and n not in used}

    # operands

    def register_text(self, bits, role):
        """A general register; one that is written is a free one."""
        n = self.draw.choice(self.free() if "w" in role else range(16))
        if "w" in role:
            self.written.add(n)
        return "%" + mnemonic_cases.NAMES[bits][n]

    def vector_text(self, bits, role):
        """A vector register."""
        n = self.draw.randrange(16)
        if "w" in role:
            self.written.add(f"v{n}")
        return f"%{'xmm' if bits == 128 else 'ymm'}{n}"

    def number_text(self, value):
        """A number in decimal digits, or sometimes in others of either case."""
        if self.chance(0.8):
            return f"${value}"
        digits = f"{abs(value):x}" if self.chance(0.5) else f"{abs(value):X}"
        return f"${'-' if value < 0 else ''}0x{digits}"

    def address_text(self, base, index, scale, disp):
        """A memory operand of these parts."""
        inner = "%" + WIDE[base] if base is not None else ""
        if index is not None:
            inner += f",%{WIDE[index]}"
            if scale > 1 or base is None or self.chance(0.5):
                inner += f",{scale}"
        if disp == 0 and self.chance(0.8):
            return f"({inner})"
        sign = "-" if disp < 0 else ""
        return (f"{sign}{abs(disp):#x}" if self.chance(0.1) else str(disp)) + f"({inner})"

    def any_address(self):
        """An address that is made and not used."""
        base = self.draw.choice([None] + list(range(16)) * 2)
        index = self.draw.choice([None] + [n for n in range(16) if n != RSP])
        if base is None and index is None:
            base = RSP
        disp = self.draw.choice((0, 1, -1, 127, 128, -128, -129, (1 << 31) - 1, -(1 << 31),
                                 self.draw.randrange(-(1 << 31), 1 << 31)))
        return self.address_text(base, index, self.draw.choice((1, 2, 4, 8)), disp)

    def offsets(self, way, size, align):
        """The offsets at which an access of this size and alignment lies inside the region in each turn of a loop."""
        if way.step % align:
            return []
        last = way.region.length - size - way.step * (way.turns - 1)
        return [j for j in range(last + 1) if (way.region.phase + j) % align == 0]

    def computed_text(self, slot):
        """An operand whose index was computed, inside a region for each value of it; None where there is none."""
        way, index, scale, greatest = self.computed
        last = way.region.length - slot.bits // 8 - scale * greatest
        if last < 0 or slot.align > 1 or ("w" in slot.role and not way.region.writable):
            return None
        disp = way.shift + self.draw.choice((0, last)) + (self.depth if way.base == RSP else 0)
        return self.address_text(way.base, index, scale, disp)

    def memory_text(self, slot):
        """An operand in memory that lies inside a region, or None where no way leads to one."""
        if self.computed:
            return self.computed_text(slot)
        size, found = slot.bits // 8, []
        for way in self.ways:
            if "w" not in slot.role or way.region.writable:
                offsets = self.offsets(way, size, slot.align)
                if offsets:
                    found.append((way, self.draw.choice((offsets[0], offsets[-1], self.draw.choice(offsets)))))
        if not found:
            return None
        way, offset = self.draw.choice(found)
        return self.at(way, offset)

    def at(self, way, offset):
        """The operand of a region's byte."""
        disp = way.shift + offset + (self.depth if way.base == RSP else 0)
        return self.address_text(way.base, way.index, way.scale, disp)

    def outside_text(self, slot):
        """An operand whose access faults, on a processor too: one byte or more outside at an edge behind which nothing
        is, into a region to be read, or without alignment. None where there is no such."""
        size, found = slot.bits // 8, []
        for way in self.ways:
            region = way.region
            if way.step:
                continue
            if region.anchor == "start":
                found += [(way, -1), (way, self.draw.randrange(-size, 0))]
            if region.anchor == "end":
                last = region.length - size
                found += [(way, last + 1), (way, self.draw.randrange(last + 1, region.length + 1))]
            inside = [j for j in range(region.length - size + 1) if (region.phase + j) % slot.align]
            if slot.align > 1 and inside:
                found += [(way, self.draw.choice(inside))] * 3
            if "w" in slot.role and not region.writable and region.length >= size:
                found += [(way, self.draw.randrange(region.length - size + 1))] * 2
        return self.at(*self.draw.choice(found)) if found else None

    def place_text(self, slot):
        """The text of an operand in memory."""
        if self.faults and self.chance(0.3 if slot.align == 1 else 0.7):
            text = self.outside_text(slot)
            if text:
                return text
        return self.memory_text(slot)

    # instructions

    def insn(self, row, form):
        """The instruction of a row with a form's operands, or None where memory has no way."""
        texts, kinds, number, count = [], "", "", None
        for slot in form:
            kinds += {"reg": "R", "mem": "M", "imm": "I", "vec": "V", "addr": "A"}[slot.kind]
            if slot.kind == "mem":
                text = self.place_text(slot)
                if text is None:
                    return None
            elif slot.kind == "imm":
                number, count = rows.NUMBERS[slot.numbers](self.draw, slot.bits)
                text = self.number_text(count)
            elif slot.kind == "addr":
                text = self.any_address()
            else:
                text = (self.register_text if slot.kind == "reg" else self.vector_text)(slot.bits, slot.role)
            texts.append(text)
        self.flags = rows.flags_after(row, 1 if count is None else count, self.flags)
        return Insn(row, texts, kinds, number)

    def try_row(self, row):
        """Emits an instruction of this row, behind one that sets the flags that it reads. False where it cannot be."""
        if row.op == "Cltq" and 0 in self.held:
            return False
        self.set_flags(rows.reads(row))
        insn = self.insn(row, self.draw.choice(row.forms))
        if insn is None:
            return False
        if row.op == "Cltq":
            self.written.add(0)
        if row.op == "Vzeroupper":
            self.written.update(f"v{n}" for n in self.draw.sample(range(16), 3))
        self.emit(insn)
        return True

    def set_flags(self, wanted):
        """Emits an instruction that sets these flags, where one is not set."""
        while not wanted <= self.flags:
            ops = ["Cmp", "Cmp", "Test", "Add", "Sub", "And", "Or", "Xor", "Neg", "Shl", "Shr", "Sar"]
            ops += [] if CF in wanted else ["Inc", "Dec"]
            op = self.draw.choice(ops)
            self.try_row(self.draw.choice([row for row in rows.PLAIN if row.op == op]))

    def stack_move(self):
        """Pushes or pops a register, or moves the stack pointer back over what was pushed."""
        if self.depth and self.chance(0.55):
            self.pop()
        elif self.depth < 4096 - 8:
            self.push()

    def push(self):
        """Pushes any register."""
        n = self.draw.randrange(16)
        self.emit(Insn(rows.BY_NAME["pushq", "64"], ["%" + WIDE[n]], "R"))
        self.depth += 8
        self.deepest = max(self.deepest, self.depth)

    def pop(self):
        """Pops a free register, or moves the stack pointer back over what was pushed."""
        if self.chance(0.2):
            back = 8 * self.draw.randrange(1, self.depth // 8 + 1)
            if self.chance(0.5):
                self.emit(Insn(rows.BY_NAME["addq", "64"], [f"${back}", "%rsp"], "IR", "byte"))
                self.flags = ALL_FLAGS
            else:
                self.emit(Insn(rows.BY_NAME["leaq", "64"], [f"{back}(%rsp)", "%rsp"], "AR"))
            self.depth -= back
            return
        n = self.draw.choice(self.free())
        self.written.add(n)
        self.emit(Insn(rows.BY_NAME["popq", "64"], ["%" + WIDE[n]], "R"))
        self.depth -= 8

    def push_and_pop_pointer(self):
        """Pushes the stack pointer and pops it: what is pushed is its value before, and what is popped stays."""
        self.push()
        self.function.items[-1].operands = ["%rsp"]
        self.emit(Insn(rows.BY_NAME["popq", "64"], ["%rsp"], "R"))
        self.depth -= 8

    def compute_index(self):
        """Cuts a register to a few bits, and then uses it as an index."""
        fit = [way for way in self.ways if way.index is None and not way.step and way.region.length >= 16]
        if not fit:
            return
        bits, greatest, index = self.draw.choice((32, 64)), self.draw.choice((1, 3, 7)), self.draw.choice(self.free())
        row = rows.BY_NAME["and" + mnemonic_cases.LETTER[bits], str(bits)]
        self.emit(Insn(row, [f"${greatest}", "%" + mnemonic_cases.NAMES[bits][index]], "IR", "byte"))
        self.flags = ALL_FLAGS
        self.written.add(index)
        self.held.add(index)
        self.computed = (self.draw.choice(fit), index, self.draw.choice((1, 2, 4, 8)), greatest)
        for _ in range(3):
            self.try_row(self.draw.choice(rows.IN_MEMORY))
        self.computed = None
        self.held.discard(index)

    def step(self):
        """One more instruction, with those that it needs before it."""
        kind = self.draw.random()
        if kind < 0.05 and not self.inside:
            self.stack_move()
        elif kind < 0.06:
            self.push_and_pop_pointer()
        elif kind < 0.10 and not self.inside and self.ways:
            self.release()
        elif kind < 0.13:
            self.compute_index()
        else:
            while not self.try_row(self.some_row()):
                pass

    def some_row(self):
        """Any row; where the function may fault, more often one whose operand in memory must be aligned."""
        return self.draw.choice(rows.ALIGNED if self.faults and self.chance(0.1) else rows.DRAWN)

    def block(self, least, most):
        """Some steps."""
        for _ in range(self.draw.randrange(least, most + 1)):
            self.step()

    # branches and loops

    def jump(self, target, row=None):
        """Jumps to a label, by a condition whose flags are set, or always."""
        row = row or rows.BY_NAME["jmp", "64"]
        self.emit(Insn(row, [target], "L"))

    def jump_row(self):
        """A jump by a condition, behind an instruction that sets the flags it reads where they are not set."""
        row = self.draw.choice(rows.JUMPS)
        self.set_flags(rows.reads(row))
        return row

    def arm(self, least, most):
        """A block that may be skipped."""
        self.inside += 1
        self.block(least, most)
        if self.inside < 3 and self.chance(0.2):
            self.branch()
        self.inside -= 1

    def branch(self):
        """A forward branch: past an arm, to one of two, to the next instruction, or past an early return."""
        kinds = ["past", "past", "two", "two", "next", "always"] + ([] if self.depth else ["return"])
        kind = self.draw.choice(kinds)
        row = self.jump_row() if kind != "always" else None
        first, before = self.label(), self.flags
        self.jump(first, row)
        if kind in ("past", "always", "two"):
            self.arm(1, 3)
        if kind == "return":
            self.arm(0, 2)
            self.emit(Insn(rows.BY_NAME["ret", "64"], []))
        if kind == "two":
            last, after = self.label(), self.flags
            self.jump(last)
            self.emit(first)
            self.flags = before
            self.arm(1, 3)
            self.emit(last)
            self.flags &= after
            return
        self.emit(first)
        self.flags = before if kind in ("return", "always") else before & self.flags

    def moving_way(self, turns):
        """A way whose base goes on in a loop, if one leads to a region that is long enough."""
        fit = [way for way in self.ways if way.base not in (None, RSP) and way.region.length >= 8 * turns]
        if not fit or self.chance(0.3):
            return None
        way = self.draw.choice(fit)
        way.step = self.draw.choice([k for k in (1, 2, 4, 8, 16, 32) if k * turns <= way.region.length])
        way.turns = turns
        return way

    def loop(self):
        """A loop of at most 6 turns, counted down to 0 or up to a limit; its count is an immediate or a test's."""
        held = self.hold(1)
        if not held:
            return
        counter, bits, turns = held[0], self.draw.choice((8, 16, 32, 64)), self.draw.randrange(1, 7)
        name, letter = "%" + mnemonic_cases.NAMES[bits][counter], mnemonic_cases.LETTER[bits]
        down = self.start_counter(counter, bits, turns)
        way = self.moving_way(turns)
        head = self.label()
        self.emit(head)
        self.flags = frozenset()
        self.inside += 1
        self.block(1, 4)
        if self.chance(0.25):
            self.branch()
        self.inside -= 1
        if way:
            self.go_on(way)
        self.turn(name, letter, bits, turns, down)
        self.jump(head, self.draw.choice(self.loop_jumps(down)))
        self.held.discard(counter)
        self.written.add(counter)

    def start_counter(self, counter, bits, turns):
        """Gives a loop's counter its start; says whether it is counted down."""
        taken = {n for way in self.function.entry_ways for n in (way.base, way.index)} | set(self.function.counters)
        if counter not in self.written | taken and self.chance(0.5):
            self.function.counters[counter] = (bits, turns)
            return True
        down = self.chance(0.5)
        letter, name = mnemonic_cases.LETTER[bits], "%" + mnemonic_cases.NAMES[bits][counter]
        row = rows.BY_NAME["mov" + letter, str(bits)]
        self.emit(Insn(row, [f"${turns if down else 0}", name], "IR", "byte"))
        return down

    def go_on(self, way):
        """Moves a way's base on by its step, after which the way is given up."""
        base = "%" + WIDE[way.base]
        if self.chance(0.5):
            self.emit(Insn(rows.BY_NAME["addq", "64"], [f"${way.step}", base], "IR", "byte"))
        else:
            self.emit(Insn(rows.BY_NAME["leaq", "64"], [f"{way.step}({base})", base], "AR"))
        self.written.add(way.base)
        self.drop(way)

    def turn(self, name, letter, bits, turns, down):
        """Counts a turn, and sets the flags by which the loop goes on."""
        stems = [("dec", None), ("sub", 1), ("add", -1)] if down else [("inc", None), ("add", 1), ("sub", -1)]
        stem, number = self.draw.choice(stems)
        self.count(stem + letter, bits, number, name)
        if not down:
            self.count("cmp" + letter, bits, turns, name)

    def count(self, mnemonic, bits, number, name):
        """Emits an instruction on a counter, with an immediate or without."""
        row = rows.BY_NAME[mnemonic, str(bits)]
        operands = [name] if number is None else [f"${number}", name]
        self.emit(Insn(row, operands, "IR" if number else "R", "byte" if number else ""))
        self.flags = rows.flags_after(row, 1, self.flags)

    def loop_jumps(self, down):
        """The jumps by which a loop goes on while its counter is not 0, or is below its limit."""
        names = ("ne", "g") if down else ("ne", "l", "b")
        return [row for row in rows.JUMPS if rows.condition(row) in names]

    # endings

    def end(self):
        """Pops what was pushed, and returns."""
        while self.depth:
            self.pop()
        if self.chance(0.3):
            for name in self.draw.sample(("setc", "setz", "sets", "seto", "setp"), 3):
                row = rows.BY_NAME[name, "8"]
                if rows.reads(row) <= self.flags:
                    self.try_row(row)
        self.emit_return()

    def emit_return(self):
        """A return, by one of its three names."""
        name = self.draw.choice(RETURNS)
        row = rows.BY_NAME["retq" if name == "retq" else "ret", "64"]
        self.emit(Insn(row, [], name=name))

    def end_unset(self):
        """Ends where a flag is read that is not set."""
        if not self.flags < ALL_FLAGS:
            op = self.draw.choice(("Imul", "Shl", "Shr", "Sar"))
            while self.flags == ALL_FLAGS:
                self.try_row(self.draw.choice([row for row in rows.PLAIN if row.op == op]))
        readers = [row for row in rows.ROWS if rows.reads(row) - self.flags]
        row = self.draw.choice(readers)
        self.function.expected = ("unset", len(self.function.insns()) + 1)
        if row.op == "Jump":
            target = self.label()
            self.jump(target, row)
            self.emit(target)
        else:
            form = self.draw.choice([form for form in row.forms if form[0].kind == "reg"])
            self.emit(self.insn(row, form))
        self.emit_return()

    def end_stack_fault(self):
        """Ends at an access to the stack, a push or a pop that is not allowed, or a return with another pointer."""
        kind = self.draw.choice(("read", "write", "push", "pop", "return", "return"))
        register = "%" + WIDE[self.draw.choice(self.free())]
        if kind in ("read", "write"):
            disp = self.draw.randrange(-self.deepest - 16, self.depth + 8)
            operands = [self.address_text(RSP, None, 1, disp), register]
            self.emit(Insn(rows.BY_NAME["movq", "64"], operands if kind == "read" else operands[::-1]))
        elif kind == "push":
            while self.depth < self.deepest:
                self.push()
            self.emit(Insn(rows.BY_NAME["pushq", "64"], [register]))
        elif kind == "pop":
            while self.depth:
                self.pop()
            self.emit(Insn(rows.BY_NAME["popq", "64"], [register]))
        else:
            back = self.draw.choice([k for k in (-8, 8, 16, -1, 1, 64, 1 << 30) if k != self.depth])
            self.emit(Insn(rows.BY_NAME["leaq", "64"], [f"{back}(%rsp)", "%rsp"]))
        if kind == "return":
            self.emit_return()
        self.function.expected = ("faulted", len(self.function.insns()))
        self.emit_return()

    def choose_live(self):
        """The outputs: what was written, then others, 16 at most, mostly as wide as they are."""
        draw = self.draw
        names = sorted(self.written, key=str)
        draw.shuffle(names)
        others = [n for n in list(range(16)) + [f"v{n}" for n in range(16)] if n not in self.written]
        draw.shuffle(others)
        chosen = (names + others[:draw.choice((0, 2, 16, 16))])[:16]
        draw.shuffle(chosen)
        self.function.live = [self.output_name(n) for n in chosen]

    def output_name(self, n):
        """The name of a register or a vector as an output, mostly as wide as it is."""
        if isinstance(n, int):
            return "%" + mnemonic_cases.NAMES[self.draw.choice((8, 16, 32, 64, 64, 64, 64, 64))][n]
        return f"%{self.draw.choice(('xmm', 'ymm', 'ymm', 'ymm'))}{n[1:]}"

    def finish(self, exact_stack):
        """The stack line, the outputs and the limit of steps."""
        slack = 0 if exact_stack else self.draw.choice((0, 0, 8, 64))
        if self.deepest or slack or self.chance(0.1):
            self.function.stack = self.deepest + slack
        self.choose_live()
        if not exact_stack and self.chance(0.03):
            self.function.steps = self.draw.randrange(1, len(self.function.insns()) + 3)
        return self.function


def special_function(builder, end):
    """A straight-line function that ends before its return."""
    builder.faults = False
    builder.block(0, 6)
    end()
    return builder.finish(True)


def make_function(draw, name):
    """A random function of the subset, with its admission."""
    builder = Builder(draw, name)
    for _ in range(draw.choice((0, 1, 1, 2, 2, 3))):
        builder.add_region()
    shape = draw.random()
    if shape < 0.02:
        return special_function(builder, builder.end_unset)
    if shape < 0.04:
        return special_function(builder, builder.end_stack_fault)
    builder.block(1, 8)
    if shape > 0.6:
        for _ in range(draw.choice((1, 1, 2))):
            builder.loop() if shape > 0.85 else builder.branch()
            builder.block(0, 4)
    else:
        builder.block(2, 8)
    builder.end()
    return builder.finish(False)
