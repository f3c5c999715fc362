#!/usr/bin/env python3
"""Makes the cases of crates/certificate_cases/stdin, texts that are certificates or nearly so, and what must be printed of
them (stdout). The answers are those of tests/certificate_reader.py.

    tests/certificate_cases.py        # writes both files

A line `base TEXT` gives a text, and each line `ANSWER BEGIN END BYTES` behind it a case: the text with BYTES in place of its
bytes from BEGIN to END. ANSWER is ok, version, truncated, or the number of the wrong line. Fields are separated by
tabulators; in TEXT and BYTES `/` is a newline, `~` a carriage return, `%` a tabulator and `^` the byte 255.
"""
import collections
import pathlib
import random

from certificate_reader import I64, REGISTERS, U8, U32, U64, answer

CRATE = pathlib.Path(__file__).resolve().parent.parent / "crates/certificate_cases"

# one leaf for each of six duties, whose goal is the constant 1
STANDING = """align-certificate 1
nodes 3
node 0 0 0 1 1 0
node 1 - - 0 0 0
node 2 0 0 0 0 0
edges 2
edge 0 2
left 0
right 0
edge 2 2
left 1 0
right 2 0 1
duties 6
""" + 6 * "leaf 1\nr 0 1 1 2\n" + "end\n"

# lines of each kind, with atoms and steps of each kind
KINDS = """align-certificate 1
nodes 4
node 0 3 14 15 9 0
node 1 - - 2 6 1
inv ult 1 #0 l.y0.0
node 2 5 35 8 9 4
inv lin 64 0 7
inv lin 32 3 1 l.rax 2 r.r10 18446744073709551615 e.rdi 40
inv ule 8 l.r11 #12
inv slt 16 r.y15.255 e.rsp
node 3 79 3 23 84 1
inv sle 32 r.rbp l.r8
edges 2
edge 0 2
left 3 62 6 4
right 0
edge 2 1
left 1 33
right 2 8 32
duties 3
leaf 6
r 1 -2 30 0 4
r 0 5 6 7 8 9
e 10 11 2 12 13 14 -15
g 16 17 0
t 18 0
n 19 1 20 -21
split 0 1 3 apart off 3 off -128 1
q 22 23 25 1 26 27
leaf 0
split 2 3 1 off 0 0
leaf 1
r 0 1
leaf 0
leaf 0
end
"""

NONE = "align-certificate 1\nnodes 0\nedges 0\nduties 0\nend\n"


def deep(depth, sisters):
    """A certificate of one tree with so many splits above its last leaf, each with a second relation and leaf where asked."""
    text = NONE.replace("duties 0\n", "duties 1\n")
    split = f"split {{0}} {{0}} {'2 apart off 1' if sisters else '1 off -1'} 0\n" + ("leaf 0\n" if sisters else "")
    return text.replace("end\n", "".join(split.format(level) for level in range(depth)) + "leaf 0\nend\n")


class Cases:
    """The cases of each base, none of whose texts comes twice."""

    def __init__(self):
        self.lines, self.counts, self.seen = [], collections.Counter(), set()

    def base(self, text):
        self.text = text
        self.lines.append("base\t" + spelled(text))
        self.change(0, 0, "")

    def change(self, begin, end, change):
        """The base with this in place of its bytes from begin to end."""
        text = self.text[:begin] + change + self.text[end:]
        if text in self.seen:
            return
        self.seen.add(text)
        found, _ = answer(text)
        self.counts[found if found in ("ok", "version", "truncated") else "bad line"] += 1
        self.lines.append(f"{found}\t{begin}\t{end}\t{spelled(change)}")

    def cut(self):
        """The base cut behind each byte."""
        for length in range(len(self.text)):
            self.change(length, len(self.text), "")

    def replace(self, letters):
        """The base with each byte replaced by each of these."""
        for at in range(len(self.text)):
            for letter in letters:
                self.change(at, at + 1, letter)

    def numbers(self):
        """Each field of the base at the ends of its range, past them and spelled otherwise, also at the end of the text."""
        for begin, end, least, greatest in answer(self.text)[1]:
            old = self.text[begin:end]
            digits = old.removeprefix("-")
            ends = [str(number) for number in (greatest, greatest + 1, 10 * greatest, least, least - 1, U64, U64 + 1)]
            for value in ends + ["-0", "-" + digits, digits, "0" + digits, "+" + digits, digits + "0", "", "-", "0x1", "00",
                                 "1.0", " 1"]:
                self.change(begin, end, value)
                self.change(begin, len(self.text), value)
            self.change(begin, len(self.text), ends[0] + self.text[end])

    def line_changes(self):
        """Each line left out, doubled, exchanged with the next, with an end or a blank more."""
        lines = self.text.splitlines(keepends=True)
        begin = 0
        for line, behind in zip(lines, lines[1:] + [""]):
            end = begin + len(line)
            self.change(begin, end, "")
            self.change(begin, begin, line)
            self.change(begin, end + len(behind), behind + line)
            for change in ("\r\n", " \n", "\n\n", "", "\xff\n", "\n "):
                self.change(end - 1, end, change)
            for change in (" ", "\n", "\t", "end\n", line[0].upper()):
                self.change(begin, begin + (change == line[0].upper()), change)
            begin = end


def spelled(text):
    """The text as a field."""
    assert not set("/~%^") & set(text)
    return text.translate({10: "/", 13: "~", 9: "%", 255: "^"})


def versions(cases):
    """First lines, each with the rest of a certificate behind it and alone."""
    rest = STANDING.partition("\n")[2]
    first = len("align-certificate ")
    cases.base(STANDING)
    for number in ("0", "2", "9", "10", "11", "21", "4294967296", "1" + 30 * "0", str(U64), str(U64 + 1), "", "01", "001",
                   "-1", "-2", "+1", "1 ", " 1", "2 ", " 2", "1.0", "1\r", "2\r", "2x", "x", "one", "11\xff"):
        for behind in ("\n" + rest, "\n", ""):
            cases.change(first, len(STANDING), number + behind)
    for word in ("", "align", "align-certificate", "Align-certificate 1\n", "align-certificates 2\n", "align certificate 2\n",
                 "\n" + STANDING, " " + STANDING, "admit 1\n", "align-certificate\n", "align-certificate  2\n",
                 "align-certificate\t2\n"):
        cases.change(0, len(STANDING), word)
    for more in ("\n", " ", "end\n", "x", "\xff", STANDING):
        cases.change(len(STANDING), len(STANDING), more)


def names(cases):
    """Atoms of each register, and what is none, in the middle of a line and at its end."""
    text = NONE.replace("nodes 0\n", "nodes 1\nnode 0 0 0 0 0 1\ninv ult 64 l.rax r.rcx\n")
    atoms = [f"{side}.{name}" for side in "lre" for name in REGISTERS]
    atoms += ["l." + name for name in ("r", "ra", "raxx", "r1", "r16", "r100", "r0", "r7", "r08", "rip", "eax", "al", "RAX", "r8d",
                                       "r9w", "rb", "rs", "", "y", "y3", "y3.", "y.3", "y16.0", "y15.0", "y0.255", "y0.256",
                                       "y00.0", "y3.05", "y-1.0", "y3.5.1", "x3.5", "y3,5")]
    atoms += ["", "l", "r", "e", "lrax", "x.rax", "L.rax", "l .rax", "l. rax", "e.y0.0", "e.y3.5", "e.r1", "e.r10", "#5", "#",
              "##5", "#-1", "# 5", "#18446744073709551615", "#18446744073709551616", "#05", "5", "-", "l.rax l.rax"]
    cases.base(text)
    for atom in ("l.rax", "r.rcx"):
        begin = text.index(atom)
        for other in atoms:
            cases.change(begin, begin + len(atom), other)
            cases.change(begin, len(text), other)


def some(chance, greatest):
    """A number, often one of the ends of its range."""
    return chance.choice([0, 1, greatest, chance.randint(0, greatest), chance.randint(0, min(greatest, 99))])


def random_row(chance, read):
    things = [read() for _ in range(chance.choice([0, 1, 1, 2, 3]))]
    return " ".join(map(str, [len(things), *things])) + "\n"


def random_atom(chance):
    if chance.random() < 0.4:
        return f"{chance.choice('lr')}.y{chance.randint(0, 15)}.{some(chance, U8)}"
    return f"{chance.choice('lre')}.{chance.choice(REGISTERS)}"


def random_invariant(chance):
    width = some(chance, U32)
    if chance.random() < 0.5:
        bounds = [random_atom(chance) if chance.random() < 0.7 else f"#{some(chance, U64)}" for _ in range(2)]
        return f"inv {chance.choice(['ult', 'ule', 'slt', 'sle'])} {width} {bounds[0]} {bounds[1]}\n"
    terms = [f"{some(chance, U64)} {random_atom(chance)} " for _ in range(chance.randint(0, 3))]
    return f"inv lin {width} {len(terms)} {''.join(terms)}{some(chance, U64)}\n"


def random_steps(chance):
    def part():
        return f"{some(chance, U64)} {chance.choice([-1, 1]) * chance.randint(1, I64 - 1)}"

    def step():
        i, j, clause, kind = some(chance, U32), some(chance, U32), some(chance, U32), chance.choice("rregtnq")
        if kind == "r":
            lits = [f"{chance.choice(['', '-'])}{chance.randint(1, chance.choice([9, U32]))} " for _ in range(chance.randint(0, 4))]
            clauses = [str(some(chance, U32)) for _ in range(chance.choice([1, 3, 5]))]
            return f"r {''.join(lits)}0 {' '.join(clauses)}\n"
        if kind == "g":
            return f"g {i} {j} {clause}\n"
        front = {"e": f"e {i} {j} ", "q": f"q {i} {j} {some(chance, U64)} "}.get(kind, f"{kind} {i} ")
        return front + random_row(chance, part)

    steps = [step() for _ in range(chance.choice([0, 1, 1, 2, 4]))]
    return f"{len(steps)}\n" + "".join(steps)


def random_tree(chance, depth):
    if depth == 0 or chance.random() < 0.6:
        return "leaf " + random_steps(chance)
    relations = [chance.choice(["apart ", f"off {chance.randint(-128, 127)} "]) for _ in range(chance.randint(1, 3))]
    return f"split {some(chance, U32)} {some(chance, U32)} {len(relations)} {''.join(relations)}{random_steps(chance)}" \
        + "".join(random_tree(chance, depth - 1) for _ in relations)


def random_certificate(chance):
    lines = []
    nodes = chance.randint(0, 3)
    for number in range(nodes):
        places = "- -" if number == 1 else f"{some(chance, U32)} {some(chance, U32)}"
        invariants = [random_invariant(chance) for _ in range(chance.randint(0, 2))]
        lines.append(f"node {number} {places} {some(chance, U32)} {some(chance, U32)} {len(invariants)}\n" + "".join(invariants))
    edges = [f"edge {some(chance, U32)} {some(chance, U32)}\nleft " + random_row(chance, lambda: some(chance, U32))
             + "right " + random_row(chance, lambda: some(chance, U32)) for _ in range(chance.randint(0, 2))]
    trees = [random_tree(chance, 3) for _ in range(chance.randint(0, 2))]
    return f"align-certificate 1\nnodes {nodes}\n{''.join(lines)}edges {len(edges)}\n{''.join(edges)}" \
        f"duties {len(trees)}\n{''.join(trees)}end\n"


def random_cases(cases, seed):
    """Certificates of which each has to be read, and changes of a byte in each."""
    chance = random.Random(seed)
    for _ in range(150):
        text = random_certificate(chance)
        assert answer(text)[0] == "ok", text
        cases.base(text)
        for _ in range(6):
            begin = chance.randrange(len(text) - 2)
            change = chance.choice([chance.choice("0123456789 -\n.#lreyaxt"), "", text[begin:begin + 3]])
            cases.change(begin, begin + chance.choice([0, 1, 1, 2]), change)


def main():
    cases = Cases()
    versions(cases)
    cases.cut()
    cases.replace("0- \n")
    cases.line_changes()
    cases.base(KINDS)
    cases.cut()
    cases.replace("0- \n")
    cases.line_changes()
    cases.numbers()
    cases.base(NONE)
    cases.cut()
    cases.numbers()
    for depth in (15, 16, 17):
        for sisters in (False, True):
            cases.base(deep(depth, sisters))
            if not sisters:
                cases.cut()
    cases.base(KINDS.replace("\n", "\r\n"))
    names(cases)
    random_cases(cases, 25)
    counts = cases.counts
    (CRATE / "stdin").write_text("\n".join(cases.lines) + "\n")
    (CRATE / "stdout").write_text("".join(f"{name} {number}\n" for name, number in [
        ("ok", counts["ok"]), ("version", counts["version"]), ("truncated", counts["truncated"]),
        ("bad line", counts["bad line"]), ("wrong", 0)]))


if __name__ == "__main__":
    main()
