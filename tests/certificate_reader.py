"""A reader of certificates that was written from their form alone, and not from the proved one. It goes over a text byte by
byte, and says at which byte no certificate goes on.

`answer(text)` gives what a text has to be answered, and where its numbers stand.
"""

REGISTERS = "rax rcx rdx rbx rsp rbp rsi rdi r8 r9 r10 r11 r12 r13 r14 r15".split()
U8, U32, U64 = 2**8 - 1, 2**32 - 1, 2**64 - 1
I64 = 2**63


class Wrong(Exception):
    """No certificate goes on with the byte at the place."""


class Short(Exception):
    """The text ends, and is the front of a certificate."""


class Reader:
    """Goes over a text from its first byte on. `fields` collects the numbers: where each stands, its least and greatest."""

    def __init__(self, text):
        self.text, self.at, self.fields = text, 0, []

    def peek(self):
        if self.at == len(self.text):
            raise Short
        return self.text[self.at]

    def take(self, allowed):
        """One byte of these."""
        byte = self.peek()
        if byte not in allowed:
            raise Wrong
        self.at += 1
        return byte

    def word(self, word):
        for letter in word:
            self.take(letter)

    def one_of(self, words):
        """The word that stands here. Where it is none of them, the byte at which the last of them parts is wrong."""
        begun = self.at
        while True:
            seen = self.text[begun:self.at]
            if seen in words:
                return seen
            self.take({word[len(seen)] for word in words if word.startswith(seen)})

    def number(self, least, greatest, ends):
        """A number in this range, without leading zeros, and the byte behind it."""
        begun, sign, value = self.at, 1, None
        while True:
            byte = self.peek()
            if byte in ends and value is not None and least <= sign * value <= greatest:
                self.fields.append((begun, self.at, least, greatest))
                self.at += 1
                return sign * value, byte
            if byte == "-" and self.at == begun and least < 0:
                sign = -1
            elif byte in "0123456789" and (value is None or value > 0):
                value = 10 * (value or 0) + int(byte)
                # further digits only take a number away from 0
                if value == 0 and (sign < 0 or least > 0) or sign * value > greatest or sign < 0 and -value < least:
                    raise Wrong
            else:
                raise Wrong
            self.at += 1

    def count(self, ends, least=0):
        return self.number(least, U64, ends)[0]

    def row(self, read):
        """A count, and what is counted up to the end of the line."""
        left, end = self.number(0, U64, " \n")
        if (left == 0) != (end == "\n"):
            self.at -= 1
            raise Wrong
        while left:
            read("\n" if left == 1 else " ")
            left -= 1

    def place(self, end):
        self.number(0, U32, end)

    def certificate(self):
        self.word("align-certificate 1\nnodes ")
        for number in up_to(self.count("\n")):
            self.node(number)
        self.word("edges ")
        for _ in up_to(self.count("\n")):
            self.edge()
        self.word("duties ")
        for _ in up_to(self.count("\n")):
            self.tree(16)
        self.word("end\n")
        if self.at < len(self.text):
            raise Wrong

    def node(self, number):
        self.word(f"node {number} ")
        if number == 1:
            self.word("- - ")
        else:
            self.place(" "), self.place(" ")
        self.place(" "), self.place(" ")
        for _ in up_to(self.count("\n")):
            self.invariant()

    def invariant(self):
        self.word("inv ")
        kind = self.one_of(["lin ", "ult ", "ule ", "slt ", "sle "])
        self.place(" ")
        if kind == "lin ":
            for _ in up_to(self.count(" ")):
                self.number(0, U64, " ")
                self.atom(" ")
            self.number(0, U64, "\n")
        else:
            for end in " \n":
                if self.peek() == "#":
                    self.at += 1
                    self.number(0, U64, end)
                else:
                    self.atom(end)

    def atom(self, end):
        names = [name + end for name in REGISTERS]
        side = self.take("lre")
        self.take(".")
        if side != "e" and self.peek() == "y":
            self.at += 1
            self.number(0, 15, ".")
            self.number(0, U8, end)
        else:
            self.one_of(names)

    def edge(self):
        self.word("edge ")
        self.place(" "), self.place("\n")
        for side in ("left ", "right "):
            self.word(side)
            self.row(self.place)

    def tree(self, depth):
        """A tree with at most so many splits above a leaf."""
        if self.one_of(["leaf ", "split "] if depth else ["leaf "]) == "leaf ":
            self.steps()
            return
        self.place(" "), self.place(" ")
        kids = self.count(" ", least=1)
        for _ in up_to(kids):
            if self.one_of(["apart ", "off "]) == "off ":
                self.number(-128, 127, " ")
        self.steps()
        for _ in up_to(kids):
            self.tree(depth - 1)

    def steps(self):
        for _ in up_to(self.count("\n")):
            self.step()

    def part(self, end):
        self.number(0, U64, " ")
        self.number(-I64, I64 - 1, end)

    def step(self):
        kind = self.one_of([letter + " " for letter in "regtnq"])[0]
        if kind == "r":
            while self.number(-U32, U32, " ")[0]:
                pass
            while self.number(0, U32, " \n")[1] == " ":
                self.place(" ")
            return
        self.place(" ")
        if kind in "egq":
            self.place(" ")
        if kind == "g":
            self.place("\n")
            return
        if kind == "q":
            self.number(0, U64, " ")
        self.row(self.part)


def up_to(count):
    """So many turns, of any number of which the first few are gone through."""
    done = 0
    while done < count:
        yield done
        done += 1


def answer(text):
    """ok, version, truncated, or the number of the wrong line; and the fields that were read."""
    front, _, _ = text.partition("\n")
    if front.startswith("align-certificate "):
        number = front.removeprefix("align-certificate ")
        if number.isascii() and number.isdigit() and number != "1" and (number == "0" or number[0] != "0"):
            return "version", []
    reader = Reader(text)
    try:
        reader.certificate()
    except Short:
        return "truncated", reader.fields
    except Wrong:
        return str(1 + text.count("\n", 0, reader.at)), reader.fields
    return "ok", reader.fields
