"""Random, mutated and odd inputs for `tests/hostile.py`: texts of functions, admissions, tests and arguments.

`Inputs.make(rng)` gives the arguments of one run and the files that they name. What it gives depends on `rng`
alone. Texts are drawn from the files of examples/, from those that are generated here, and from mutations of both.
"""
import glob
import json
import os
import re

ROOT = os.path.dirname(os.path.dirname(os.path.abspath(__file__)))
BOUNDARY = [0, 1, 2, 7, 8, 15, 16, 31, 32, 33, 63, 64, 65, 127, 128, 255, 256, 4095, 4096, 4097, 32767, 32768, 65535,
            65536, 65537, 2**31 - 1, 2**31, 2**32 - 1, 2**32, 2**62, 2**63 - 1, 2**63, 2**64 - 1, 2**64, 10**30]
REGS = {"b": "al cl dl bl spl bpl sil dil".split() + [f"r{n}b" for n in range(8, 16)],
        "w": "ax cx dx bx sp bp si di".split() + [f"r{n}w" for n in range(8, 16)],
        "l": "eax ecx edx ebx esp ebp esi edi".split() + [f"r{n}d" for n in range(8, 16)],
        "q": "rax rcx rdx rbx rsp rbp rsi rdi".split() + [f"r{n}" for n in range(8, 16)]}
QUADS = [name for name in REGS["q"] if name != "rsp"]
JUMPS = "jmp je jne jb jae jbe ja jl jge jle jg js jns jo jno jp jnp jz jnz jc".split()
ODD_LINES = [line.encode() for line in """
.long 5|.size f, .-f|.size f|.cfi_endproc|.L1:|f:|g:|.L1: .L2: ret|.L1 : ret|x : ret|f: g: ret|rep ret|rep movsb
rep  ret|rep|retq|ret %rax|nop 5|nopw|endbr64|addq $1,%ah|movb %ah,%al|addq $007,%rax|addq $-0,%rax
addq $0x,%rax|addq $-,%rax|addl $4294967295,%eax|addl $4294967296,%eax|addl $-2147483649,%eax|addb $256,%al
addw $-32769,%ax|addq $,%rax|addq ,%rax|movabsq $18446744073709551615,%rax|movabsq $18446744073709551616,%rax
shlq $0,%rax|shlq $64,%rax|shrb $8,%al|salq %rax|jmp .L1|jne .L9|jne .L9,%rax|jmp $5|jmp $foo|jmp *%rax|jmp f
call f|je|movq .LC0(%rip),%rax|movdqa .LC0+4(%rip),%xmm0|movq NAME-4(%rip),%rax|movq NAME+04(%rip),%rax
movq 8(%rip),%rax|movq (%rsp,%rsp),%rax|movq (,%rax,3),%rax|leaq (%rax,%rbx|movq 2147483648(%rax),%rcx
movq -2147483648(%rax),%rcx|movq (%eax),%rcx|movq (),%rax|movq ((((((%rax)))))),%rcx|movq 5,%rax
vpaddd %xmm0,%xmm1|paddd %ymm0,%ymm1|vpaddd %ymm0,%ymm1,%xmm2|pshufd $256,%xmm0,%xmm1|pshufd $-1,%xmm0,%xmm1
movdqa %xmm16,%xmm0|vpermq $216,%ymm0,%ymm3|vzeroupper|vmovd %rax,%xmm0|movq %rax,%xmm0|movd %xmm0,%eax
cmove %eax,%rbx|cmovne %al,%bl|sete %eax|imulq $3,%rax|imulq $3,%rax,%rbx|imulb $3,%al|mov %rax,%rbx
movzbl %al,%eax|movslq %eax,%rax|cltq|pushq %rbx|popq %rbx|popq %rsp|push $5|pushl %eax|lock addq $1,(%rax)
addq $1,%fs:(%rax)|# comment|	.p2align 4,,10|	.byte 0|	.string "a#b"|;ret|ret;ret
""".replace("\n", "|").split("|") if line]
ODD_ADMIT = [line.encode() for line in """
admit 1|admit 2|admit  1|live|live %rax|live %ah|live %xmm0 %ymm15|live %xmm16|live %rip|stack 8|stack 4096
stack 4104|stack 7|stack 0|region a %rdi 16 read|region a %rdi 16  write|region A %rdi 16 read
region abcdefghijklmnopq %rdi 16 read|region b %edi 16 read|region b %rdi 18446744073709551615 write
region b 0 0 read|region b 0-1 1 write|region b 2*%rdi+4*%rsi-8+1 0x10 read|region b
region b %rdi+%rdi+%rdi+%rdi+%rdi+%rdi+%rdi+%rdi 8 read
region b %rdi+%rdi+%rdi+%rdi+%rdi+%rdi+%rdi+%rdi+1 8 read|region b -1 8 read|require %rsi mod 4 = 0
require %rsi mod 4 = 4|require %rsi mod 3 = 0|require %rsi mod 8192 = 0|require %rsi s< 5|require %rsi == 5
require 1 = 1|require 1 != 1|require 0x|require 007 = 7|require 18446744073709551616 = 0|apart a a|apart a b
apart b a|apart a nothing|scratch %rdi 4|scratch 0-1 18446744073709551615|scratch|# comment| live %rax
live %rax |live	%rax|live %rax\r|LIVE|admit
""".replace("\n", "|").split("|") if line]
ODD_JSON = ["1e999", "-0", "5.0", "5e0", "18446744073709551616", "18446744073709551615", "0x10", "007", "+1", "NaN",
            "null", "true", "[]", "{}", '""', '"00"', '"0"', '"\\ud800"', '"\\u0000"', "1e-5", "1" * 30, "-1",
            '"' + "0" * 64 + '"', '"' + "f" * 63 + '"', '"' + "G" * 64 + '"', "[[[[]]]]", '{"a":1,"a":2}', "1.",
            ".5", "1e"]
ODD_WORDS = [b"", b"-", b"--", b"---", b"-a", b"--steps", b"--steps=", b"--steps=5", b"--steps=0", b"--steps=65536",
             b"--steps=65537", b"--steps=007", b"--steps=+5", b"--steps=0x5", b"--steps=-1", b"--steps=" + b"9" * 21,
             b"--steps=5=5", b"--step=5", b"--cert=a", b"--cert", b"--budget=5", b"--help", b"-h", b"--version", b"-V",
             b"--=", b"-5", b"5", b"0", b"\xff", b"a\xff", b"\xed\xa0\x80", b"\xef\xbb\xbf", b"f ", b" f", b"\n",
             b"a\nb", b"%s%n", b"*", b"help", b"sample", b"check", b"decide", b"run", b"show", b"chain", b"\x01",
             "é".encode(), b"x" * 5000, b"=", b"--=5"]
ODD_FILES = [b"missing", b"folder", b"folder/", b"l/", b"l/l", b".", b"..", b"/", b"/dev/null", b"loop", b"x" * 300,
             b"a/" * 2000 + b"b", b"./l", b"\xc3\xa9"]
ODD_NAMES = [b".L1", b".L3", b"main", b"F", b"ff", b"$", b"f:", b"f,", b"_", b".size", b"\xc3\xa9", b"f" * 4096, b"1",
             b"f g", b"%rax"]


class Inputs:
    """The texts to start from, and what is made of them."""

    def __init__(self):
        read = lambda pattern: [open(name, "rb").read() for name in sorted(glob.glob(f"{ROOT}/examples/*/{pattern}"))]
        self.functions, self.admissions, self.tests = read("*.s"), read("admission"), read("tests.json")
        self.lines = open(f"{ROOT}/crates/mnemonic_cases/stdin", "rb").read().split(b"\n")[:-1]
        self.tokens = sorted({token for text in self.functions + self.admissions + self.tests
                              for token in re.findall(rb"[%$.A-Za-z0-9_]+|[^\s]", text)})

    def make(self, rng):
        """The arguments of a run, and the files by their names."""
        command = rng.choice(["run"] * 9 + ["decide"] * 6 + ["show"] * 5)
        files = {b"l": self.function(rng, b"f")}
        name = b"f" if rng.random() < 0.95 else rng.choice(ODD_NAMES)
        if command == "decide":
            files[b"r"] = self.partner(rng, files[b"l"]) if rng.random() < 0.5 else self.function(rng, b"g")
            words = [b"decide", b"l", name, b"r", b"g"]
        elif command == "run":
            files[b"a"], files[b"t"] = self.admission(rng), self.test_file(rng)
            words = [b"run", b"l", name, b"a", b"t"]
            if files[b"t"].count(b"{") > 40:
                words += [b"--steps", b"1000"]  # many tests: a run's time is that of its steps
            elif rng.random() < 0.3:
                words.insert(rng.randrange(1, 6), b"--steps=%d" % rng.choice([1, 2, 5, 100, 20000, 30000]))
        else:
            words = [b"show", b"l", name]
        if rng.random() < 0.12:
            words = change_words(rng, words)
        if rng.random() < 0.0003:
            files[rng.choice(list(files))] = rng.choice([b"\n", b"\x00", b"#"]) * (16777216 + rng.randrange(2))
        return words, files

    def partner(self, rng, text):
        """A right function for a left one: the same in another order of its lines, or a mutation of it."""
        lines = text.replace(b"f:", b"g:").split(b"\n")
        place = rng.randrange(len(lines))
        if rng.random() < 0.6:
            lines[1:place] = rng.sample(lines[1:place], max(place - 1, 0))
            return b"\n".join(lines)
        return self.mutated(rng, b"\n".join(lines), ODD_LINES)

    def function(self, rng, name):
        """A text of a function: an example's, a plain one, a random one, or a mutation of these."""
        kind = rng.random()
        if kind < 0.3:
            text = rng.choice(self.functions)
            if rng.random() < 0.9:
                text = text.replace(b"f:", name + b":").replace(b"g:", name + b":")
        elif kind < 0.65:
            text = name + b":\n" + plain_body(rng)
        else:
            text = name + b":\n" + self.random_body(rng)
        return self.mutated(rng, text, ODD_LINES) if rng.random() < 0.45 else text

    def random_body(self, rng):
        """The body of a function of random instructions of the table, with jumps and loops."""
        labels = rng.randrange(4)
        lines = [self.instruction(rng, labels) for _ in range(rng.choice([0, 1, 2, 4, 8, 16, 30]))]
        for label in range(labels):
            lines.insert(rng.randrange(len(lines) + 1), b".L%d:" % label)
        if rng.random() < 0.3:
            lines = [b"movl $%d,%%ecx" % rng.choice([1, 2, 9, 1000]), b".L9:"] + lines + [b"decl %ecx", b"jne .L9"]
        return b"\n".join(lines + [b"ret", b""])

    def instruction(self, rng, labels):
        """A line of an instruction: one of the stored rows, or one over the registers of the tests."""
        kind = rng.random()
        if kind < 0.08 and labels:
            return f"{rng.choice(JUMPS)} .L{rng.randrange(labels)}".encode()
        if kind < 0.45:
            return rng.choice(self.lines)
        width = rng.choice("bwlq")
        places = ["(%rdi)", "(%rsi)", "(%rdi,%rcx,4)", "(%rsi,%rax)"]
        memory = rng.choice(["", "4", "8", "16", "-4", "1000"]) + rng.choice(places)
        registers = [f"%{rng.choice(REGS[width])}" for _ in range(2)]
        source = rng.choice([registers[0], registers[0], f"${rng.choice([0, 1, 5, 127, -1])}", memory])
        target = registers[1] if source == memory else rng.choice([registers[1], registers[1], memory])
        return f"{rng.choice('mov add sub cmp and or xor test'.split())}{width} {source},{target}".encode()

    def admission(self, rng):
        """A text of an admission: an example's, one that is generated, or a mutation of these."""
        text = rng.choice(self.admissions) if rng.random() < 0.35 else random_admission(rng)
        return self.mutated(rng, text, ODD_ADMIT) if rng.random() < 0.25 else text

    def test_file(self, rng):
        """A file of tests: an example's, one that is generated, or a mutation of these."""
        kind = rng.random()
        if kind < 0.3:
            text = rng.choice(self.tests)
        elif kind < 0.97:
            text = random_tests(rng)
        else:
            depth = rng.choice([1, 100, 125, 126, 127, 128, 129, 5000, 100000])
            opened, closed = rng.choice([("[", "]"), ('{"a":', "}"), ('{"tests":[', "]}")])
            middle = rng.choice(["", "1", '{"tests":[]}'])
            text = (opened * depth + middle + closed * rng.choice([depth, 0, depth - 1])).encode()
        return self.mutated(rng, text, [line.encode() for line in ODD_JSON]) if rng.random() < 0.25 else text

    def mutated(self, rng, text, odd):
        """A text with one to four mutations."""
        for _ in range(rng.choice([1, 1, 2, 4])):
            text = rng.choice(MUTATIONS)(self, rng, text, odd)
        return text[:300000]


def plain_body(rng):
    """The body of a plain function, or of one that is nearly plain."""
    lines = []
    for _ in range(rng.choice([0, 1, 2, 3, 5, 12])):
        source = f"%{rng.choice(QUADS)}" if rng.random() < 0.7 else f"${rng.choice([0, 1, -1, 5, 2**31 - 1, -2**31])}"
        target = rng.choice(["rax", "rax", rng.choice(QUADS)])
        lines.append(f"{rng.choice(['movq', 'addq', 'subq'])} {source},%{target}")
    return ("\n".join(lines + ["ret"]) + rng.choice(["\n", ""])).encode()


def expression(rng):
    """An expression of an admission."""
    small = str(rng.choice([0, 1, 4, 8, 16, 64, 4096, 8192]))
    count = rng.choice([1, 1, 1, 2, 3, 8])
    terms = [rng.choice(["%rdi", "%rsi", "4*%rsi", "%rdx", small, small]) for _ in range(count)]
    return "".join(term if not place else rng.choice("++-") + term for place, term in enumerate(terms))


def random_admission(rng):
    """An admission whose lines are those of the grammar, now and then one too many of a kind."""
    many = lambda usual, most: rng.choice(usual) if rng.random() < 0.97 else rng.choice([most, most + 1])
    lines, names = ["admit 1"], []
    for number in range(many([0, 1, 1, 2, 2, 3], 8)):
        names.append(f"n{number}")
        base = rng.choice(["%rdi", "%rsi", "%rdi+4096", expression(rng)])
        length = rng.choice(["4*%rsi", "64", "16", "4096", expression(rng)])
        lines.append(f"region n{number} {base} {length} {rng.choice(['read', 'write'])}")
    for _ in range(many([0, 0, 0, 1], 32)):
        relation = rng.choice("= != < <= s< s<=".split())
        lines.append(rng.choice([f"require {expression(rng)} {relation} {expression(rng)}",
                                 f"require {expression(rng)} mod {1 << rng.randrange(1, 13)} = {rng.randrange(2)}",
                                 "require %rsi < 4096"]))
    if len(names) > 1:
        lines += ["apart " + " ".join(rng.sample(names, 2)) for _ in range(many([0, 0, 0, 1], 28))]
    lines += [f"scratch {expression(rng)} {expression(rng)}" for _ in range(many([0, 0, 1], 4))]
    lines += [f"stack {rng.choice([0, 8, 64, 4096])}"] * rng.choice([0, 0, 1])
    outs = ["%rax", "%eax", "%al", "%cx", "%xmm0", "%ymm1", "%ymm15", "%r15d", "%dil", "%rcx"]
    lines.append(" ".join(["live"] + [rng.choice(outs) for _ in range(many([0, 1, 1, 2, 4], 16))]))
    return ("\n".join(lines) + rng.choice(["\n", ""])).encode()


def random_tests(rng):
    """A file of tests, most of them of the grammar and such that the regions have their bytes."""
    tests = []
    count = rng.choice([0, 1, 1, 2, 2, 3, 5]) if rng.random() < 0.97 else rng.choice([64, 65])
    for _ in range(count):
        test, rdi = {}, rng.choice([4096, 8192, 4100, rng.choice(BOUNDARY)])
        if rng.random() < 0.95:
            test["regs"] = {"rdi": rdi, "rsi": rng.choice([0, 1, 4, 8, 4096, rng.choice(BOUNDARY)])}
            if rng.random() < 0.3:
                test["regs"][rng.choice(REGS["q"])] = rng.choice(BOUNDARY)
        if rng.random() < 0.3:
            test["mem"] = [random_piece(rng, rdi) for _ in range(rng.choice([0, 1, 2]))]
        if rng.random() < 0.2:
            test["ymm"] = {str(rng.choice([0, 1, 15, 16])): "%064x" % rng.getrandbits(256)}
        tests.append(test)
    text = json.dumps({"tests": tests}, indent=rng.choice([None, None, 1]))
    return text.encode()


def random_piece(rng, rdi):
    """A piece of the memory of a test, now and then one of very many bytes."""
    if rng.random() < 0.02:
        return {"at": rng.choice([0, 4096]), "hex": "00" * rng.choice([40000, 65536, 65537])}
    return {"at": rdi + rng.choice([0, 0, 4, 12]), "hex": "%0*x" % (rng.choice([2, 8, 8, 32]), rng.randrange(256))}


def change_words(rng, words):
    """Arguments with some left out, doubled, exchanged or replaced, and odd ones put in."""
    words = list(words)
    for _ in range(rng.choice([1, 1, 2, 3])):
        place = rng.randrange(len(words) + 1)
        kind = rng.randrange(6)
        if kind == 0 and words:
            del words[min(place, len(words) - 1)]
        elif kind == 1 and words:
            words.insert(place, rng.choice(words))
        elif kind == 2:
            words.insert(place, rng.choice(ODD_WORDS))
        elif kind == 3 and words:
            words[min(place, len(words) - 1)] = rng.choice(ODD_WORDS)
        elif kind == 4 and len(words) > 1:
            words[rng.choice([place, 1]) % len(words)] = rng.choice(ODD_FILES)
        else:
            words[place:] = rng.choice([[], [b"--"] + words[place:], words[place:] + [b"--steps", b"9"]])
    return words


def flip(_, rng, text, odd):
    """One to eight bytes replaced."""
    changed = bytearray(text)
    for _ in range(rng.choice([1, 2, 8]) if changed else 0):
        byte = rng.choice([rng.randrange(256), 0, 10, 13, 32, 9] + [rng.randrange(32, 127) for _ in range(6)])
        changed[rng.randrange(len(changed))] = byte
    return bytes(changed)


def insert(_, rng, text, odd):
    """Odd bytes put in: no UTF-8, NULs, blanks, carriage returns, runs of one byte."""
    place = rng.randrange(len(text) + 1)
    run = bytes([rng.choice(b"a(,#%$-0 \t[{\"\\:.\x00")]) * rng.choice([1, 2, 1000, 4090, 4096, 4097, 20000])
    part = rng.choice([b"\xff", b"\xc3", b"\xed\xa0\x80", b"\xf4\x90\x80\x80", b"\x00", b"\r", b"\r\n", b"\t", b"  ",
                       b"\n\n", "é€😀".encode(), b"\xef\xbb\xbf", b"\x7f", run, run])
    return text[:place] + part + text[place:]


def edit_lines(_, rng, text, odd):
    """Lines left out, doubled or exchanged, or odd ones put in."""
    lines = text.split(b"\n")
    place, other, kind = rng.randrange(len(lines)), rng.randrange(len(lines)), rng.randrange(5)
    if kind == 0:
        del lines[place]
    elif kind == 1:
        lines.insert(other, lines[place])
    elif kind == 2:
        lines[place], lines[other] = lines[other], lines[place]
    else:
        lines.insert(place, rng.choice(odd))
    return b"\n".join(lines)


def repeat(_, rng, text, odd):
    """A line many times over, now and then more than a file may have."""
    lines = text.split(b"\n")
    place = rng.randrange(len(lines))
    count = rng.choice([2, 9, 33, 65]) if rng.random() < 0.9 else rng.choice([4095, 4096, 4097, 5000])
    return b"\n".join(lines[:place] + lines[place:place + 1] * count + lines[place + 1:])


def renumber(_, rng, text, odd):
    """A number replaced by one at a boundary."""
    found = list(re.finditer(rb"0x[0-9a-f]+|[0-9]+", text[:20000]))
    if not found:
        return text
    place, number = rng.choice(found), rng.choice(BOUNDARY)
    written = rng.choice([b"%d" % number, b"-%d" % number, b"0x%x" % number, b"0%d" % number,
                          b"9" * rng.choice([20, 400, 5000])])
    return text[:place.start()] + written + text[place.end():]


def exchange(inputs, rng, text, odd):
    """A token replaced by one of any file."""
    found = list(re.finditer(rb"[%$.A-Za-z0-9_]+|[^\s]", text[:20000]))
    if not found:
        return text
    place = rng.choice(found)
    return text[:place.start()] + rng.choice(inputs.tokens if rng.random() < 0.7 else odd) + text[place.end():]


def truncate(_, rng, text, odd):
    """The beginning of a text, or none of it."""
    return text[:rng.randrange(len(text) + 1)] if rng.random() < 0.8 else b""


def splice(inputs, rng, text, odd):
    """The beginning of a text and the end of another one, of any kind."""
    other = rng.choice(inputs.functions + inputs.admissions + inputs.tests)
    return text[:rng.randrange(len(text) + 1)] + other[rng.randrange(len(other) + 1):]


def noise(_, rng, text, odd):
    """Random bytes."""
    return rng.randbytes(rng.choice([1, 10, 100, 1000]))


MUTATIONS = [flip, insert, edit_lines, edit_lines, edit_lines, repeat, renumber, renumber, exchange, exchange,
             truncate, splice, noise]
