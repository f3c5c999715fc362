#!/usr/bin/env python3
"""Makes the vector part of the table of cases that the crate processor_cases compares with the instruction table.

It assembles every vector instruction with GNU as, runs it on this processor (which needs AVX2) on lanes at the edges, and
prints one case a line, numbers alone. The table was made by
   (python3 tests/processor_cases.py; python3 tests/vector_rows.py) >crates/processor_cases/stdin

A line is one of
   4 NUMBER W IMM A.. B.. R..     a row by lane, by its number in LANE_ROWS
   5 NUMBER W IMM A.. B.. R..     another row, by its number in OTHER_ROWS
with the width of the vectors, 128 or 256 bits, the immediate, and the first argument, the second one and the result as
four words of 64 bits, the lowest first. Rows with one argument have it as the second. At 128 bits the arguments have bytes
above too, which play no part, and the result has zeros there. The results at 128 bits are those of the VEX form, and
where the table has a legacy form, it is run too and must agree in its low half.
"""
import ctypes, os, random, subprocess, tempfile

L = {"b": 8, "w": 16, "d": 32, "q": 64}
LEGACY_ABSENT = {"pmulld", "pminsb", "pminsd", "pmaxsb", "pmaxsd", "pminuw", "pminud", "pmaxuw", "pmaxud", "pabsb", "pabsw",
                 "pabsd", "pshufb"}


def lane_rows():
    """Each row by lane: the mnemonic, the width of its lanes, and what stands behind it."""
    for stem, lanes in (("padd", "bwdq"), ("psub", "bwdq"), ("padds", "bw"), ("psubs", "bw"), ("paddus", "bw"), ("psubus", "bw")):
        for l in lanes:
            yield stem + l, L[l], "two"
    for name in ("pand", "pandn", "por", "pxor"):
        yield name, 64, "two"
    for stem, lanes in (("pcmpeq", "bwd"), ("pcmpgt", "bwd"), ("pmull", "wd")):
        for l in lanes:
            yield stem + l, L[l], "two"
    yield "pmulhw", 16, "two"
    yield "pmulhuw", 16, "two"
    yield "pmuludq", 64, "two"
    for stem, lanes in (("psll", "wdq"), ("psrl", "wdq"), ("psra", "wd")):
        for l in lanes:
            yield stem + l, L[l], "count"
    for stem in ("pmins", "pmaxs", "pminu", "pmaxu"):
        for l in "bwd":
            yield stem + l, L[l], "two"
    for l in "bw":
        yield "pavg" + l, L[l], "two"
    for l in "bwd":
        yield "pabs" + l, L[l], "one"


def other_rows():
    yield "pslldq", 8, "bytes"
    yield "psrldq", 8, "bytes"
    for half in "lh":
        for l, pair in zip("bwdq", ("bw", "wd", "dq", "qdq")):
            yield "punpck" + half + pair, L[l], "two"
    yield "pshufd", 32, "control"
    yield "pshuflw", 16, "control"
    yield "pshufhw", 16, "control"
    yield "packsswb", 16, "two"
    yield "packssdw", 32, "two"
    yield "packuswb", 16, "two"
    yield "movd", 32, "low"
    yield "movq", 64, "low"
    for name in ("movdqa", "movdqu", "movaps", "movups"):
        yield name, 8, "move"
    for l in "bwdq":
        yield "pbroadcast" + l, L[l], "narrow"
    yield "extracti128", 8, "extract"
    yield "inserti128", 8, "insert"
    yield "perm2i128", 8, "select"
    yield "permq", 64, "quads"
    for kind in "zs":
        for pair in ("bw", "bd", "wd", "dq"):
            yield "pmov" + kind + "x" + pair, L[pair[0]], "narrow"
    yield "pmaddwd", 16, "two"
    yield "psadbw", 8, "two"
    yield "pshufb", 8, "two"
    yield "pmovmskb", 8, "mask"


LANE_ROWS = list(lane_rows())
OTHER_ROWS = list(other_rows())
CONTROLS = [0xE4, 0x1B, 0x00, 0xFF, 0x4E, 0xB1, 0x93, 0x2D]
IMMEDIATES = {"bytes": [0, 1, 7, 8, 15, 16, 17, 255], "control": CONTROLS, "quads": CONTROLS, "extract": [0, 1, 2, 255],
              "insert": [0, 1, 2, 255], "select": [0x20, 0x31, 0x13, 0x02, 0x10, 0x01, 0x08, 0x80, 0x88, 0x33]}


def immediates(kind, w):
    return [0, 1, w // 2, w - 1, w, w + 1, 255] if kind == "count" else IMMEDIATES.get(kind, [0])


def forms(name, kind, width, imm):
    """The VEX form over %ymm0 (first), %ymm1 (second) into %ymm2, and the legacy one, if any, into %xmm0."""
    x, y = ("%xmm", "%xmm") if width == 128 else ("%ymm", "%ymm")
    legacy = None
    if kind == "two":
        vex = f"v{name} {x}1,{x}0,{x}2"
        legacy = f"{name} %xmm1,%xmm0"
    elif kind in ("count", "bytes"):
        vex = f"v{name} ${imm},{x}1,{x}2"
        legacy = f"movdqa %xmm1,%xmm0; {name} ${imm},%xmm0"
    elif kind == "control":
        vex = f"v{name} ${imm},{x}1,{x}2"
        legacy = f"{name} ${imm},%xmm1,%xmm0"
    elif kind == "quads":
        vex = f"v{name} ${imm},{x}1,{x}2"
    elif kind == "one":
        vex = f"v{name} {x}1,{x}2"
        legacy = f"{name} %xmm1,%xmm0"
    elif kind == "move":
        vex = f"v{name} {x}1,{x}2"
        legacy = f"{name} %xmm1,%xmm0"
    elif kind == "narrow":
        vex = f"v{name} %xmm1,{x}2"
    elif kind == "extract":
        vex = f"v{name} ${imm},%ymm1,%xmm2"
    elif kind in ("insert", "select"):
        second = "%xmm1" if kind == "insert" else "%ymm1"
        vex = f"v{name} ${imm},{second},%ymm0,%ymm2"
    elif kind == "low":
        r = "%eax" if name == "movd" else "%rax"
        vex = f"v{name} %xmm1,{r}; v{name} {r},%xmm2"
        legacy = f"{name} %xmm1,{r}; {name} {r},%xmm0"
    elif kind == "mask":
        vex = f"vpmovmskb {x}1,%eax; vmovd %eax,%xmm2"
        legacy = f"pmovmskb %xmm1,%eax; movd %eax,%xmm0"
    if name in LEGACY_ABSENT or width == 256:
        legacy = None
    return vex, legacy


def widths(name, kind):
    if kind in ("extract", "insert", "select", "quads"):
        return [256]
    return [128] if kind == "low" else [128, 256]


def of_lanes(w, lanes):
    """Four words of 64 bits of lanes of w bits, which are repeated."""
    whole = 0
    for i in range(256 // w):
        whole |= (lanes[i % len(lanes)] % (1 << w)) << (w * i)
    return whole


def edges(w):
    top = 1 << (w - 1)
    return [0, 1, top - 1, top, 2 * top - 1, top + 1, 2, 2 * top - 2, top // 2, 3 * (top // 2)]


def pairs(name, w, kind, count):
    """Pairs of arguments: lanes at the edges against one another, single bytes, and others."""
    draw = random.Random(name + str(w))
    e = edges(w)
    chosen = []
    for shift in range(count):
        if shift % 4 == 3:
            chosen.append((draw.getrandbits(256), draw.getrandbits(256)))
        else:
            a = of_lanes(w, e) if shift % 2 == 0 else of_lanes(w, e[3:] + [draw.getrandbits(w)])
            b = of_lanes(w, e[shift % len(e):] + e[:shift % len(e)] + [draw.getrandbits(w)])
            chosen.append((a, b))
    if name == "pshufb":
        a = sum((0xA0 + i & 255) << (8 * i) for i in range(32))
        for start in (0, 8, 112, 128, 240):
            chosen.append((a, sum((start + 37 * i) % 256 << (8 * i) for i in range(32))))
    if kind == "mask":
        chosen += [(0, (1 << 256) - 1), (0, 0x80 << 120 | 0x80), (0, 0x7F << 128), (0, of_lanes(8, [0x7F, 0x80]))]
    if kind != "two" and kind != "insert" and kind != "select":
        chosen = [(draw.getrandbits(256), b) for _, b in chosen]
    return chosen + [(0, 0)]


def assembled(texts):
    """Functions over (first, second, result), each 32 bytes."""
    lines = [".text"]
    for i, text in enumerate(texts):
        lines += [f".globl row_{i}", f"row_{i}:", "vmovdqu (%rdi),%ymm0", "vmovdqu (%rsi),%ymm1", "vpxor %ymm2,%ymm2,%ymm2"]
        lines += text.split("; ") + ["vmovdqu %ymm2,(%rdx)", "vzeroupper", "ret"]
    lines += ['.section .note.GNU-stack,"",@progbits']
    folder = tempfile.mkdtemp()
    source, thing, library = (os.path.join(folder, name) for name in ("rows.s", "rows.o", "rows.so"))
    with open(source, "w") as file:
        file.write("\n".join(lines) + "\n")
    subprocess.run(["as", "-o", thing, source], check=True)
    subprocess.run(["ld", "-shared", "-o", library, thing], check=True)
    return ctypes.CDLL(library)


def run(library, i, a, b):
    bytes_of = lambda n: ctypes.create_string_buffer(n.to_bytes(32, "little"), 32)
    first, second, result = bytes_of(a), bytes_of(b), bytes_of(0)
    library[f"row_{i}"](first, second, result)
    return int.from_bytes(result.raw, "little")


def words(n):
    return [n >> (64 * k) & (1 << 64) - 1 for k in range(4)]


def main():
    cases, texts = [], []
    for group, rows in ((4, LANE_ROWS), (5, OTHER_ROWS)):
        for number, (name, w, kind) in enumerate(rows):
            for width in widths(name, kind):
                imms = immediates(kind, w)
                for imm in imms:
                    vex, legacy = forms(name, kind, width, imm)
                    vex_at = len(texts)
                    texts.append(vex)
                    legacy_at = None
                    if legacy:
                        legacy_at = len(texts)
                        texts.append(legacy + "; vmovdqa %xmm0,%xmm2")
                    for a, b in pairs(name, w, kind, 9 if len(imms) == 1 else 1 if len(imms) > 4 else 2):
                        cases.append((group, number, width, imm, a, b, vex_at, legacy_at))
    library = assembled(texts)
    for group, number, width, imm, a, b, vex_at, legacy_at in cases:
        result = run(library, vex_at, a, b)
        if legacy_at is not None:
            assert run(library, legacy_at, a, b) == result, texts[legacy_at]
        print(group, number, width, imm, *words(a), *words(b), *words(result))


main()
