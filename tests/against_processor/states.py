"""Test states of functions: as JSON for the program, as jobs for the native driver; and the report of its results."""
import json
import struct
from dataclasses import dataclass, field

import mnemonic_cases
from functions import RSP, WIDE

M64 = (1 << 64) - 1
SLOT = 0x2000
# where regions lie in a processor's memory: those that may be written, those that may not, and those of stacks
WRITABLE = (0x20000000, 0x7FFFE000, 0xFFFFE000, 0x123456788000, 0x7E0000000000)
READABLE = (0x30000000, 0xFEDCB000, 0x4A5A5A5A4000)
STACKS = (0x6FFFFE000, 0x40000000)
FLAG_BITS = (0, 2, 6, 7, 11)
EDGES = (0, 1, 2, 3, M64, M64 - 1, 1 << 63, (1 << 63) - 1, 0x7FFFFFFF, 0x80000000, 0xFFFFFFFF, 0x100000000, 0x7F, 0x80,
         0xFF, 0x100, 0x7FFF, 0x8000, 0xFFFF, 0x10000, 0xFFFFFFFF80000000, 0xFFFFFFFFFFFF8000, 0xFFFFFFFFFFFFFF80)


@dataclass
class Piece:
    """Bytes of memory at an address of a test's start."""
    at: int
    data: bytes


@dataclass
class State:
    """A test: what its file names, the whole start state, and the flags from which the native run starts."""
    named_regs: dict
    named_vecs: dict
    regs: list
    vecs: list
    regions: list
    stack: Piece
    pieces: list
    flags: int = 0


@dataclass
class Result:
    """How a native run ended."""
    signal: int
    steps: int
    regs: list
    vecs: list
    pieces: list
    begun: list = field(default_factory=list)


def default_reg(n, k):
    """A register that a test does not name."""
    return (2**40 * (n + 1) + 2**20 * k * (2 * n + 1)) & M64


def default_vec(n, k):
    """A vector that a test does not name."""
    return bytes((13 * n + 7 * i + 29 * k) % 256 for i in range(32))


def random_word(draw):
    """A word at an edge, or any."""
    kind = draw.random()
    if kind < 0.55:
        return draw.choice(EDGES)
    return draw.getrandbits(64) if kind < 0.8 else draw.getrandbits(draw.choice((3, 8, 16, 32)))


def random_bytes(draw, count):
    """Bytes: any, all the same, or lanes at their edges."""
    kind = draw.random()
    if kind < 0.4:
        return draw.randbytes(count)
    if kind < 0.5:
        return bytes([draw.choice((0, 0, 255, 128, 127, 1))]) * count
    w = draw.choice((8, 16, 32, 64))
    top = 1 << (w - 1)
    lanes = (0, 1, top - 1, top, 2 * top - 1, top + 1, 2, draw.getrandbits(w))
    data = b"".join(draw.choice(lanes).to_bytes(w // 8, "little") for _ in range(count * 8 // w + 1))
    return data[:count]


def region_address(draw, region, slot):
    """Where a region lies in a slot."""
    if region.anchor == "start":
        return slot
    if region.anchor == "end":
        return slot + SLOT - region.length
    return slot + 0x1000 + 32 * draw.randrange(8) + region.phase


def stack_pointer(draw, function, addresses):
    """The stack pointer, and the address of the region above it, if there is one."""
    slot = draw.choice(STACKS)
    for i, region in enumerate(function.regions):
        if region.stack:
            way = next(way for way in function.entry_ways if way.region is region)
            addresses[i] = slot + SLOT - region.length
            return addresses[i] - way.shift
    return slot + 0x1800 + draw.choice((0, 8, 16, 24, 0x700, 3, 1))


def place_regions(draw, function):
    """The address of each region, and the stack pointer."""
    writable = draw.sample(WRITABLE, len(WRITABLE))
    readable = draw.sample(READABLE, len(READABLE))
    addresses = [region_address(draw, region, (writable if region.writable else readable).pop())
                 for region in function.regions]
    return addresses, stack_pointer(draw, function, addresses)


def way_registers(draw, way, address):
    """Values of a way's registers by which it leads to an address."""
    if way.base == RSP:
        return {}
    if way.index is None:
        return {way.base: (address - way.shift) & M64}
    if way.base is None:
        low = ((address - way.shift) & M64) // way.scale
        return {way.index: (low + draw.randrange(way.scale) * (2**64 // way.scale)) & M64}
    index = draw.choice((draw.randrange(40), -draw.randrange(40) & M64, draw.getrandbits(64)))
    return {way.base: (address - way.shift - way.scale * index) & M64, way.index: index}


def chosen_registers(draw, function, addresses, rsp):
    """The registers that a test names: those of ways and counts, and most others."""
    regs = {n: random_word(draw) for n in range(16) if draw.random() < 0.8}
    for i, region in enumerate(function.regions):
        for way in function.entry_ways:
            if way.region is region:
                regs.update(way_registers(draw, way, addresses[i]))
    for n, (bits, turns) in function.counters.items():
        regs[n] = draw.getrandbits(64) >> bits << bits | draw.randrange(1, turns + 1)
    regs.update(function.sizes)
    regs[RSP] = rsp
    return regs


def make_state(draw, function, k):
    """Test k of a function."""
    addresses, rsp = place_regions(draw, function)
    named = chosen_registers(draw, function, addresses, rsp)
    vecs = {n: random_bytes(draw, 32) for n in range(16) if draw.random() < 0.85}
    if len(vecs) > 1 and draw.random() < 0.3:
        vecs[draw.choice(list(vecs))] = vecs[draw.choice(list(vecs))]
    regions = [Piece(at, random_bytes(draw, region.length) if draw.random() < 0.9 else bytes(region.length))
               for at, region in zip(addresses, function.regions)]
    size = function.stack or 0
    flags = sum(draw.getrandbits(1) << bit for bit in FLAG_BITS)
    return State(named, vecs, [named.get(n, default_reg(n, k)) for n in range(16)],
                 [vecs.get(n, default_vec(n, k)) for n in range(16)], regions, Piece(rsp - size, bytes(size)),
                 named_pieces(draw, regions), flags)


def named_pieces(draw, regions):
    """The regions' bytes as pieces of a test, sometimes in two parts, or with others before them that don't count."""
    pieces = []
    for piece in regions:
        if not any(piece.data) and draw.random() < 0.5:
            continue
        if draw.random() < 0.2:
            pieces.append(Piece(piece.at, draw.randbytes(len(piece.data))))
        cut = draw.randrange(len(piece.data) + 1) if draw.random() < 0.2 else 0
        pieces += [Piece(piece.at, piece.data[:cut])] if cut else []
        pieces.append(Piece(piece.at + cut, piece.data[cut:]))
    return pieces


def tests_text(states):
    """The file of tests."""
    tests = []
    for state in states:
        test = {"regs": {WIDE[n]: value for n, value in state.named_regs.items()}}
        test["ymm"] = {str(n): value.hex() for n, value in state.named_vecs.items()}
        if state.pieces:
            test["mem"] = [{"at": piece.at, "hex": piece.data.hex()} for piece in state.pieces]
        tests.append(test)
    return json.dumps({"tests": tests})


def slots_job(wider):
    """The slots as the driver reads them; wider ones, for a planted mistake, have a page more at both ends and may all
    be written."""
    slots = [(at, True) for at in WRITABLE + STACKS] + [(at, wider) for at in READABLE]
    more = 0x1000 if wider else 0
    return struct.pack("<Q", len(slots)) + b"".join(
        struct.pack("<QQQ", at - more, SLOT + 2 * more, writable) for at, writable in slots)


def state_job(state):
    """A test as the driver reads it."""
    pieces = state.regions + [state.stack]
    head = struct.pack("<Q16Q", state.flags, *state.regs) + b"".join(state.vecs) + struct.pack("<Q", len(pieces))
    return head + b"".join(struct.pack("<QQ", p.at, len(p.data)) + p.data for p in pieces)


def function_job(offsets, states):
    """A function, by the offsets of its places and of its end, and its tests, as the driver reads them."""
    head = struct.pack(f"<{len(offsets) + 2}Q", len(offsets) - 1, *offsets, len(states))
    return head + b"".join(state_job(state) for state in states)


def read_result(data, at, state, places):
    """A result that the driver wrote at an offset, and the offset behind it."""
    signal, steps, *regs = struct.unpack_from("<18Q", data, at)
    at += 18 * 8
    vecs = [data[at + 32 * n:at + 32 * n + 32] for n in range(16)]
    at += 512 + 8
    pieces = []
    for piece in state.regions + [state.stack]:
        pieces.append(data[at:at + len(piece.data)])
        at += len(piece.data)
    begun = struct.unpack_from(f"<{places}I", data, at)
    regs[RSP] = (regs[RSP] - 8) & M64
    return Result(signal, steps, regs, vecs, pieces, list(begun)), at + 4 * places


def output_line(name, result):
    """The line of a live output."""
    if name[1:4] in ("xmm", "ymm"):
        return f"{name} {result.vecs[int(name[4:])][:16 if name[1] == 'x' else 32].hex()}\n"
    for bits, names in mnemonic_cases.NAMES.items():
        if name[1:] in names:
            return f"{name} {result.regs[names.index(name[1:])] & ((1 << bits) - 1):#x}\n"
    raise ValueError(name)


def memory_lines(state, result):
    """The lines of the bytes that have changed: each run of them in pieces of 32 bytes."""
    changed = {}
    for piece, after in zip(state.regions + [state.stack], result.pieces):
        if piece.data != after:
            changed.update((piece.at + i, b) for i, (a, b) in enumerate(zip(piece.data, after)) if a != b)
    lines, run = [], []
    for at in sorted(changed):
        if run and (at != run[0] + len(run) - 1 or len(run) == 33):
            lines.append(f"mem {run[0]:#x} {bytes(run[1:]).hex()}\n")
            run = []
        run = run + [changed[at]] if run else [at, changed[at]]
    return "".join(lines + ([f"mem {run[0]:#x} {bytes(run[1:]).hex()}\n"] if run else []))


def test_report(function, k, state, result):
    """What is to be printed of test k, by the native run or by what the function is known to end in."""
    if function.expected:
        return f"test {k} {function.expected[0]} {function.expected[1]}\n"
    if function.steps is not None and result.steps > function.steps:
        return f"test {k} running\n"
    if result.signal:
        return f"test {k} faulted {result.steps}\n"
    outputs = "".join(output_line(name, result) for name in function.live)
    return f"test {k} returned {result.steps}\n" + outputs + memory_lines(state, result)
