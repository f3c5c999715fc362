#!/usr/bin/env python3
"""Makes the table of cases that the crate clause_cases compares with the clauses of duties.

A plain model of the clauses: nodes, the rows of their operators, and what operators compute, written from the rules as
they are told in words, without a look at the crates. The table was made by
  python3 tests/clause_cases.py >crates/clause_cases/stdin

A line is one of these, in numbers alone. A node is four numbers: its operator, by its place in OPERATORS, and three more.
   0 OP W NODES node.. CLAUSES (LITERALS literal..)..   the clauses of the duty whose goal is the last node
   1 OP W NODES node.. RESULT INPUTS (NODE BITS).. value..   the values of node RESULT for all values of these inputs, the
                                                       first input counting fastest, each with so many bits
A literal is twice its variable, and one more where it is negated.
"""
import itertools

OPERATORS = ["vec", "const", "add", "sub", "mul", "and", "or", "xor", "not", "shl", "shr", "sar", "cat", "cut", "sx",
             "eq", "ult", "slt", "if"]


def width(nodes, i):
    op, x, y, z = nodes[i]
    if op == "vec":
        return 8
    if op == "const":
        return x
    if op in ("eq", "ult", "slt"):
        return 1
    if op == "cat":
        return width(nodes, x) + width(nodes, y)
    if op == "cut":
        return z
    if op == "sx":
        return x
    return width(nodes, y if op == "if" else x)


def arguments(node):
    op, x, y, z = node
    if op in ("vec", "const"):
        return []
    if op in ("not", "shl", "shr", "sar", "cut"):
        return [x]
    if op == "sx":
        return [y]
    return [x, y, z] if op == "if" else [x, y]


def helpers(nodes, i):
    op, x = nodes[i][:2]
    w = width(nodes, x) if op not in ("vec", "const") else 0
    if op in ("add", "sub", "ult", "slt"):
        return w - 1
    if op == "eq":
        return w
    if op == "mul":
        return w + sum(3 * (w - k) - 1 for k in range(1, w))
    return 0


# Gates. A literal is a variable, or its negative.
def AND(r, a, b):
    return [[-r, a], [-r, b], [r, -a, -b]]


def OR(r, a, b):
    return [[r, -a], [r, -b], [-r, a, b]]


def COPY(r, a):
    return [[-r, a], [r, -a]]


def NOT(r, a):
    return [[-r, -a], [r, a]]


def XOR(r, *inputs):
    lits = [r, *inputs]
    signs = [n for n in range(1 << len(lits)) if bin(n).count("1") % 2 == 1]
    return [[-l if n >> k & 1 else l for k, l in enumerate(lits)] for n in signs]


def MAJ(m, a, b, c):
    return [[-m, a, b], [-m, a, c], [-m, b, c], [m, -a, -b], [m, -a, -c], [m, -b, -c]]


def IF(r, c, a, b):
    return [[-c, -r, a], [-c, r, -a], [c, -r, b], [c, r, -b]]


def add_row(r, a, b, carries):
    """The bits of r are those of a + b; carries[k - 1] goes into column k."""
    rows = []
    for k in range(len(r)):
        into = [carries[k - 1]] if k else []
        rows += XOR(r[k], a[k], b[k], *into)
        if k < len(r) - 1:
            rows += MAJ(carries[k], a[k], b[k], into[0]) if k else AND(carries[0], a[0], b[0])
    return rows


def mul_row(r, a, b, spare):
    w = len(r)
    s = [next(spare) for _ in range(w)]
    rows = sum((AND(s[j], a[j], b[0]) for j in range(w)), [])
    for k in range(1, w):
        t = [next(spare) for _ in range(k, w)]
        new = [next(spare) for _ in range(k, w)]
        carries = [next(spare) for _ in range(k, w - 1)]
        rows += sum((AND(t[j - k], a[j - k], b[k]) for j in range(k, w)), [])
        rows += add_row(new, s[k:], t, carries)
        s[k:] = new
    return rows + sum((COPY(r[j], s[j]) for j in range(w)), [])


def eq_row(r, a, b, x):
    rows = sum((XOR(-x[k], a[k], b[k]) for k in range(len(a))), [])
    return rows + [[-r, l] for l in x] + [[r] + [-l for l in x]]


def ult_row(r, a, b, lower):
    places = lower + [r]
    rows = AND(places[0], -a[0], b[0])
    for k in range(1, len(a)):
        rows += MAJ(places[k], -a[k], b[k], places[k - 1])
    return rows


def row(nodes, i, bits, spare):
    """The row of node i; bits has the variables of each node, and spare those of its helpers."""
    op, x, y, z = nodes[i]
    r = bits[i]
    w = len(r)
    a, b = ([bits[j] for j in arguments(nodes[i])] + [None, None])[:2]
    if op == "vec":
        return []
    if op == "const":
        return [[r[k] if y >> k & 1 else -r[k]] for k in range(w)]
    if op == "add":
        return add_row(r, a, b, list(spare))
    if op == "sub":
        return add_row(a, r, b, list(spare))
    if op == "mul":
        return mul_row(r, a, b, spare)
    if op in ("and", "or", "xor"):
        gate = {"and": AND, "or": OR, "xor": XOR}[op]
        return sum((gate(r[k], a[k], b[k]) for k in range(w)), [])
    if op == "not":
        return sum((NOT(r[k], a[k]) for k in range(w)), [])
    if op == "if":
        c, a, b = (bits[j] for j in (x, y, z))
        return sum((IF(r[k], c[0], a[k], b[k]) for k in range(w)), [])
    if op == "eq":
        return eq_row(r[0], a, b, list(spare))
    if op == "ult":
        return ult_row(r[0], a, b, list(spare))
    if op == "slt":
        return ult_row(r[0], a[:-1] + b[-1:], b[:-1] + a[-1:], list(spare))
    if op == "cut":
        source = a[y:y + z]
    elif op == "cat":
        source = b + a
    elif op == "sx":
        source = a + [a[-1]] * (w - len(a))
    else:
        source = {"shl": [None] * y + a[:w - y], "shr": a[y:] + [None] * y, "sar": a[y:] + [a[-1]] * y}[op]
    return sum((COPY(r[k], l) if l else [[-r[k]]] for k, l in enumerate(source)), [])


def clauses(nodes):
    """The clauses of the duty whose goal is the last node."""
    reach, rest = set(), [len(nodes) - 1]
    while rest:
        i = rest.pop()
        if i not in reach:
            reach.add(i)
            rest += arguments(nodes[i])
    bits, spares, free = {}, {}, 1
    for i in sorted(reach):
        w, more = width(nodes, i), helpers(nodes, i)
        bits[i], spares[i] = list(range(free, free + w)), range(free + w, free + w + more)
        free += w + more
    rows = []
    for i in sorted(reach):
        rows += row(nodes, i, bits, iter(spares[i]))
    rows.append([-bits[len(nodes) - 1][0]])
    kept = [sorted(set(c), key=abs) for c in rows if not any(-l in c for l in c)]
    return kept


def signed(x, w):
    return x - (1 << w) if x >> (w - 1) & 1 else x


def value(nodes, i, inputs):
    """The value of a node, from those of the inputs by number."""
    op, x, y, z = nodes[i]
    w = width(nodes, i)
    if op == "vec":
        return inputs[i]
    if op == "const":
        return y
    of = arguments(nodes[i])
    v, m = [value(nodes, j, inputs) for j in of], width(nodes, of[0])
    result = {
        "add": lambda: v[0] + v[1], "sub": lambda: v[0] - v[1], "mul": lambda: v[0] * v[1],
        "and": lambda: v[0] & v[1], "or": lambda: v[0] | v[1], "xor": lambda: v[0] ^ v[1], "not": lambda: ~v[0],
        "shl": lambda: v[0] << y, "shr": lambda: v[0] >> y, "sar": lambda: signed(v[0], m) >> y,
        "cat": lambda: v[0] << width(nodes, y) | v[1], "cut": lambda: v[0] >> y, "sx": lambda: signed(v[0], m),
        "eq": lambda: int(v[0] == v[1]), "ult": lambda: int(v[0] < v[1]),
        "slt": lambda: int(signed(v[0], m) < signed(v[1], m)), "if": lambda: v[1] if v[0] else v[2],
    }[op]()
    return result % (1 << w)


def forms(w):
    """The nodes that are tried at a width: arguments a and b are nodes 2 and 3, and 5 is a bit."""
    a, b, c = 2, 3, 5
    for op in ("add", "sub", "mul", "and", "or", "xor", "eq", "ult", "slt"):
        yield (op, a, b, 0)
    yield ("add", a, a, 0)
    yield ("mul", a, a, 0)
    yield ("not", a, 0, 0)
    for k in range(1, w):
        for op in ("shl", "shr", "sar"):
            yield (op, a, k, 0)
    yield ("cat", a, b, 0)
    yield ("cat", b, b, 0)
    yield ("cut", 0, 0, w)
    yield ("cut", 0, 8 - w, w)
    yield ("sx", w + 2, a, 0)
    yield ("if", c, a, b)


def start(w, node):
    """The nodes before a node: bytes, and their lowest bits as far as the node needs them."""
    nodes = [("vec", 0, 0, 0), ("vec", 1, 0, 0), ("cut", 0, 0, w), ("cut", 1, 0, w)]
    if node[0] == "if":
        nodes += [("vec", 2, 0, 0), ("cut", 4, 0, 1)]
    return nodes if node not in nodes else nodes[:nodes.index(node)]


def numbers(nodes):
    return [len(nodes)] + [n for op, *more in nodes for n in (OPERATORS.index(op), *more)]


def clause_cases():
    for w in (1, 2, 3):
        for node in forms(w):
            nodes = start(w, node) + [node]
            if width(nodes, len(nodes) - 1) > 1:
                r = len(nodes) - 1
                nodes += [("const", width(nodes, r), 1, 0), ("eq", r, r + 1, 0)]
            rows = clauses(nodes)
            yield [0, OPERATORS.index(node[0]), w, *numbers(nodes), len(rows),
                   *(n for c in rows for n in (len(c), *(2 * l if l > 0 else 2 * -l + 1 for l in c)))]


def value_cases():
    w = 4
    for node in forms(w):
        nodes = start(w, node) + [node]
        r = len(nodes) - 1
        inputs = [i for i in range(r) if nodes[i][0] == "vec" and i in needed(nodes, r)]
        bits = {i: 1 if i == 4 else 8 if node[:2] == ("cut", 0) else w for i in inputs}
        if width(nodes, r) > 1:
            nodes += [("const", width(nodes, r), 1, 0), ("eq", r, r + 1, 0)]
        ranges = [range(1 << bits[i]) for i in reversed(inputs)]
        values = [value(nodes, r, dict(zip(reversed(inputs), of))) for of in itertools.product(*ranges)]
        yield [1, OPERATORS.index(node[0]), w, *numbers(nodes), r, len(inputs),
               *(n for i in inputs for n in (i, bits[i])), *values]


def needed(nodes, i):
    return {i}.union(*(needed(nodes, j) for j in arguments(nodes[i])))


if __name__ == "__main__":
    for case in itertools.chain(clause_cases(), value_cases()):
        print(*case)
