#!/usr/bin/env python3
"""Compares how align reads functions with how an assembler reads them.

    tests/against_assembler.py [COUNT] [--seed N]

The texts are one function of each form of each instruction of the table, with the numbers at the edges of their
ranges; COUNT random functions (300); as many statements, and as many functions, with a random change; and the lists of
odd_texts.py.
A text that both take is read by `align show`; what it prints, with labels in place of `@` and a place, is assembled
again, and the bytes have to be those of the text. And what objdump writes of these bytes is read by `align show` again,
which has to print the same. So the instruction that align has read is the one that the assembler has encoded.

It prints figures, and what disagrees. The status is 1 where there is a disagreement that no list names.
"""
import argparse
import collections
import os
import random
import re
import sys
import tempfile

import function_text
import odd_texts
import run_files

failures = []


def fail(what, text, more=""):
    """Notes a disagreement, and prints the first ones."""
    failures.append(what)
    if len(failures) <= 40:
        print(f"FAIL {what}: {text[:400]!r} {more}")


def read_back(name, insns):
    """What objdump wrote of a function, as a text that can be read: with labels, and with 64-bit numbers signed."""
    targets, lines = set(), []
    for insn in insns:
        jump = re.match(r"(j\w+)\s+([0-9a-f]+)( <|$)", insn.text)
        text = insn.text
        if jump:
            targets.add(int(jump[2], 16))
            text = f"{jump[1].replace('jmpq', 'jmp')} .L{name}_at_{int(jump[2], 16)}"
        elif not text.startswith("movabs"):
            text = re.sub(r"\$0x([89a-f][0-9a-f]{15})\b", lambda n: f"$-{2**64 - int(n[1], 16)}", text)
            text = re.sub(r"^(v?mov\w+)\.s\b", r"\1", text)
        lines.append((insn.address, re.sub(r"^repz retq?$", "rep ret", text)))
    marked = [f".L{name}_at_{at}:\n\t{text}\n" if at in targets else f"\t{text}\n" for at, text in lines]
    return f"{name}:\n" + "".join(marked)


def read_together(texts, folder):
    """What is shown of functions, each (name, text, number of instructions), of which many are read as one: their
    instructions, with jumps to places of their own."""
    shown, start = [], 0
    while start < len(texts):
        end, room = start + 1, 4096 - texts[start][2]
        while end < len(texts) and texts[end][2] <= room:
            room -= texts[end][2]
            end += 1
        part = texts[start:end]
        whole = "whole:\n" + "".join(text.partition("\n")[2] for _, text, _ in part)
        read = run_files.show_text(whole, "whole", folder)
        if read.insns is None:
            shown += [run_files.show_text(text, name, folder) for name, text, _ in part]
        else:
            place = 0
            for _, _, count in part:
                own = read.insns[place:place + count]
                own = [re.sub(r"@(\d+)$", lambda k: f"@{int(k[1]) - place}", insn) for insn in own]
                shown.append(run_files.Shown(own, None, None))
                place += count
        start = end
    return shown


def written_one_way(insns):
    """Printed instructions, with the two that have two texts for one encoding written in one way."""
    shown = []
    for insn in insns:
        insn = re.sub(r"^(imul[wlq] \$[^,]*,)(%\w+)$", r"\1\2,\2", insn)
        shown.append(re.sub(r"^(test[bwlq]) ([^%,]*\(.*\)),(%\w+)$", r"\1 \3,\2", insn))
    return shown


def round_trips(what, texts, folder):
    """The texts, which align and the assembler both have to take, printed and assembled again, and disassembled and
    read again. The categories that are encoded otherwise, with their numbers."""
    found, chosen = collections.Counter(), []
    shown = run_files.show_all(texts, folder)
    plain = [function_text.plainly_spelled(text) for _, text in texts]
    codes = run_files.assembled(texts, folder)
    for k, (name, text) in enumerate(texts):
        found.update(plain[k][1])
        if shown[k].insns is None:
            fail(f"{what}: align refuses", text, f"line {shown[k].line} {shown[k].kind}")
        elif codes[k].bytes is None:
            fail(f"{what}: the assembler refuses", text, codes[k].messages)
        else:
            chosen.append(k)
    names = [texts[k][0] for k in chosen]
    printed = [run_files.text_of(name, shown[k].insns) for name, k in zip(names, chosen)]
    again = run_files.assembled(list(zip(names, printed)), folder)
    plains = run_files.assembled([(name, plain[k][0]) for name, k in zip(names, chosen)], folder)
    sources = [plains[n] if "alignment directives" in plain[k][1] else codes[k] for n, k in enumerate(chosen)]
    backs = read_together([(name, read_back(name, source.insns), len(source.insns))
                           for name, source in zip(names, sources)], folder)
    for k, code, plain_code, back in zip(chosen, again, plains, backs):
        text = texts[k][1]
        if code.bytes is None or code.bytes != plain_code.bytes:
            fail(f"{what}: other bytes", text, code.messages)
        if not plain[k][1] and plain_code.bytes != codes[k].bytes:
            fail(f"{what}: bytes that depend on place", text)
        if back.insns is None or written_one_way(back.insns) != written_one_way(shown[k].insns):
            fail(f"{what}: objdump's text is read otherwise", text, back)
    instructions = sum(len(shown[k].insns) for k in chosen)
    print(f"{what}: {len(texts)} functions, {instructions} instructions; {len(chosen)} round trips of each kind")
    return found


def outcome(name, text, shown, folder):
    """What an assembler does with a text that align took: `refuses`, `other code` or `same code`."""
    code = run_files.assembled_alone(text, folder)
    if code.bytes is None:
        return "refuses", code.messages
    plain = run_files.assembled_alone(function_text.plainly_spelled(text)[0], folder)
    again = run_files.assembled_alone(run_files.text_of(name, shown.insns), folder)
    plain = code if plain.bytes is None or "align" in text else plain
    return ("same code" if again.bytes == plain.bytes else "other code"), code.messages


def refused_statements(folder):
    """The statements that the grammar is said to refuse: which of them the assembler takes."""
    print("refused by the grammar, by reason: how many, how many of them an assembler takes, and the kinds")
    total, taken = 0, 0
    for reason, statements in odd_texts.REFUSED.items():
        kinds, accepted = collections.Counter(), []
        for statement in statements:
            text = f"f:\n\t{statement}\n\tret\n"
            shown = run_files.show_text(text, "f", folder)
            if shown.insns is not None:
                fail(f"the grammar takes what is listed as {reason}", text, shown.insns)
                continue
            kinds[shown.kind] += 1
            if run_files.assembled_alone(text, folder).bytes is not None:
                accepted.append(statement)
        total, taken = total + len(statements), taken + len(accepted)
        told = ", ".join(f"{kind} {n}" for kind, n in sorted(kinds.items()))
        print(f"  {reason}: {len(statements)}, {len(accepted)} ({told})")
        if accepted:
            print("      " + " | ".join(repr(statement)[1:-1] for statement in accepted))
    print(f"  all: {total}, {taken}")


def texts_read_otherwise(folder):
    """The texts that the grammar takes and an assembler is known to read otherwise: what it does."""
    print("taken by the grammar, by reason: what an assembler does")
    with open(os.path.join(folder, "incq.s"), "w") as file:
        file.write("\tincq %rax\n")
    told = collections.Counter()
    listed = [(reason, "f", text, wanted) for reason, text, wanted in odd_texts.READ_OTHERWISE] + odd_texts.OTHER_NAMES
    for reason, name, text, wanted in listed:
        shown = run_files.show_text(text, name, folder)
        if shown.insns is None:
            fail(f"the grammar refuses what is listed as {reason}", text, f"line {shown.line} {shown.kind}")
            continue
        done, messages = outcome(name, text, shown, folder)
        told[reason, done] += 1
        if done != wanted and wanted == "same code":
            fail(f"an assembler: {done}, of what is listed as {reason}", text, messages)
        elif done != wanted:
            print(f"  this assembler: {done}, and not {wanted}, of {text!r} {messages}")
    for (reason, done), n in told.items():
        print(f"  {reason}: {done} {n}")


def changed_statement(draw, pool):
    """A function of one statement with a random change, the line that was changed, and the kind of the change."""
    statement, change = odd_texts.mutated(draw, draw.choice(pool))
    return f"f:\n\t{statement}\n\tret\n", [statement], change


def changed_function(draw, pool, jumps):
    """A random function with a random change of a line, that line before and after, and the kind of the change."""
    function = function_text.RandomFunction(draw, "f", pool, jumps)
    function.aligned = False
    lines = function.text().split("\n")
    at = draw.randrange(len(lines) - 1)
    before = lines[at]
    lines[at], change = odd_texts.changed_line(draw, before)
    return "\n".join(lines), [before, lines[at]], change


def changed(what, texts, folder):
    """Texts with a change: whether both take them and agree, or who refuses them."""
    told, taken = collections.Counter(), collections.Counter()
    for text, lines, change in texts:
        shown = run_files.show_text(text, "f", folder)
        if shown.insns is None:
            code = run_files.assembled_alone(text, folder)
            told["the grammar refuses, " + ("both do" if code.bytes is None else "an assembler takes")] += 1
            if code.bytes is not None:
                taken[f"{shown.kind}, change of {change}"] += 1
            continue
        done, messages = outcome("f", text, shown, folder)
        if done != "same code" and any(re.match(r"\s*(\.L\S+:\s*)*\.(?!L[^\s:]*:)", line) for line in lines):
            done += ", in a directive"
        elif done != "same code" and any(re.match(r"\s*(\.L\S+:\s*)*[A-Za-z_$][\w.$]*:", line) for line in lines):
            done += ", by a label that ends the body"
        elif done != "same code":
            fail(f"an assembler: {done}", text, messages)
        told[f"the grammar takes, an assembler: {done}"] += 1
    print(f"{what}: {len(texts)}")
    for what, n in sorted(told.items()):
        print(f"  {what}: {n}")
    for what, n in taken.most_common():
        print(f"    an assembler alone takes: {what}: {n}")


def main():
    parser = argparse.ArgumentParser()
    parser.add_argument("count", type=int, nargs="?", default=300)
    parser.add_argument("--seed", type=int, default=1)
    options = parser.parse_args()
    run_files.skip_without("as", "objdump")
    run_files.need_align()
    draw = random.Random(options.seed)
    pool, jumps = function_text.statements(), function_text.jumps()
    with tempfile.TemporaryDirectory() as folder:
        forms = [(f"f{k}", function_text.one_instruction(f"f{k}", statement)) for k, statement in enumerate(pool)]
        for far in (False, True):
            for k, word in enumerate(jumps):
                forms.append((f"j{far:d}{k}", function_text.one_jump(f"j{far:d}{k}", word, far)))
        found = round_trips("forms", forms, folder)
        functions = []
        for k in range(options.count):
            functions.append((f"r{k}", function_text.RandomFunction(draw, f"r{k}", pool, jumps).text()))
        found += round_trips("random functions", functions, folder)
        print("encoded otherwise, functions with")
        for category, n in sorted(found.items()):
            print(f"  {category}: {n}")
        changed("changed statements", [changed_statement(draw, pool) for _ in range(options.count)], folder)
        changed("changed functions", [changed_function(draw, pool, jumps) for _ in range(options.count)], folder)
        refused_statements(folder)
        texts_read_otherwise(folder)
    print(f"disagreements {len(failures)}")
    sys.exit(1 if failures else 0)


if __name__ == "__main__":
    main()
