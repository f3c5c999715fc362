"""The forms of what `align` prints, by status, and the rules of its arguments, for the scripts that try it.

`judge` says what is wrong with an answer: that its status does not come of such arguments, or that the printed text
has none of the forms of that status. It knows the forms, not the right answer: of the files it looks only at what is
told by a byte or by the length of a line.
"""
import os
import re

USAGE = b"""usage: align decide LEFT F RIGHT G [ADMIT TESTS]
       align check LEFT F RIGHT G ADMIT CERT
       align run FILE F ADMIT TESTS
       align show FILE F
       align sample N
"""
MOST_BYTES = 16777216
FUNCTION_KINDS = ("not-utf8 line-long no-function twice-label data-in-body unknown-instruction pool-refused "
                  "bad-operand bad-number unknown-label too-many-insns falls-off").split()
# for each command the number of plain arguments, the options with their ranges, and which plain arguments name files
COMMANDS = {"decide": (4, {}, {"left": 0, "right": 2}),
            "run": (4, {"steps": (1, 65536)}, {"left": 0, "admit": 2, "tests": 3}),
            "show": (2, {}, {"left": 0})}
WIDTHS = {8: "al cl dl bl spl bpl sil dil".split(), 16: "ax cx dx bx sp bp si di".split(),
          32: "eax ecx edx ebx esp ebp esi edi".split(), 64: "rax rcx rdx rbx rsp rbp rsi rdi".split()}
NUMBER = r"(?:0|[1-9][0-9]*)"
VALUE = r"0x(?:0|[1-9a-f][0-9a-f]*)"
REGISTERS = {f"%{name}": width for width, names in WIDTHS.items() for name in names}
REGISTERS.update({f"%r{n}{end}": width for n in range(8, 16)
                  for end, width in (("b", 8), ("w", 16), ("d", 32), ("", 64))})

EQUIVALENT = re.compile(rf"equivalent\nnodes 2\nedges 1\nbound ({NUMBER})\ntests none\n".encode())
DIFFERENT = re.compile((rf"different\nsource found\nleft returned ({NUMBER})\nright returned ({NUMBER})\n"
                        rf"differs %rax ({VALUE}) ({VALUE})\nstate\n"
                        r"(?:reg (?:rax|rcx|rdx|rbx|rbp|rsi|rdi|r8|r9|r1[0-5]) 0x1\n)?").encode())
TEST = re.compile(rf"test ({NUMBER}) "
                  rf"(?:(returned|faulted|unset) ({NUMBER})|(running|not-admitted|large|byte-outside))")
OUTPUT = re.compile(rf"(%[a-z0-9]+) (?:({VALUE})|([0-9a-f]+))")
MEMORY = re.compile(rf"mem ({VALUE}) ((?:[0-9a-f][0-9a-f]){{1,32}})")
REFUSED = re.compile(rf"refused (left|right) line ({NUMBER}) ({'|'.join(FUNCTION_KINDS)}|not-plain)\n"
                     rf"|refused (admit) line ({NUMBER}) (bad-line|too-many|no-live)\n"
                     rf"|refused (left|right|admit|tests) (large) ({NUMBER})\n"
                     rf"|refused (tests) (?:test ({NUMBER}) )?(bad-shape|too-many-bytes|too-many|not-json)\n")
SHOWN = re.compile(rf"([* ]) ({NUMBER}) ([a-z0-9]+)(?: ([-$%@(),a-z0-9]+))?")


def command_of(words):
    """The name, plain arguments and options of a command, or None where the arguments are none."""
    try:
        texts = [word.decode() for word in words]
    except UnicodeDecodeError:
        return None
    if not texts or not all(texts) or texts[0] not in COMMANDS:
        return None
    count, known, _ = COMMANDS[texts[0]]
    plain, options, rest = [], {}, texts[1:]
    while rest:
        word = rest.pop(0)
        if word == "--":
            plain += rest
            break
        if word == "-" or not word.startswith("-"):
            plain.append(word)
            continue
        name, equals, value = word.partition("=")
        if not equals:
            value = rest.pop(0) if rest and not rest[0].startswith("-") else ""
        if not name.startswith("--") or name[2:] not in known or name in options:
            return None
        if not is_number(value, known[name[2:]]):
            return None
        options[name] = int(value)
    return (texts[0], plain, options) if len(plain) == count else None


def is_number(text, limits):
    """Whether a text is a number of one to nine digits within limits."""
    return re.fullmatch(r"0|[1-9][0-9]{0,8}", text) is not None and limits[0] <= int(text) <= limits[1]


def judge(words, status, printed, errors, texts):
    """What is wrong with an answer, or None. `texts` has the bytes of the files that were written, by name."""
    if errors:
        return "something on standard error"
    command = command_of(words)
    if status == 4 or command is None:
        is_right = status == 4 and command is None and printed == USAGE
        return None if is_right else "usage where there is a command, or none"
    if status == 5:
        if printed:
            return "printed with status 5"
        files = [command[1][place] for place in COMMANDS[command[0]][2].values()]
        return "status 5 though each file is there" if all(os.path.isfile(name) for name in files) else None
    if status == 3:
        return judge_refusal(command, printed, texts)
    if status == 1 and command[0] == "decide":
        return judge_different(printed)
    if status == 0:
        return {"decide": judge_equivalent, "run": judge_run, "show": judge_show}[command[0]](command, printed)
    return f"status {status}"


def judge_equivalent(_, printed):
    """What is wrong with a report of equivalence, or None."""
    found = EQUIVALENT.fullmatch(printed)
    bound = int(found.group(1)) if found else 0
    return None if found and 2 <= bound <= 8192 and bound % 2 == 0 else "no report of equivalence"


def judge_different(printed):
    """What is wrong with a report of a difference, or None."""
    found = DIFFERENT.fullmatch(printed)
    if not found or found.group(3) == found.group(4):
        return "no report of a difference"
    return None if all(int(value, 16) < 1 << 64 for value in found.group(3, 4)) else "a value of more than 64 bits"


def judge_run(command, printed):
    """What is wrong with a report of runs, or None."""
    if printed and not printed.endswith(b"\n"):
        return "a line without its end"
    steps, tests = command[2].get("--steps", 20000), []
    for line in printed.decode("ascii", "replace").splitlines():
        found = TEST.fullmatch(line)
        if not found and not tests:
            return "a report that begins with no test"
        if not found:
            tests[-1][1].append(line)
            continue
        tests.append((found.group(2) == "returned", []))
        if int(found.group(1)) != len(tests) or found.group(3) and not 1 <= int(found.group(3)) <= steps:
            return f"a number in the line {line[:80]}"
    return judge_tests(tests)


def judge_tests(tests):
    """What is wrong with the lines behind those of the tests, each with whether it returned and its lines, or None."""
    if len(tests) > 64:
        return "more than 64 tests"
    live = None
    for returned, lines in tests:
        outputs = [line.split(" ")[0] for line in lines if not line.startswith("mem ")]
        if not returned and lines or not all(is_output(line) for line in lines[:len(outputs)]):
            return f"no lines of a test: {lines[:3]}"
        end = 0
        for line in lines[len(outputs):]:
            found = MEMORY.fullmatch(line)
            if not found or int(found.group(1), 16) < end:
                return f"no line of memory, or none in its place: {line[:80]}"
            end = int(found.group(1), 16) + len(found.group(2)) // 2
        if end > 1 << 64 or returned and live not in (None, outputs):
            return "memory above its end, or other outputs than of the test before"
        live = outputs if returned else live
    return None


def is_output(line):
    """Whether a line tells a live output."""
    found = OUTPUT.fullmatch(line)
    if not found:
        return False
    if found.group(3):
        vector = re.fullmatch(r"%([xy])mm([0-9]|1[0-5])", found.group(1))
        return bool(vector) and len(found.group(3)) == (32 if vector.group(1) == "x" else 64)
    return found.group(1) in REGISTERS and int(found.group(2), 16) < 1 << REGISTERS[found.group(1)]


def judge_show(command, printed):
    """What is wrong with a shown function, or None."""
    lines = printed.decode("ascii", "replace").split("\n")
    head = [f"function {command[1][1]}", f"insns {len(lines) - 3}"]
    if len(lines) < 4 or lines[-1] or lines[:2] != head:
        return "no head of a shown function"
    if len(lines) - 3 > 4096:
        return "more than 4,096 instructions"
    for place, line in enumerate(lines[2:-1]):
        found = SHOWN.fullmatch(line)
        is_cut = place == 0 or bool(found) and found.group(3) == "ret"
        if not found or int(found.group(2)) != place or is_cut and found.group(1) != "*":
            return f"no line of a shown function: {line[:80]}"
        operands = found.group(4) or ""
        if operands.startswith("@") and not int(operands[1:]) < len(lines) - 3:
            return f"a target outside of the function: {line[:80]}"
    return None if found.group(3) in ("ret", "jmp") else "a function whose last instruction goes on"


def judge_refusal(command, printed, texts):
    """What is wrong with a refusal, or None."""
    found = REFUSED.fullmatch(printed.decode("ascii", "replace"))
    if not found:
        return "no refusal"
    side = found.group(1) or found.group(4) or found.group(7) or found.group(10)
    if side not in COMMANDS[command[0]][2]:
        return "a refusal of a file that the command does not have"
    kind = refusal_kind(found)
    text = texts.get(command[1][COMMANDS[command[0]][2][side]])
    if kind == "not-plain" and command[0] != "decide":
        return "not-plain of another command"
    if text is None:
        return None
    if (kind == "large") != (len(text) > MOST_BYTES) or kind == "large" and found.group(9) != str(MOST_BYTES + 1):
        return "a wrong size"
    if kind == "large":
        return None
    if side in ("left", "right"):
        return judge_line(kind, int(found.group(2)), text)
    if side == "admit":
        line = int(found.group(5))
        is_right = (line == 0) == (kind == "no-live") and line <= 1 + text.count(b"\n")
        return None if is_right else "a wrong line of an admission"
    tested = found.group(11)
    named = kind in ("bad-shape", "too-many-bytes")
    return None if (tested is not None) == named and (not named or int(tested) <= 64) and (
        kind != "too-many-bytes" or int(tested) > 0) else "a wrong number of a test"


def judge_line(kind, line, text):
    """What is wrong with the line and kind of a refusal of a function's text, or None."""
    count = text.count(b"\n") + (not text.endswith(b"\n") and text != b"")
    if (line == 0) != (kind == "no-function") or line > max(count, 1):
        return "a wrong line of a function's text"
    try:
        text.decode()
    except UnicodeDecodeError as error:
        is_right = kind == "not-utf8" and line == 1 + text.count(b"\n", 0, error.start)
        return None if is_right else "not-utf8 was to be told"
    long = first_long_line(text)
    if kind == "not-utf8" or (kind == "line-long") != (long is not None) or long not in (None, line):
        return "not-utf8 or line-long at a wrong place"
    return None


def first_long_line(text):
    """The number of the first line of more than 4,096 bytes, or None."""
    if len(text) <= 4096:
        return None
    lines = text.split(b"\n")
    for number, line in enumerate(lines, 1):
        if number < len(lines) and line.endswith(b"\r"):
            line = line[:-1]
        if len(line) > 4096:
            return number
    return None


def refusal_kind(found):
    """The kind of a refusal that `REFUSED` matches."""
    return found.group(3) or found.group(6) or found.group(8) or found.group(12)


def kind_of(words, status, printed):
    """The name under which an answer is counted."""
    if status == 3:
        found = REFUSED.fullmatch(printed.decode("ascii", "replace"))
        if found:
            side = found.group(1) or found.group(4) or found.group(7) or found.group(10)
            return f"3  refused {'function' if side in ('left', 'right') else side} {refusal_kind(found)}"
    names = {0: {"decide": "equivalent", "run": "runs", "show": "shown function"}, 1: {"decide": "different"}}
    name = words[0].decode("ascii", "replace") if words else ""
    others = {4: "usage", 5: "a file could not be taken"}
    return f"{status}  " + (others.get(status) or names.get(status, {}).get(name, "?"))
