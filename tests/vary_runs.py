#!/usr/bin/env python3
"""Runs tools/vary: vary_runs.py [PROGRAM]. It prints the rows that fail, and ends with status 1 where one did.

The suites are the model's. What is made of them has to pass by the model's checker, and to have their lines but for the texts.
The tool gets the program, or one whose `check` is the model's: where the program has no such command, or texts that hold some
byte are to be refused.
"""

import os
import sys
import tempfile

sys.dont_write_bytecode = True

TOP = os.path.dirname(os.path.dirname(os.path.abspath(__file__)))
sys.path.insert(1, os.path.join(TOP, "tools"))

from calls import PROGRAM, call, tool, written
from model.check import checked
from model.reading import read
from rows import end
from suites import FIRST, SECOND, lists_suite

EXAMPLES = os.path.join(TOP, "examples")
LISTS = [os.path.join(EXAMPLES, name) for name in ("lists.y", "lists.l")]
STAND_IN = f"""#!{sys.executable}
import os, sys
if sys.argv[1] != "check":
    os.execv({PROGRAM!r}, [{PROGRAM!r}, *sys.argv[1:]])
sys.dont_write_bytecode = True
sys.path[:0] = [{os.path.join(TOP, "tests")!r}, {os.path.join(TOP, "tools")!r}]
from model.check import checked
from model.reading import read
yacc, lex, text = (open(name, "rb").read() for name in sys.argv[2:])
status, out, said = checked(*read(yacc, lex), text)
lines = text.decode("latin-1").splitlines()
hated = [number for number, line in enumerate(lines, 1) if line.startswith("  text ") and HATED and HATED in line]
if status == 0 and hated:
    status, out = 6, b"no line %d: Scan\\n" % hated[0]
sys.stdout.buffer.write(out)
sys.exit(status)
"""


RULES = lists_suite(criteria=["rule"], operators=[])


def stand_in(folder, name="program", hated=""):
    """The path of a program with the model's `check`, which refuses texts that hold some character besides."""
    path = written(folder, name, STAND_IN.replace("HATED and HATED", f"{hated!r} and {hated!r}"))
    os.chmod(path, 0o755)
    return path


def has_check(folder):
    return call([PROGRAM, "check"], folder)[2] == b"conform: usage: word 1\n"


def vary(folder, suite, *words, files=LISTS, program=None):
    chosen = program or (PROGRAM if has_check(folder) else stand_in(folder))
    return tool(folder, "vary", *files, suite, *words, "--program", chosen)


def is_text(line):
    return line.startswith("  text ")


def same_but_for_texts(one, other):
    pairs = [*zip(one.splitlines(), other.splitlines(), strict=True)]
    return all(first == second or (is_text(first) and is_text(second)) for first, second in pairs)


def bytes_in(path):
    with open(path, "rb") as file:
        return file.read()


def seeds(folder):
    """What two numbers make passes, and one makes the same twice: names, numbers and blanks of several kinds."""
    text = lists_suite(bases=2)
    suite, known = written(folder, "suite", text), read(*map(bytes_in, LISTS))
    texts = [line for line in text.splitlines() if is_text(line)]
    right = f"yes goals 55 negatives {text.count(chr(10) + 'negative ')}\n".encode()
    made = [vary(folder, suite, "--seed", seed) for seed in ("1", "2", "2")]
    for status, out, said in made:
        if status or checked(*known, out.encode()) != (0, right, b"") or not same_but_for_texts(text, out):
            yield f"{status}, {said}"
        found = [line for line in out.splitlines() if is_text(line)]
        if sum(map(str.__eq__, texts, found)) > len(texts) / 3 or not all(part in out for part in ("\\x09", "\\x0a", "7")):
            yield f"few texts are other ones: {found}"
    if made[1] != made[2] or made[0] == made[1]:
        yield "each number makes one suite"


def varied_again(folder):
    """What was made can be made anew; and a seed is told where none is given."""
    first = vary(folder, written(folder, "suite", RULES), "--seed", "1")[1]
    status, out, said = vary(folder, written(folder, "again", first))
    if status or out == first or not same_but_for_texts(first, out) or "of --seed " not in said:
        yield f"again: {status}, {said}"


def refused_texts(folder):
    """A text that `check` refuses stays as it was; a suite that it refuses itself is told."""
    suite = written(folder, "suite", RULES)
    made = "".join(filter(is_text, vary(folder, suite, "--seed", "1")[1].splitlines()))
    hated = max(set(made) - set(RULES))
    status, out, said = vary(folder, suite, "--seed", "1", program=stand_in(folder, "hating", hated))
    if status or hated in out or not same_but_for_texts(RULES, out) or out == RULES:
        yield f"refused texts: {status}, {said}"
    status, out, said = vary(folder, suite, "--seed", "1", program=stand_in(folder, "hater", "text"))
    line = [is_text(line) for line in RULES.splitlines()].index(True) + 1
    if (status, out) != (1, "") or f"no line {line}: Scan" not in said:
        yield f"a suite that is refused itself: {status}, {said}"


def fixed_texts(folder):
    """Where each token has one text and nothing is skipped, all stays."""
    text = SECOND.replace('"x x"', '"xx"')
    files = [written(folder, "y", "%%\ns : 'x' ;\n"), written(folder, "l", "%%\nx return 'x';\n")]
    found = vary(folder, written(folder, "suite", text), "--seed", "1", files=files)
    if found != (0, text, "vary: 0 of 3 texts are other ones\n"):
        yield f"one text each: {found}"


def bad_calls(folder):
    suite = written(folder, "suite", SECOND)
    refused = [written(folder, "bad.y", "%%\ns : 'x ;\n"), written(folder, "l", "%%\nx return 'x';\n")]
    rows = [
        (2, "second format", [written(folder, "first", FIRST)], {}),
        (2, "last line", [written(folder, "cut", SECOND[: SECOND.index("end goals")])], {}),
        (2, "No such file", ["missing"], {}),
        (2, "seed", [suite, "--seed", "x"], {}),
        (2, "No such file", [suite], {"program": "missing"}),
        (2, "conform: yacc: BadItem", [suite], {"files": refused}),
        (1, "no line 3: Head", [suite], {}),
    ]
    for wanted, reason, words, more in rows:
        status, out, said = vary(folder, *words, **more)
        if (status, out) != (wanted, "") or reason not in said:
            yield f"{words}: {status}, {said}"


def main():
    if not os.path.exists(PROGRAM):
        sys.exit(f"{PROGRAM} isn't there: rt ci or ./conform builds it")
    with tempfile.TemporaryDirectory() as folder:
        tables = (seeds, varied_again, refused_texts, fixed_texts, bad_calls)
        end([failure for table in tables for failure in table(folder)])


main()
