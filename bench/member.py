#!/usr/bin/env python3
"""Times `conform member`: bench/member.py [PROGRAM].

Each row is a grammar whose tokens are literals, and a text of them: what is said of it, and the processor seconds and the
greatest memory of a run, files read and the text scanned, beside their bounds. It ends with status 1 where one is passed.
Nothing here is part of the gate.
"""

import os
import random

from measure import TOP, Bounds, CommandRun, program
from suite import least

LEX = "%%\n. return yytext[0];\n"
# the least of so many runs counts
RUNS = 3


def c_expressions():
    """The C expressions, whose identifiers are the letter i here."""
    with open(os.path.join(TOP, "examples", "cexpr.y")) as file:
        return file.read().replace("%token IDENTIFIER", "%token").replace("IDENTIFIER", "'i'")


def at_the_limits():
    """8,192 rules of up to 12 symbols over 1,024 nonterminals and 64 literals."""
    draw = random.Random(48)
    literals = [f"'\\{byte:03o}'" for byte in range(0x30, 0x70)]
    lines = ["%%"]
    for left in range(1, 1025):
        bodies = []
        for _ in range(8):
            symbols = [f"n{draw.randint(1, 1024)}" if draw.random() < 0.5 else draw.choice(literals) for _ in range(draw.randint(1, 12))]
            bodies.append(" ".join(symbols))
        lines.append(f"n{left} : " + " | ".join(bodies[:7] + [draw.choice(literals) + f" n{left % 1024 + 1}"]) + " ;")
    return "\n".join(lines) + "\n"


def rows():
    """The rows' names, their grammars and texts, how the output begins, and at most how many seconds and MB."""
    xs = "x" * 2000
    yield "two s, 2,000 tokens", "%%\ns : s s | 'x' ;\n", xs, "inside", 0.3, 100
    yield "two or three s or none, 2,000 tokens", "%%\ns : s s | s s s | | 'x' ;\n", xs, "inside", 1, 200
    yield "right recursion, 2,000 tokens", "%%\ns : 'x' s | ;\n", xs, "inside", 0.1, 100
    yield "C expressions, 1,999 tokens", c_expressions(), "i" + "+i" * 999, "inside", 0.02, 100
    draw = random.Random(49)
    limits = "".join(chr(draw.randint(0x30, 0x6F)) for _ in range(2000))
    yield "8,192 rules, 2,000 tokens", at_the_limits(), limits, "", 2, 400


def main():
    path, bounds = program(), Bounds()
    for name, grammar, text, said, seconds, megabytes in rows():
        files = {"g.y": grammar, "g.l": LEX, "text": text}
        run = least(CommandRun(path, ["member", "g.y", "g.l", "text"], files) for _ in range(RUNS))
        bounds.status(name, run)
        if not run.begin.startswith(said):
            bounds.passed.append(name)
            print(f"{name}: {run.begin.strip()}, not {said}  PASSED")
        bounds.row("  time", run.seconds, seconds, "s")
        bounds.row("  memory", run.megabytes, megabytes, "MB")
    bounds.end()


if __name__ == "__main__":
    main()
