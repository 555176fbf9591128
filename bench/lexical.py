#!/usr/bin/env python3
"""Times `conform lexical`: bench/lexical.py [PROGRAM].

It is measured on the most rules there may be, of which few win anything and many overlap, and on the C expressions. It ends
with status 1 where a bound is passed. Nothing here is part of the gate.
"""

from measure import Bounds, CommandRun, program
from suite import expressions, least

RULES, ENDINGS = 2048, "abcdefgh"


def many_rules():
    """Rules in eight groups by their last letter: each two of a group overlap, no others, and one or two of each win."""
    lines = []
    for number in range(RULES):
        letters = 2 if number < 8 else 1 if number < 15 else 2 + number % 3
        lines.append(f"[a-z]{{{letters},}}x{ENDINGS[number % 8]} ;\n")
    return "%%\n" + "".join(lines)


def main():
    path, bounds = program(), Bounds()
    files = {"g.y": "%%\ns : 'x' ;\n", "g.l": many_rules()}
    run = least(CommandRun(path, ["lexical", "g.y", "g.l"], files) for _ in range(5))
    bounds.status("lexical of 2,048 rules", run)
    bounds.last_line("lexical of 2,048 rules", run, "end rules 2048 shadowed 2033 overlaps 261120 disjoint 1835008")
    bounds.row("  time", run.seconds, 0.05, "s")
    bounds.row("  memory", run.megabytes, 30, "MB")
    grammar, lex = expressions()
    run = least(CommandRun(path, ["lexical", "g.y", "g.l"], {"g.y": grammar, "g.l": lex}) for _ in range(20))
    bounds.status("lexical of the C expressions", run)
    bounds.row("  time", run.seconds, 0.01, "s")
    bounds.end()


if __name__ == "__main__":
    main()
