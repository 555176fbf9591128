#!/usr/bin/env python3
"""Times `conform wrong`: bench/wrong.py [PROGRAM].

Each row is a pair of files, with the processor seconds and the greatest memory of a run beside their bounds: the C
expressions, a grammar of 308 rules over 100 tokens, and 8,192 rules of up to 12 symbols, with some 140,000 slips. It ends
with status 1 where a bound is passed. Nothing here is part of the gate.
"""

from grammars import layered, random_rules, scanner
from measure import Bounds, CommandRun, program
from suite import expressions, least

# names, files, how many runs, and at most how many seconds and MB
ROWS = [
    ("wrong of the C expressions", expressions, 5, 0.02, 60),
    ("308 rules", lambda: (layered(22, 14, 100, 1), scanner(100)), 5, 0.1, 60),
    ("8,192 rules of up to 12 symbols", lambda: (random_rules(1024, 8, 12, 1), scanner()), 1, 20, 200),
]


def main():
    path, bounds = program(), Bounds()
    for name, files, runs, seconds, megabytes in ROWS:
        grammar, lex = files()
        run = least(CommandRun(path, ["wrong", "g.y", "g.l"], {"g.y": grammar, "g.l": lex}) for _ in range(runs))
        bounds.status(name, run)
        bounds.row("  time", run.seconds, seconds, "s")
        bounds.row("  memory", run.megabytes, megabytes, "MB")
    bounds.end()


if __name__ == "__main__":
    main()
