#!/usr/bin/env python3
"""Times `conform spell`: bench/spell.py [PROGRAM].

It stands beside the positives of rules on the same files, whose goals it needs. It ends with status 1 where a bound is passed.
Nothing here is part of the gate.
"""

import os

from measure import TOP, Bounds, CommandRun, program
from suite import expressions, least

RUNS = 20


def lists():
    """The yacc file and the lex file of the lists."""
    return [open(os.path.join(TOP, "examples", name)).read() for name in ("lists.y", "lists.l")]


def main():
    path, bounds = program(), Bounds()
    for name, (grammar, lex) in {"the lists": lists(), "the C expressions": expressions()}.items():
        files = {"g.y": grammar, "g.l": lex}
        run = least(CommandRun(path, ["spell", "g.y", "g.l"], files) for _ in range(RUNS))
        words = ["suite", "g.y", "g.l", "--criteria=rule", "--mutate=none"]
        suite = least(CommandRun(path, words, files) for _ in range(RUNS))
        bounds.status(f"spell of {name}", run)
        bounds.row("  time, against the positives of rules", run.seconds / max(suite.seconds, 0.0001), 1.2, "times")
        bounds.row("  memory", run.megabytes, 30, "MB")
    bounds.end()


if __name__ == "__main__":
    main()
