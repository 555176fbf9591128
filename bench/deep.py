#!/usr/bin/env python3
"""Times `conform deep`: bench/deep.py [PROGRAM].

It is measured on the C expressions, with 1,000 bases and with the defaults. It ends with status 1 where a bound is passed.
Nothing here is part of the gate.
"""

from measure import Bounds, CommandRun, program
from suite import expressions, least

RUNS = 5


def main():
    path, bounds = program(), Bounds()
    grammar, lex = expressions()
    files = {"g.y": grammar, "g.l": lex}
    for name, options, seconds in (("1,000 bases", ["--bases=1000"], 0.5), ("16 bases", [], 0.02)):
        run = least(CommandRun(path, ["deep", "g.y", "g.l", *options], files) for _ in range(RUNS))
        bounds.status(f"deep of the C expressions, {name}", run)
        print(f"  {run.last_line}")
        bounds.row("  time", run.seconds, seconds, "s")
        bounds.row("  memory", run.megabytes, 100, "MB")
    bounds.end()


if __name__ == "__main__":
    main()
