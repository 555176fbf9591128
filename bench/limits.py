#!/usr/bin/env python3
"""Times `conform rules` on grammars at the limits: bench/limits.py [PROGRAM].

Each row is a yacc file that is made here, with the status of one run, which has to be 0, and its processor seconds and greatest
memory beside their bounds. It ends with status 1 where one is passed or the status is another. Nothing here is part of the gate.
"""

from grammars import ROWS, chain, chain_in_the_opposite_order
from measure import Bounds, Run, program

SECONDS = {
    "1,048,576 bytes": 0.1,
    "1,024 nonterminals in a chain": 0.1,
    "the same, the last one first": 0.1,
    "8,192 rules of up to 12 symbols": 0.03,
    "8,192 rules of up to 4 symbols": 0.03,
    "4,000 rules of 128 symbols": 0.4,
}
MEGABYTES = 40


def least_of(path, text, times=5):
    return min((Run(path, text) for _ in range(times)), key=lambda run: run.seconds)


def main():
    path, bounds = program(), Bounds()
    for name, make in ROWS:
        run = least_of(path, make())
        bounds.status(name, run)
        bounds.row("  time", run.seconds, SECONDS[name], "s")
        bounds.row("  memory", run.megabytes, MEGABYTES, "MB")
    forward, backward = least_of(path, chain(1024), 20), least_of(path, chain_in_the_opposite_order(1024), 20)
    bounds.row("a chain of 1,024 with its rules in the opposite order", backward.seconds / max(forward.seconds, 0.001), 1.2, "times")
    bounds.end()


if __name__ == "__main__":
    main()
