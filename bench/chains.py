#!/usr/bin/env python3
"""Times `conform chains`: bench/chains.py [PROGRAM].

980,100 chains are written, in time that stands beside copying the output, and 8,192 rules with too many chains are refused,
which takes their reading and the count alone. It ends with status 1 where a bound is passed. Nothing here is part of the gate.
"""

from grammars import beside_itself, random_rules
from measure import Bounds, CommandRun, program
from suite import copying, least

COUNT = 980_100
TURNS = 15


def in_turn(start):
    """The run of the fewest seconds, and the least that copying takes: one behind the other, since a machine's speed changes."""
    runs, copies = [], []
    for _ in range(TURNS):
        runs.append(start())
        copies.append(copying(runs[-1].written))
    return least(runs), min(copies)


def main():
    path, bounds = program(), Bounds()
    run, copied = in_turn(lambda: CommandRun(path, ["chains", "g.y"], {"g.y": beside_itself(100)}))
    bounds.status("980,100 chains", run)
    bounds.last_line("980,100 chains", run, f"end goals {COUNT} feasible {COUNT} infeasible 0 large 0")
    bounds.row("  time, against copying the output", run.seconds / max(copied, 0.001), 3, "times")
    bounds.row("  memory", run.megabytes, 10, "MB")
    run = least(CommandRun(path, ["chains", "g.y"], {"g.y": random_rules(1024, 8, 12, 1)}) for _ in range(5))
    bounds.status("8,192 rules with too many chains", run, 1)
    bounds.row("  time, with their reading", run.seconds, 0.03, "s")
    bounds.end()


if __name__ == "__main__":
    main()
