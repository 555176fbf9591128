#!/usr/bin/env python3
"""Times `conform gen`: bench/summaries.py [PROGRAM].

The summaries of the numbers from 1 to 200, one run each: that each ends with status 0, and the processor seconds of all of them
beside their bound. It ends with status 1 where one is passed. Nothing here is part of the gate.
"""

from measure import Bounds, Run, program


class SummaryRun(Run):
    """One run of `gen` on a number."""

    def __init__(self, path, seed):
        self.measure([path, "gen", str(seed)], {})


def main():
    path, bounds = program(), Bounds()
    runs = [SummaryRun(path, seed) for seed in range(1, 201)]
    bounds.row("gen 1 to gen 200, status other than 0", sum(run.status != 0 for run in runs), 0, "runs")
    bounds.row("gen 1 to gen 200, time", sum(run.seconds for run in runs), 2, "s")
    bounds.row("gen 1 to gen 200, most memory", max(run.megabytes for run in runs), 60, "MB")
    bounds.end()


if __name__ == "__main__":
    main()
