#!/usr/bin/env python3
"""Times `conform check`: bench/check.py [PROGRAM].

Each row is a suite that the program writes first: that of the C expressions with 1,000 bases and with the defaults, and all pairs
of 8,192 rules over 512 tokens, where nearly all have a case or nearly none. What is said of it has to be yes, and the processor
seconds and the greatest memory of a run stand beside their bounds: it may keep the suite and so many MB. It ends with status 1
where a bound is passed. Nothing here is part of the gate.
"""

import os
import subprocess
import sys
import tempfile

from grammars import random_rules, scanner
from measure import Bounds, CommandRun, program
from suite import expressions, least, long_sentence

RUNS = 5
MEGABYTES = 8
ALL_PAIRS = ["--criteria=pair", "--mutate=none"]


def pairs():
    """The suite of all pairs of these is almost as long as one that is checked may be."""
    return random_rules(1024, 8, 4, 2), scanner()


# The name, the files, the options, the goals and negatives, and at most how many seconds.
ROWS = [
    ("C expressions, 1,000 bases", expressions, ["--bases=1000"], (2776, 294284), 0.25),
    ("C expressions", expressions, [], (2776, 3587), 0.01),
    ("all pairs of 8,192 rules of up to 4 symbols", pairs, ALL_PAIRS, (263169, 0), 1),
    ("all pairs of 8,192 rules and one sentence", long_sentence, ALL_PAIRS, (263169, 0), 1),
]


def suite(path, files, options):
    """What the program writes of the files."""
    with tempfile.TemporaryDirectory() as folder:
        for name, text in files.items():
            with open(os.path.join(folder, name), "w") as file:
                file.write(text)
        return subprocess.run([path, "suite", *files, *options], cwd=folder, stdout=subprocess.PIPE, check=True).stdout


def main():
    path, bounds = program(), Bounds()
    if CommandRun(path, ["check"], {}).said == "conform: usage: word 0":
        sys.exit(f"{path} hasn't the command check")
    for name, make, options, (goals, negatives), seconds in ROWS:
        files = dict(zip(("g.y", "g.l"), make()))
        text = suite(path, files, options)
        words = ["check", *files, "manifest"]
        run = least(CommandRun(path, words, {**files, "manifest": text}) for _ in range(RUNS))
        print(f"{name}: a suite of {len(text)} bytes")
        bounds.status(name, run)
        bounds.last_line(name, run, f"yes goals {goals} negatives {negatives}")
        bounds.row("  time", run.seconds, seconds, "s")
        bounds.row("  memory", run.megabytes, len(text) / 2**20 + MEGABYTES, "MB")
    bounds.end()


if __name__ == "__main__":
    main()
