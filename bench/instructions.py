#!/usr/bin/env python3
"""Counts the instructions of `conform`, which are the same on each machine: bench/instructions.py [PROGRAM].

Each row is a run below valgrind's callgrind, beside its bound; figures are millions, and of the made grammar thousands for
each feasible goal. It ends with status 1 where a bound is passed. Nothing here is part of the gate.
"""

import os
import re
import shutil
import subprocess
import sys
import tempfile

from grammars import layered, scanner
from measure import TOP, Bounds, program

COUNTED = ["valgrind", "--tool=callgrind", "--callgrind-out-file=counts"]
EXAMPLES = os.path.join(TOP, "examples")
EXPRESSIONS = [os.path.join(EXAMPLES, name) for name in ("cexpr.y", "cexpr.l")]
# Words, and the most millions of instructions.
ROWS = [
    ("suite of the C expressions", ["suite", *EXPRESSIONS], 23),
    ("the same without mutants", ["suite", *EXPRESSIONS, "--mutate=none"], 18),
    ("rules of the C expressions", ["rules", EXPRESSIONS[0]], 1.05),
]
# 308 rules over 100 tokens, with 14,687 feasible goals.
MADE = (22, 14, 100, 1)
MOST_FOR_A_GOAL = 8.3


def counted(path, words, folder):
    """The instructions of a run, and its last line."""
    with open(os.path.join(folder, "out"), "w+b") as out:
        done = subprocess.run([*COUNTED, path, *words], cwd=folder, stdout=out, stderr=subprocess.PIPE, text=True)
        out.seek(max(out.tell() - 200, 0))
        last = out.read().decode("latin-1").rstrip("\n").rpartition("\n")[2]
    found = re.search(r"Collected : (\d+)", done.stderr)
    if done.returncode or not found:
        sys.exit(f"{' '.join(words)}: status {done.returncode}\n{done.stderr}")
    return int(found[1]), last


def made_grammar(path, folder, bounds):
    for name, text in (("g.y", layered(*MADE)), ("g.l", scanner(MADE[2]))):
        with open(os.path.join(folder, name), "w") as file:
            file.write(text)
    count, last = counted(path, ["suite", "g.y", "g.l", "--mutate=none"], folder)
    feasible = int(re.search(r" feasible (\d+) ", last)[1])
    bounds.row(f"a made grammar, for each of {feasible} feasible goals", count / feasible / 1000, MOST_FOR_A_GOAL, "thousands")


def main():
    path, bounds = program(), Bounds()
    if not shutil.which(COUNTED[0]):
        sys.exit("valgrind isn't there")
    with tempfile.TemporaryDirectory() as folder:
        for name, words, most in ROWS:
            bounds.row(name, counted(path, words, folder)[0] / 1e6, most, "millions")
        made_grammar(path, folder, bounds)
    bounds.end()


if __name__ == "__main__":
    main()
