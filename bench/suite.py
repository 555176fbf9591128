#!/usr/bin/env python3
"""Times `conform suite`: bench/suite.py [PROGRAM].

Each row is a pair of files, with the status of one run, which has to be 0, and its processor seconds and greatest memory beside
their bounds. It ends with status 1 where one is passed or the status is another. Nothing here is part of the gate.
"""

import os
import resource
import subprocess
import tempfile

from grammars import many_sentences, one_sentence, random_rules, scanner
from measure import TOP, Bounds, SuiteRun, program

TURNS = 9


def example(name):
    with open(os.path.join(TOP, "examples", name)) as file:
        return file.read()


def expressions():
    return example("cexpr.y"), example("cexpr.l")


def pairs():
    return random_rules(1024, 8, 12, 1), scanner()


def long_sentence():
    return one_sentence(), scanner()


# The files, the words, how many runs, the most seconds and the most memory.
ROWS = [
    ("the C expressions without mutants", expressions, ["--mutate=none", "--format=1"], 5, 0.02, 60),
    ("the C expressions, first format", expressions, ["--format=1"], 5, 0.05, 60),
    ("the C expressions", expressions, [], 5, 0.05, 60),
    ("all pairs of 8,192 rules, first format", pairs, ["--mutate=none", "--criteria=pair", "--format=1"], 2, 3, 60),
    ("all pairs of 8,192 rules", pairs, ["--mutate=none", "--criteria=pair"], 2, 4, 80),
    ("8,192 rules and one sentence, all criteria, first format", long_sentence, ["--mutate=none", "--format=1"], 2, 3, 60),
]


def copying(size):
    """The processor seconds that copying a file of so many bytes takes."""
    with tempfile.TemporaryDirectory() as folder:
        source = os.path.join(folder, "source")
        with open(source, "wb") as file:
            for _ in range(size // 1_000_000 + 1):
                file.write(b"negative 1 base 1 insert 0 t1\n" * 33_334)
        before = resource.getrusage(resource.RUSAGE_CHILDREN)
        subprocess.run(["cp", source, os.path.join(folder, "copy")], check=True)
        after = resource.getrusage(resource.RUSAGE_CHILDREN)
    return after.ru_utime + after.ru_stime - before.ru_utime - before.ru_stime


def least(runs):
    """The run of the fewest processor seconds."""
    return min(runs, key=lambda run: run.seconds)


def many_bases(path, bounds):
    """Negatives of 1,000 bases over 150 tokens, beside copying the output, and the kept ones beside all. They are taken in turn, since
    a machine's speed changes."""
    words = ["--criteria=rule", "--bases=1000", "--format=1"]
    grammar, lex = many_sentences(150, 1000), scanner(150)
    runs, kept_runs, copies = [], [], []
    for _ in range(TURNS):
        runs.append(SuiteRun(path, grammar, lex, words))
        kept_runs.append(SuiteRun(path, grammar, lex, [*words, "--first=10"]))
        copies.append(copying(runs[-1].written))
    run, kept, copied = least(runs), least(kept_runs), min(copies)
    bounds.status("1,000 bases over 150 tokens", run)
    bounds.row("  time, against copying the output", run.seconds / max(copied, 0.001), 3, "times")
    bounds.row("  memory", run.megabytes, 60, "MB")
    bounds.status("1,000 bases over 150 tokens, ten negatives of each operator and left mark", kept)
    bounds.row("  time, against all negatives", kept.seconds / max(run.seconds, 0.001), 0.2, "times")
    bounds.row("  memory", kept.megabytes, 60, "MB")


def main():
    path, bounds = program(), Bounds()
    many_bases(path, bounds)
    for name, make, words, times, seconds, megabytes in ROWS:
        grammar, lex = make()
        run = least(SuiteRun(path, grammar, lex, words) for _ in range(times))
        bounds.status(name, run)
        bounds.row("  time", run.seconds, seconds, "s")
        bounds.row("  memory", run.megabytes, megabytes, "MB")
    bounds.end()


if __name__ == "__main__":
    main()
