#!/usr/bin/env python3
"""Times the tools that try parsers, with frames in one process: bench/trying.py [PROGRAM].

Each row is seconds by the clock beside their bound: 10,000 texts to a frame that answers each with one word; and the C
expressions from the files to the causes, by a frame that takes all but texts with a bracket. It ends with status 1
where a bound is passed. Nothing here is part of the gate.
"""

import os
import subprocess
import sys
import tempfile
import time

from measure import TOP, Bounds, program

TEXTS = 10_000
REFUSING = """import sys
for line in sys.stdin:
    print("refused", flush=True)
"""
NO_BRACKETS = """import base64, sys
for line in sys.stdin:
    print("refused" if b"[" in base64.b64decode(line) else "taken", flush=True)
"""


def seconds(tool, words, frame, status):
    began = time.monotonic()
    words = [os.path.join(TOP, "tools", tool), *words, "--batch", "--", sys.executable, "-c", frame]
    done = subprocess.run(words, stdout=subprocess.PIPE)
    if done.returncode != status:
        sys.exit(f"{words} ended with status {done.returncode}: {done.stdout.decode()}")
    return time.monotonic() - began


def many(folder):
    """An output with so many negatives of different texts."""
    path = os.path.join(folder, "wrong")
    with open(path, "w") as file:
        file.write("conform wrong\n")
        for number in range(1, TEXTS + 1):
            file.write(f'wrong {number} rule 1 drop 1 outside\n  tokens\n  text "{number}"\n')
        file.write(f"end slips {TEXTS} none 0 large 0 again 0 long 0 sentences 0 wrong {TEXTS}\n")
    return path


def main():
    bounds, built = Bounds(), program()
    files = [os.path.join(TOP, "examples", name) for name in ("cexpr.y", "cexpr.l")]
    with tempfile.TemporaryDirectory() as folder:
        suite = os.path.join(folder, "suite")
        with open(suite, "wb") as file:
            subprocess.run([built, "suite", *files], stdout=file, check=True)
        bounds.row(f"{TEXTS} texts", seconds("try_parser", [many(folder)], REFUSING, 0), 2, "s")
        bounds.row("the C expressions, the suite", seconds("try_parser", [suite], NO_BRACKETS, 1), 3, "s")
        bounds.row("the C expressions, all of it", seconds("try_grammar", [built, *files], NO_BRACKETS, 1), 3, "s")
    bounds.end()


if __name__ == "__main__":
    main()
