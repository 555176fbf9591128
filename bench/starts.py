#!/usr/bin/env python3
"""Times the script `conform` beside the program that it runs: bench/starts.py.

Both run `rules` on examples/g1.y, and so does the script once after its choice was forgotten, as in a new clone. The
figures are processor time, of many runs the least, beside their bounds. It ends with status 1 where one is passed.
Nothing here is part of the gate.
"""

import glob
import os
import subprocess
import sys
import tempfile

from measure import TOP, Bounds, least, ran

SCRIPT = os.path.join(TOP, "conform")
WORDS = ["rules", os.path.join(TOP, "examples", "g1.y")]
RUNS = 100


def chosen():
    """The program that the script runs."""
    told = subprocess.run([SCRIPT, "--version"], capture_output=True, text=True).stdout.splitlines()
    if not told or not told[-1].startswith("runs "):
        sys.exit("there is no program of the sources as they stand: ./conform --build builds it")
    return os.path.join(TOP, told[-1].split(" ")[1].rstrip(","))


def main():
    program, bounds = chosen(), Bounds()
    for path in glob.glob(os.path.join(TOP, "crates", "cs_cli", "out", "conform.*-*")):
        os.remove(path)
    with tempfile.TemporaryDirectory() as folder:
        bounds.row("the first run", ran(SCRIPT, folder, WORDS)[1], 1, "s")
        more = least(SCRIPT, folder, WORDS, RUNS)[1] - least(program, folder, WORDS, RUNS)[1]
        bounds.row("each other run, above the program's own", 1000 * more, 10, "ms")
    bounds.end()


if __name__ == "__main__":
    main()
