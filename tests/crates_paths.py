#!/usr/bin/env python3
"""Names what crates.txt has too much of, and ends with status 1 where there is something to name. No words are read.

The kit walks each path from a crate down through crates.txt, whole, so that a check of a crate with many paths takes long
before the prover starts. No crate but those of tests may have more than MOST of them, and no line may have a crate that no
file of its own crate cites.
"""

import functools
import pathlib
import re
import sys

TOP = pathlib.Path(__file__).resolve().parent.parent
MOST = 1500


def read_needs(text):
    needs = {}
    for line in text.splitlines():
        head, _, below = line.split("#")[0].partition(":")
        if head.strip():
            needs[head.split()[0]] = below.split()
    return needs


NEEDS = read_needs((TOP / "crates.txt").read_text())


@functools.cache
def paths(crate):
    """How many paths begin at a crate, the one that ends there too."""
    return 1 + sum(paths(below) for below in NEEDS.get(crate, ()))


def cited(crate):
    """The crates that a crate's files cite: by Rattle.NAME. in definitions and proofs, by NAME:: in code."""
    found = set()
    for path in sorted((TOP / "crates" / crate).glob("*/**/*.*t")):
        if path.relative_to(TOP / "crates" / crate).parts[0] in ("src", "specs", "proofs"):
            found.update(re.findall(r"\bRattle\.([a-z_0-9]+)\.|\b([a-z_0-9]+)::", path.read_text()))
    return {name for pair in found for name in pair}


wrong = [f"{crate}: {paths(crate)} paths, at most {MOST}" for crate in NEEDS if not crate.startswith("test_") and paths(crate) > MOST]
for crate, below in NEEDS.items():
    names = cited(crate)
    wrong += [f"{crate}: {name} is cited nowhere" for name in below if name not in names]
print("\n".join(wrong + [f"{len(wrong)} faults of crates.txt; {paths('cs_cli')} paths of cs_cli"]))
sys.exit(1 if wrong else 0)
