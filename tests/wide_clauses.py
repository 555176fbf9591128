#!/usr/bin/env python3
"""Counts the clauses of the crates with a line above 100 columns as it stands in the file, indentation included, and names them."""
import pathlib
import re
import sys

TOP = pathlib.Path(__file__).resolve().parent.parent if len(sys.argv) < 2 else pathlib.Path(sys.argv[1])
MOST = 100


def clauses(text):
    for start in re.finditer(r"^[ \t]*(?:requires|ensures)\*?\b[^{\n]*\{", text, re.M):
        depth, at = 1, start.end()
        while depth and at < len(text):
            depth += {"{": 1, "}": -1}.get(text[at], 0)
            at += 1
        lines = text[start.start() : at].split("\n")
        yield text.count("\n", 0, start.start()) + 1, max(lines, key=len)


wide = [
    (path.relative_to(TOP), line, clause)
    for path in sorted((TOP / "crates").glob("*/src/**/*.rt"))
    for line, clause in clauses(path.read_text())
    if len(clause) > MOST
]
for path, line, clause in wide:
    print(f"{path}:{line}: {len(clause)} columns: {clause.strip()}")
print(f"{len(wide)} clauses above {MOST} columns")
