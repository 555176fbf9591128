#!/usr/bin/env python3
"""Follows docs/GUIDE.md: guide_runs.py [PROGRAM]. It runs each block of commands in order, with files that blocks of
other languages write, and compares what they print with the block behind them. It prints the blocks that fail, and ends
with status 1 where one did.

The blocks run in a folder of their own, where `conform` runs the built program.
"""

import os
import re
import shutil
import subprocess
import sys

sys.dont_write_bytecode = True

from suites import TOP, end, written

PROGRAM = os.path.abspath(sys.argv[1]) if len(sys.argv) > 1 else os.path.join(TOP, "crates", "cs_cli", "out", "cs_cli")
CONFORM = f"""#!/bin/sh
if [ "$1" = try ]; then shift; exec tools/try_grammar {PROGRAM} "$@"; fi
exec {PROGRAM} "$@"
"""
# A parser in C that takes what has no comma, for the frame in C; and a main function that is started for each text.
TAKES = "#include <string.h>\nint takes(const char *text, size_t length) { return !memchr(text, ',', length); }\n"
ALONE = """#include <stdio.h>
int takes(const char *text, size_t length);
static char text[65536];
int main(void) { return !takes(text, fread(text, 1, sizeof text, stdin)); }
"""
# A grammar with a token that stands in a rule that nothing reaches alone, and its suite.
UNREACHED = """
sed 's/^members .*/&\\nnone : NAN ;/; s/^%token /%token NAN /' examples/lists.y > out/nan.y
sed 's/^\\[0-9\\]/nan return NAN;\\n&/' examples/lists.l > out/nan.l
./conform suite out/nan.y out/nan.l > out/nan
"""


def blocks():
    """The language and the text of each block that has one."""
    with open(os.path.join(TOP, "docs", "GUIDE.md"), encoding="utf-8") as file:
        return re.findall(r"^```(\w+)\n(.*?)^```$", file.read(), re.M | re.S)


def fresh(folder):
    for name in ("tools", "examples"):
        shutil.copytree(os.path.join(TOP, name), os.path.join(folder, name))
    os.mkdir(os.path.join(folder, "out"))
    os.chmod(written(folder, "conform", CONFORM), 0o755)


def ran(folder, script):
    done = subprocess.run(["bash", "-c", script], cwd=folder, capture_output=True, timeout=300)
    return done.stdout.decode(), done.stderr.decode()


def guide(folder):
    fresh(folder)
    output, errors = "", ""
    for language, text in blocks():
        if language == "sh":
            output, errors = ran(folder, text)
        elif language == "text":
            if output != text:
                yield f"the guide shows\n{text}and it is\n{output}{errors}"
        else:
            written(folder, re.search(r"out/[\w.]+", text)[0], text)


def frame_in_c(folder):
    """The frame in C answers as a parser that is started for each text does."""
    if not shutil.which("cc"):
        return
    written(folder, "out/takes.c", TAKES)
    written(folder, "out/alone.c", ALONE)
    _, errors = ran(folder, "for name in frame alone; do cc -Wall -o out/$name out/$name.c out/takes.c; done")
    calls = ("--batch -- out/frame", "-- out/alone")
    tables = [ran(folder, f"tools/try_parser out/suite {words}")[0] for words in calls]
    if errors or tables[0] != tables[1] or "wrongly taken" not in tables[0] or "wrongly refused" not in tables[0]:
        yield f"the frame in C: {tables}{errors}"


def unreached(folder):
    """A rule that nothing reaches brings tokens of which each edit that puts one in is a negative."""
    ran(folder, UNREACHED)
    found = ran(folder, "grep -c '^negative .* insert . NAN' out/nan; grep -c '^goal 8 rule 8 infeasible' out/nan")[0]
    if not re.fullmatch(r"[1-9]\d+\n1\n", found):
        yield f"a token that nothing reaches: {found}"


end(guide, frame_in_c, unreached)
