#!/usr/bin/env python3
"""Times the check of a crate behind an edit: bench/checks.py [CRATE ..].

Each row is a function whose proof takes long, and the seconds by the clock that `rt check` takes once a statement was added to its body,
beside their bound. All is done in a copy of this repository. A crate is checked before its functions are edited, which isn't timed:
that takes seconds where `rt check` was run in its folder here, and else minutes for it and for each crate below. It wants a free
machine, and ends with status 1 where a bound is passed. Nothing here is part of the gate.
"""

import os
import re
import shutil
import subprocess
import sys
import tempfile
import time

from measure import TOP, Bounds, left_out

MOST_SECONDS = 60
ADDED = "    let _edited = 0_u8;\n"
# By crate the functions that take longest, each with its file.
FUNCTIONS = {
    "cs_pattern": [("text/definitions.rt", "check"), ("text/compiling.rt", "compile_items")],
    "cs_scanner": [("scanning/comparing.rt", "advance")],
    "cs_yacc": [("reading/read.rt", "meaning"), ("reading/gather.rt", "tokens")],
    "cs_lex": [("reading/read.rt", "read_lex")],
    "cs_pairs": [("pairs/pairs.rt", "new")],
    "cs_check": [("checking/pass.rt", "check")],
    "cs_member": [("chart/buckets.rt", "add_first")],
    "cs_manifest": [("filling/open.rt", "new")],
    "cs_words": [("setting.rt", "read_option")],
    "cs_chain_text": [("writing/writing.rt", "tell")],
    "cs_wrong": [("writing/writing.rt", "write_slips")],
    "cs_writing": [("writing/mutants.rt", "write_each"), ("writing/writing.rt", "write_manifest")],
    "cs_run": [
        ("command/command.rt", "perform"),
        ("command/command.rt", "fulfil"),
        ("writer/suite.rt", "write_goals"),
        ("writer/suite.rt", "write_verdicts"),
    ],
}


def with_statement(text, name):
    """The text of a file with a statement more at the beginning of that function's body."""
    found = re.search(rf"^( *)(?:pub(?:\(crate\))? )?fn {name}\b.*?^\1\{{\n", text, re.M | re.S)
    if not found:
        sys.exit(f"no function {name} with a body of its own lines")
    return text[: found.end()] + found[1] + ADDED + text[found.end() :]


def check(folder, name):
    """Checks the crate, and answers the seconds by the clock."""
    begin = time.monotonic()
    done = subprocess.run(["rt", "check"], cwd=os.path.join(folder, "crates", name), capture_output=True, text=True)
    if done.returncode:
        sys.exit(done.stdout + done.stderr)
    return time.monotonic() - begin


def put_back(kept, state):
    shutil.rmtree(state, ignore_errors=True)
    shutil.copytree(kept, state, symlinks=True)


def behind_edits(folder, name, bounds):
    """Each edit is checked behind what was kept of the crate without one."""
    state, kept = os.path.join(folder, "crates", name, "out", "incremental"), os.path.join(folder, "kept")
    here = os.path.join(TOP, "crates", name, "out", "incremental")
    if os.path.isdir(here):
        put_back(here, state)
    check(folder, name)
    put_back(state, kept)
    for file, function in FUNCTIONS[name]:
        path = os.path.join(folder, "crates", name, "src", file)
        with open(path) as source:
            text = source.read()
        with open(path, "w") as source:
            source.write(with_statement(text, function))
        bounds.row(f"{name}, behind an edit of {function}", check(folder, name), MOST_SECONDS, "s")
        with open(path, "w") as source:
            source.write(text)
        put_back(kept, state)


def main():
    bounds = Bounds()
    with tempfile.TemporaryDirectory() as room:
        copy = os.path.join(room, "copy")
        shutil.copytree(TOP, copy, ignore=left_out)
        for name in sys.argv[1:] or FUNCTIONS:
            behind_edits(copy, name, bounds)
    bounds.end()


if __name__ == "__main__":
    main()
