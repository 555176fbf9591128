#!/usr/bin/env python3
"""Runs the commands that the documents show, and compares what they write: page_runs.py [PROGRAM].

The commands of a page run one after another in a folder of their own, where ./conform is the program. A block that
begins with `$ ` has commands, each with its output below it. A block that is marked `sh` is a script, and one that is
marked `text` is what the script above writes on its standard output. One whose first line is a comment with a path is
that file. It prints what differs, and ends with status 1 where something does.
"""

import os
import re
import subprocess
import sys
import tempfile

sys.dont_write_bytecode = True

from pages import TOP, blocks, marked_blocks, read

BUILT = os.path.join(TOP, "crates", "cs_cli", "out", "cs_cli")
PROGRAM = os.path.abspath(sys.argv[1]) if len(sys.argv) > 1 else BUILT
PAGES = ["README.md", "docs/FORMATS.md", "docs/GUIDE.md"]
SECONDS = 300
LISTS = ["examples/lists.y", "examples/lists.l"]
NAMED = re.compile(r"(?:#|//|/\*) (\S+/\S+)(?: \*/)?\n")

# Stands for the script conform, which would build the program first.
CONFORM = f"""#!/bin/sh
case "$1" in
try) shift; exec '{TOP}/tools/try_grammar' '{PROGRAM}' "$@" ;;
--explain) shift; exec python3 '{TOP}/tools/explain' '{PROGRAM}' "$@" ;;
esac
exec '{PROGRAM}' "$@"
"""


def ran(script, folder):
    """The status of a script, and what it wrote on its output and on its error output."""
    clean = {**os.environ, "PYTHONDONTWRITEBYTECODE": "1"}
    words = {"cwd": folder, "env": clean, "stdin": subprocess.DEVNULL, "capture_output": True, "text": True}
    done = subprocess.run(["bash", "-c", script], timeout=SECONDS, **words)
    return done.returncode, done.stdout, done.stderr


def written(path, text):
    os.makedirs(os.path.dirname(path), exist_ok=True)
    with open(path, "w", encoding="utf-8") as file:
        file.write(text)
    os.chmod(path, 0o755)


def session(block):
    """The commands of a block, each with its output."""
    for step in re.split(r"^\$ ", block, flags=re.M)[1:]:
        yield step.split("\n", 1)


def steps(page, folder):
    """The scripts of a page, each with its output, or None where none is shown; files are written on the way."""
    waiting = None
    for mark, block in marked_blocks(page):
        if mark == "text" and waiting:
            yield waiting, block
            waiting = None
            continue
        if waiting:
            yield waiting, None
        waiting = block if mark == "sh" else None
        if block.startswith("$ "):
            yield from session(block)
        elif named := NAMED.match(block):
            written(os.path.join(folder, named[1]), block)
    if waiting:
        yield waiting, None


def step_failures(name, folder):
    """The scripts that write something else, or show nothing and end with a status above 1."""
    for script, wanted in steps(read(name), folder):
        status, output, said = ran(script, folder)
        if output != wanted and (wanted is not None or status > 1):
            yield f"{name}: {script.strip()}: status {status}\n{output}{said}"


def page_failures(name):
    """What differs on a page, its commands run in a folder with the program, the tools and the examples."""
    with tempfile.TemporaryDirectory() as folder:
        for part in ("tools", "examples"):
            os.symlink(os.path.join(TOP, part), os.path.join(folder, part))
        written(os.path.join(folder, "conform"), CONFORM)
        yield from step_failures(name, folder)


def stored_failures():
    """Whether examples/lists.suite is what the program writes, and has the lines that README.md explains, in order."""
    stored = read("examples/lists.suite")
    done = subprocess.run([PROGRAM, "suite", *LISTS], cwd=TOP, capture_output=True, text=True, timeout=SECONDS)
    if done.stdout != stored:
        yield f"examples/lists.suite isn't what suite writes: status {done.returncode}, {done.stderr}"
    lines, explained = iter(stored.split("\n")), blocks(read("README.md"))[1].splitlines()
    yield from (f"README.md: {line} doesn't stand there in the suite" for line in explained if line not in lines)


def main():
    if not os.path.exists(PROGRAM):
        sys.exit(f"{PROGRAM} isn't there: rt ci or ./conform --build builds it")
    failed = [*stored_failures()]
    for name in PAGES:
        failed += page_failures(name)
    print("\n".join(failed), file=sys.stderr, end="\n" if failed else "")
    sys.exit(1 if failed else 0)


main()
