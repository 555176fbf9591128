#!/usr/bin/env python3
"""Runs the script conform on made-up trees: conform_runs.py.

It prints the rows that fail, and ends with status 1 where one did.
"""

import os
import pty
import shutil
import subprocess
import sys

sys.dont_write_bytecode = True

from made_tree import BUILDING, BUILT, FILES, KIT, LIB, NO_KIT, OTHER, OUT, RELEASED, STATES, TOP, Tree
from made_tree import all_of, command, damage, file, fits, lines, no_command, none, program, run_groups, same
from made_tree import source, system
from rows import in_order

WORD = "crates/low/specs/more/Word.antt"
PROOFS = "crates/low/proofs"
ARM = "#!/bin/sh\necho Linux aarch64\n"
INTEL = "#!/bin/sh\necho Linux x86_64\n"
# A find that doesn't know some word.
OLD_FIND = f"""#!/bin/sh
case $* in *WORD*) exit 1 ;; esac
exec {shutil.which("find")} "$@"
"""
NO_DIGESTS = "conform: the command sha256sum isn't there\n"
FOREIGN = f"conform: {RELEASED} is for Linux on x86-64\n"
MISSING = f"conform: there is no {RELEASED}\n"
DAMAGED = f"conform: {RELEASED} isn't the released program: its SHA-256 is "
STUCK = f"conform: {RELEASED} doesn't run on this machine: "


def source_of_old_time(text):
    def change(tree):
        before = os.stat(tree.path(LIB))
        tree.write(LIB, text)
        os.utime(tree.path(LIB), ns=(before.st_atime_ns, before.st_mtime_ns))

    return change


def renamed(name, other):
    return lambda tree: os.rename(tree.path(name), tree.path(other))


def mode(number):
    return lambda tree: os.chmod(tree.path(RELEASED), number)


def same_times(tree):
    for folder, _, names in os.walk(tree.top):
        for name in names:
            os.utime(os.path.join(folder, name), (1_000_000_000, 1_000_000_000))


# What becomes of a tree, step by step; the status of a run behind it, which program it was, and what is said, in order.
STEPS = [
    ("a fresh tree", same, 3, "released", []),
    ("times that are all the same", same_times, 3, "released", []),
    ("no command that reads contents", no_command("sha256sum"), 3, "released", []),
    ("a changed proof without it", file(f"{PROOFS}/parts/part/Answers.antt", "new"), 3, "released", []),
    ("a new proof without it", file(f"{PROOFS}/more/Lemma.antt"), 3, "released", []),
    ("a changed source without it", source("new"), 70, "", [NO_DIGESTS]),
    ("a changed source", system("sha256sum"), 70, "", [OTHER, NO_KIT]),
    ("the source as it was", source("low"), 3, "released", []),
    ("a changed source of the old time", source_of_old_time("new"), 70, "", [OTHER, NO_KIT]),
    ("that one as it was", source_of_old_time("low"), 3, "released", []),
    ("a source with another name", renamed(LIB, LIB + "s"), 70, "", [OTHER, NO_KIT]),
    ("its old name", renamed(LIB + "s", LIB), 3, "released", []),
    ("a new folder of sources", file(WORD), 70, "", [OTHER, NO_KIT]),
    ("none", none("crates/low/specs"), 3, "released", []),
    ("no proofs", none(PROOFS), 3, "released", []),
    ("a crate on fewer", file("crates.txt", "cs_cli: high low\nhigh: low\nlow: kit"), 70, "", [OTHER, NO_KIT]),
    ("a new crate of tests", file("crates.txt", FILES["crates.txt"] + "\ntest_high: high\n"), 3, "released", []),
    ("another edit", file("crates/low/must-fail/a.edit", "new"), 3, "released", []),
    ("a find without lists", command("find", OLD_FIND.replace("WORD", "files0-from")), 3, "released", []),
    ("and no command that reads contents", no_command("sha256sum"), 3, "released", []),
    ("and a changed source", source_of_old_time("new"), 70, "", [NO_DIGESTS]),
    ("all as it was", all_of(source_of_old_time("low"), system("sha256sum")), 3, "released", []),
    ("a find without times", command("find", OLD_FIND.replace("WORD", "newercm")), 3, "released", []),
    ("and a changed source, again", source_of_old_time("new"), 70, "", [OTHER, NO_KIT]),
    ("all as it was, again", all_of(source_of_old_time("low"), system("find")), 3, "released", []),
    ("a byte of the released program", damage, 70, "", [DAMAGED, "conform: git checkout release brings it back"]),
    ("the same again", same, 70, "", [DAMAGED]),
    ("the released one again", Tree.release, 3, "released", []),
    ("one that may not run", mode(0o644), 70, "", [STUCK, NO_KIT]),
    ("it may", mode(0o755), 3, "released", []),
    ("another machine", all_of(command("uname", ARM), none(OUT)), 70, "", [FOREIGN, NO_KIT]),
    ("the kit", command("rt", KIT), 3, "built", [FOREIGN, BUILDING, *STATES]),
    ("built already", no_command("rt"), 3, "built", []),
    ("another program in its place", file(BUILT, program("another")), 70, "", [FOREIGN, NO_KIT]),
    ("this machine", command("uname", INTEL), 3, "released", []),
    ("no release", all_of(none("release"), command("rt", KIT)), 3, "built", [MISSING, BUILDING]),
    ("a release and a changed source", all_of(Tree.release, source("new")), 3, "built", [OTHER, BUILDING, *STATES]),
    ("that without the kit", no_command("rt"), 3, "built", []),
    ("no folder to write in", all_of(none(OUT), file(OUT)), 70, "", [OTHER, NO_KIT]),
    ("that and the kit", command("rt", KIT), 73, "", [OTHER, f"{OUT} can't be written: File exists\n"]),
    ("that and the released sources", source("low"), 3, "released", []),
]


def steps(tree):
    for name, change, status, out, said in STEPS:
        change(tree)
        found = tree.run("suite", "a b")
        if not fits(found, status, out and f"{out} suite a b\n", said):
            yield f"{name}: {found}, not {(status, out, said)}"


def places(tree):
    """The script is found by each of its names, and the program runs in the caller's folder."""
    linked, here = os.path.join(tree.commands, "linked"), tree.path("crates/low/here")
    os.symlink("../top/conform", linked)
    os.makedirs(here)
    bash, env = shutil.which("bash"), shutil.which("env")
    for folder in (tree.top, tree.commands, here):
        name = os.path.relpath(tree.path("conform"), folder)
        for words in ([linked], [tree.path("conform")], [bash, name], [env, "./" + name], [env, "linked"]):
            found = tree.run(*words, "where", folder=folder)
            if found != (3, f"{folder}\nreleased where\n", ""):
                yield f"{words} in {folder}: {found}"


USAGE_LINE = "conform: usage: word 0\n"
USAGE = [
    "conform, release 7\n",
    "usage: conform suite YACC LEX",
    "conform try ",
    "conform --build\n",
    "conform --version, conform --help\n",
]
VERSION = f"conform, release 7\n{lines('released')}"


def own_words(tree):
    """What the script answers by itself, without the program and the kit."""
    found = tree.run("--version")
    if found != (0, f"{VERSION}runs {RELEASED}\n", ""):
        yield f"--version: {found}"
    tree.write(RELEASED, "")
    tree.write(LIB, "new")
    for words in (["--help"], ["-h"], ["--help", "suite"], ["--explain", "--help"]):
        status, out, said = tree.run(*words)
        if (status, said) != (0, "") or not in_order(USAGE, out):
            yield f"{words}: {status}, {out!r}, {said!r}"
    found = tree.run("--version")
    if found != (0, f"{VERSION}builds the program at the next run: {OTHER[9:]}", ""):
        yield f"--version beside a changed source: {found}"


def on_terminal(tree, *words):
    """The status of the script, and what it writes on a terminal that is its error output."""
    ours, theirs = pty.openpty()
    command = [tree.path("conform"), *words]
    child = subprocess.Popen(command, stdout=subprocess.DEVNULL, stderr=theirs, env=tree.environment())
    child.wait(timeout=60)
    os.write(theirs, b"end")
    told = os.read(ours, 65536)
    os.close(theirs)
    os.close(ours)
    return child.returncode, told.decode().replace("\r\n", "\n").removesuffix("end")


def no_words(tree):
    """Words are the program's, an empty one too; on a terminal the script answers where there are none."""
    found = tree.run(""), tree.run(shutil.which("bash"), tree.path("conform"))
    if found != ((3, "released \n", ""), (2, "", USAGE_LINE)):
        yield f"no words: {found}"
    tree.write(LIB, "new")
    status, said = on_terminal(tree)
    if status != 2 or not in_order(USAGE, said):
        yield f"no words on a terminal: {status}, {said!r}"


def explained(tree):
    """Behind --explain, and on a terminal, where Python is there, tools/explain says what the program's line means."""
    found = on_terminal(tree, "bad"), tree.run("--explain", "bad")
    if found != ((2, USAGE_LINE), (2, "", USAGE_LINE)):
        yield f"without Python: {found}"
    os.symlink(sys.executable, os.path.join(tree.commands, "python3"))
    shutil.copytree(os.path.join(TOP, "tools"), tree.path("tools"), dirs_exist_ok=True)
    whole = [USAGE_LINE, "This word may not", "usage: conform suite YACC LEX"]
    for found in (on_terminal(tree, "bad"), tree.run("--explain", "bad")[::2]):
        if found[0] != 2 or not in_order(whole, found[1]):
            yield f"explained: {found}"
    if tree.run("bad") != (2, "", USAGE_LINE):
        yield f"on no terminal: {tree.run('bad')}"


def tries(tree):
    found = tree.run("try", "g.y")
    if found != (70, "", "conform: try needs the command python3, and it isn't there\n"):
        yield f"try without Python: {found}"
    tree.command("python3", '#!/bin/sh\necho "$@"\nexit 5\n')
    for words in (["try", "a b", "--", "c"], ["--explain", "try", "a b", "--", "c"]):
        found = tree.run(*words)
        if found != (5, f"{tree.path('tools/try_grammar')} {tree.path(RELEASED)} a b -- c\n", ""):
            yield f"{words}: {found}"
    tree.write(LIB, "new")
    found = tree.run("try", "--help")
    if found != (5, f"{tree.path('tools/try_grammar')} {tree.path('')} --help\n", ""):
        yield f"try --help: {found}"


run_groups(steps, places, own_words, no_words, explained, tries)
