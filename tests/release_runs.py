#!/usr/bin/env python3
"""Runs the builds of the script conform, and tests/release, mostly on made-up trees: release_runs.py.

It prints the rows that fail, and ends with status 1 where one did. Where git isn't there, tests/release isn't run.
Where the sources of this tree aren't the released ones, no copy of it is run.
"""

import os
import re
import resource
import shutil
import sys

sys.dont_write_bytecode = True

from made_tree import BUILDING, BUILT, KIT, LIB, NO_KIT, OTHER, OUT, RELEASED, SOURCES, STATES, TOP, Tree
from made_tree import all_of, command, damage, digest, fits, lines, none, program, run_groups, same, source
from made_tree import system
from rows import in_order

# Crates that are taken up in turn b a c d cs_cli, two at a time: which is done next, and which are under way then.
TURNS = "cs_cli: d\nd: b c\na:\nc: a\nb: kit\n"
ENDS = [
    ("", "; under way: b a"),
    ("a", "; under way: b c"),
    ("c", "; under way: b"),
    ("b", "; under way: d"),
    ("d", "; under way: cs_cli"),
    ("cs_cli", ""),
]


def progress(tree):
    ended = " ".join(f"'== {name}'" for name, _ in ENDS[1:])
    tree.write("crates.txt", TURNS)
    tree.command("nproc", "#!/bin/sh\necho 2\n")
    tree.command("rt", KIT.replace("'== low' '== high' 'rt: more' '== cs_cli'", ended))
    states = [f"conform: {done} of 5 crates are done{state}\n" for done, (_, state) in enumerate(ENDS)]
    found = tree.run("suite")
    if not fits(found, 3, "built suite\n", [OTHER, BUILDING, *states]):
        yield f"progress: {found}"


DIGEST = digest(program("built"))
IS_RELEASED = f"conform: {BUILT} is the released program, byte for byte: its SHA-256 is {DIGEST}\n"
IS_ANOTHER = f"conform: {BUILT} isn't the released program: its SHA-256 is "
IS_OF_OTHERS = f"conform: {BUILT} isn't compared: the sources aren't those of {SOURCES}\n"
IS_OF_ANOTHER_KIT = f"conform: {BUILT} isn't compared: it was built with other kit of tests, and the released one with kit of tests\n"
FAILING_KIT = KIT.replace("cp ", "false ")
OTHER_KIT = KIT.replace("kit of", "other kit of")
# What becomes of a tree; the status of --build, parts of its output, and what is said.
BUILDS = [
    ("no kit", same, 70, [], [NO_KIT]),
    ("the released one", all_of(command("rt", KIT), lambda tree: tree.release("built")), 0, [IS_RELEASED], STATES),
    ("the same again", same, 0, [IS_RELEASED], [BUILDING, *STATES]),
    ("a failed build", command("rt", FAILING_KIT), 70, [], [BUILDING, "conform: the build failed; its log is "]),
    ("another kit", command("rt", OTHER_KIT), 0, [IS_RELEASED], [BUILDING]),
    ("a changed source", source("new"), 0, [IS_OF_OTHERS], [BUILDING]),
    ("another release of another kit", all_of(source("low"), Tree.release), 0, [IS_OF_ANOTHER_KIT], [BUILDING]),
    ("another release", command("rt", KIT), 70, [IS_ANOTHER], [BUILDING]),
]


def builds(tree):
    for name, change, status, out, said in BUILDS:
        change(tree)
        found = tree.run("--build")
        if found[0] != status or not in_order(out, found[1]) or not in_order(said, found[2]):
            yield f"--build, {name}: {found}, not {(status, out, said)}"
    found = tree.run("suite")
    if found != (3, "released suite\n", ""):
        yield f"behind a build of the released sources: {found}"
    tree.write(LIB, "new")
    tree.run("--build")
    status, out, said = tree.run("--version")
    if (status, said) != (0, "") or not out.endswith(f"\nruns {BUILT}, which was built here: {OTHER[9:]}"):
        yield f"--version behind a build: {status}, {out!r}, {said!r}"


def changed_meanwhile(tree):
    tree.command("rt", KIT)
    found = tree.run("--build", CHANGES=tree.path(LIB))
    if not fits(found, 70, "", [BUILDING, "conform: the sources were changed while they were built: run this again\n"]):
        yield f"sources changed while they are built: {found}"
    found = tree.run("suite")
    if not fits(found, 3, "built suite\n", [OTHER, BUILDING]):
        yield f"behind that: {found}"


def git(tree, *words):
    return tree.run(os.path.join(tree.commands, "git"), "-c", "user.name=n", "-c", "user.email=n@example.org", *words)


def commit(tree):
    git(tree, "add", ".")
    git(tree, "commit", "-q", "-m", "All")


def makes(name):
    """What the kit builds from then on."""
    return lambda tree: tree.write(tree.made, program(name))


NOT_COMMITTED = "release: the sources aren't committed: commit them first\n"
NOTHING = "release: the release is of these sources: there is nothing to commit\n"
TO_COMMIT = "release:   git add release && git commit -m 'Release 1'\n"
# What becomes of a tree; the words of tests/release, its status, parts of its output in order, and the release then.
RELEASES = [
    ("no commit", same, [], 1, [NOT_COMMITTED], None),
    ("a commit", commit, [], 0, ["release: release 1 is written", TO_COMMIT], 1),
    ("a release", commit, [], 0, [IS_RELEASED, NOTHING], 1),
    ("what was built", same, ["--check"], 0, [IS_RELEASED], 1),
    ("another program", makes("another"), [], 70, [IS_ANOTHER], 1),
    ("that", same, ["--check"], 70, [IS_ANOTHER], 1),
    ("another kit", all_of(makes("built"), command("rt", OTHER_KIT)), [], 0, ["release: release 2 is written"], 2),
    ("a changed source", source("new"), ["--check"], 0, [IS_OF_OTHERS], 2),
    ("that again", same, [], 1, [NOT_COMMITTED], 2),
    ("a damaged release", damage, ["--check"], 1, [], 2),
    ("nothing built", none(OUT), ["--check"], 1, [f"release: {BUILT} isn't there: rt ci builds it\n"], 2),
    ("a bad word", same, ["--chek"], 2, [], 2),
]


def releases(tree):
    """A release is made of committed sources, once; what rt ci built is compared with it."""
    if not shutil.which("git"):
        return
    tree.command("rt", KIT)
    tree.drop("release")
    tree.write(".gitignore", "out/\n")
    system("git")(tree)
    git(tree, "init", "-q")
    for name, change, words, status, out, number in RELEASES:
        change(tree)
        found = tree.run(tree.path("tests/release"), *words)
        if found[0] != status or not in_order(out, found[1]):
            yield f"tests/release {words}, {name}: {found}, not {(status, out)}"
        kit = "kit of tests" if number == 1 else "other kit of tests"
        if number and tree.read(SOURCES) != f"release {number}\n{lines('built', kit)}":
            yield f"tests/release {words}, {name}: {tree.read(SOURCES)}"


GATE_KIT = KIT.replace("case $1 in", '''case $1 in
ci)
  [ "$*" = ci ] && mkdir -p crates/cs_cli/out && cp "$BUILDS" crates/cs_cli/out/cs_cli
  exit "${CI_ENDS-0}"
  ;;''')
STUB = """#!/bin/sh
echo "$0 gets $1"
[ "$0" != "${FAILS-none}" ]
"""
PASSED, FAILED = "tests/run: passed, ", "tests/whole_runs.py: FAILED, "
# What becomes of a tree, more of the environment; the status of .ci/run, parts of its output, whether all scripts ran.
GATES = [
    ("a failed gate", same, {"CI_ENDS": "3"}, 3, ["ci: rt ci: "], False),
    ("another program", same, {}, 70, ["ci: tests/release --check: ", IS_ANOTHER], False),
    ("the released program", lambda tree: tree.release("built"), {}, 0, [IS_RELEASED, PASSED], True),
    ("a failing script", same, {"FAILS": "tests/whole_runs.py"}, 1, [FAILED, "tests/run: FAILED, "], True),
    ("a changed source", source("new"), {}, 0, [IS_OF_OTHERS, PASSED], True),
]


def gate(tree):
    """The order of .ci/run: the gate, the release, and each script of tests/run."""
    for name in (".ci/run", "tests/run"):
        with open(os.path.join(TOP, name)) as file:
            tree.write(name, file.read())
    scripts = re.findall(r"^  (tests/\S+)$", tree.read("tests/run"), re.M)
    for name in scripts:
        tree.write(name, STUB)
    tree.command("rt", GATE_KIT)
    system("realpath")(tree)
    calls = [f"{name} gets {tree.path(BUILT)}\n" for name in scripts]
    for name, change, environment, status, out, are_run in GATES:
        change(tree)
        found = tree.run(tree.path(".ci/run"), folder=tree.commands, **environment)
        wanted = [call for call in calls if call in found[1]] == (calls if are_run else [])
        if found[0] != status or not in_order(out, found[1]) or not calls or not wanted:
            yield f".ci/run, {name}: {found}, not {(status, out, are_run)}"
    tree.write(LIB, "low")
    tree.command("rt")
    found = tree.run(tree.path("tests/run"), folder=tree.commands)
    if found[0] != 0 or any(f"{name} gets {RELEASED}\n" not in found[1] for name in scripts):
        yield f"tests/run without the kit: {found}"


def seconds():
    used = resource.getrusage(resource.RUSAGE_CHILDREN)
    return used.ru_utime + used.ru_stime


def copies(tree):
    """A copy of this tree, without what was built and without the kit, answers within a second of the processor."""
    top = tree.path("copy")
    shutil.copytree(TOP, top, ignore=shutil.ignore_patterns("out", ".git"))
    script = os.path.join(top, "conform")
    if not tree.run(script, "--version")[1].endswith(f"\nruns {RELEASED}\n"):
        print("release_runs: the sources aren't those of the release: no copy of them was run", file=sys.stderr)
        return
    shutil.rmtree(os.path.join(top, OUT), ignore_errors=True)
    before = seconds()
    status, out, said = tree.run(script, "suite", "examples/lists.y", "examples/lists.l", folder=top)
    used = seconds() - before
    if (status, said) != (0, "") or not in_order(["conform 2 suite\n", "\nend goals "], out) or used > 1:
        yield f"a copy: {status}, {out[-80:]!r}, {said!r}, {used} s"


run_groups(progress, builds, changed_meanwhile, releases, gate, copies)
