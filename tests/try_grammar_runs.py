#!/usr/bin/env python3
"""Runs tools/try_grammar around made-up programs: try_grammar_runs.py. It prints the rows that fail, and ends with
status 1 where one did.

The programs write the suite of examples/lists.y for any files, and say of some commands and options that they don't
know them.
"""

import os
import re
import signal
import subprocess
import sys
import time

sys.dont_write_bytecode = True

from rows import in_order
from suites import CLEARED, TOP, call, end, frame, heed_interrupts, lists_suite, on_terminal, written

GRAMMAR, SCANNER = (os.path.join(TOP, "examples", name) for name in ("lists.y", "lists.l"))
WRONG = """conform wrong
wrong 1 rule 3 double 3 outside
  tokens '[' ']' ']'
  text "[ ] ]"
end slips 1 none 0 large 0 again 0 long 0 sentences 0 wrong 1
"""
# A program's shell script: what it does with the words.
HEAD = """#!/bin/sh
echo "$*" >> FOLDER/calls
grep -q '%code' "$2" && { echo 'conform: yacc: UnknownDirective at 0' >&2; exit 1; }
grep -q 'refused' "$2" && { echo 'conform: yacc: Undefined at 3' >&2; exit 1; }
"""
UNKNOWN = "echo 'conform: usage: word 0' >&2; exit 2"
OLD = f"""case "$1" in
rules) exit 0 ;;
suite) case "$*" in *--first*) echo 'conform: usage: word 4' >&2; exit 2 ;; esac; cat FOLDER/lists ;;
*) {UNKNOWN} ;;
esac
"""
NEW = f"""case "$1" in
rules) exit 0 ;;
suite) cat FOLDER/lists ;;
wrong) cat FOLDER/wrong ;;
spell) exec sleep 4324 ;;
*) {UNKNOWN} ;;
esac
"""
SLOW = f"""case "$1" in
rules) exit 0 ;;
suite) exec sleep 4325 ;;
*) {UNKNOWN} ;;
esac
"""
FLEXED = f"""case "$1" in
rules) exit 0 ;;
suite) echo 'conform: lex: StartCondition at 0' >&2; exit 1 ;;
*) {UNKNOWN} ;;
esac
"""
COMMA = "wrongly taken: ',' before ']'"
NAME = "wrongly refused: rule 2 (value : NAME) as symbol 3 of rule 7 (members : members ',' value)"


def program(folder, name, body):
    path = written(folder, name, (HEAD + body).replace("FOLDER", folder))
    os.chmod(path, 0o755)
    return path


def calls(folder):
    with open(os.path.join(folder, "calls")) as file:
        return file.read().splitlines()


def tried(program_path, *words, faults="none", files=(GRAMMAR, SCANNER)):
    open(os.path.join(os.path.dirname(program_path), "calls"), "w").close()
    return call("try_grammar", program_path, *words, *files, *frame("lists.py", faults))


def verdicts(folder):
    """The parser of the guide and its two broken ones, as faults of one parser."""
    written(folder, "lists", lists_suite())
    old = program(folder, "old", OLD)
    for faults, status, causes in (("none", 0, []), ("comma", 1, [COMMA]), ("name", 1, [NAME])):
        found = tried(old, faults=faults)
        if (found[0], re.findall(r"^cause \d+: (.*)", found[1], re.M), found[2]) != (status, causes, ""):
            yield f"try with {faults}: {found}"
    made = [line.split()[0] for line in calls(folder)]
    if sorted(set(made)) != ["deep", "rules", "spell", "suite", "wrong"] or made.count("suite") != 2:
        yield f"the calls of an old program: {made}"
    limited = tried(old, "--limit", "100", "--only", "negative")
    if limited[0] != 0 or "; 100 of 373 different texts run;" not in limited[1]:
        yield f"try with a limit: {limited}"


def others(folder):
    """Other outputs are tried where the program has them, and left out where they take too long."""
    written(folder, "lists", lists_suite())
    written(folder, "wrong", WRONG)
    found = tried(program(folder, "new", NEW), "--separator=\\x0a", "--weigh=bytes", faults="more")
    tried_all = ", 1 wrong list; all 374 different texts run" in found[1]
    if found[0] != 1 or not tried_all or "which takes more than 10 seconds" not in found[2]:
        yield f"try with other outputs: {found}"
    suites = [line for line in calls(folder) if line.startswith("suite")]
    if len(suites) != 1 or not suites[0].endswith(" --separator=\\x0a --weigh=bytes") or "--first=10" not in suites[0]:
        yield f"the calls of a new program: {calls(folder)}"


def kept(folder):
    written(folder, "lists", lists_suite())
    old, kept_in = program(folder, "old", OLD), os.path.join(folder, "kept", "here")
    for _ in range(2):
        found = tried(old, "--keep", kept_in, faults="comma")
        if found[0] != 1 or sorted(os.listdir(kept_in)) != ["page.html", "results.json", "suite"]:
            yield f"what is kept: {found}"
    with open(os.path.join(kept_in, "page.html"), encoding="utf-8") as file:
        if COMMA not in file.read():
            yield "the page that is kept"


def progress(folder):
    """On a terminal a line says that texts are made, and what is said meanwhile stands above it."""
    written(folder, "lists", lists_suite())
    bison = written(folder, "coded.y", open(GRAMMAR).read().replace("%{", "%code {", 1).replace("%}", "}", 1))
    words = [program(folder, "old", OLD), bison, SCANNER, *frame("lists.py", "none")]
    shown, output = on_terminal([os.path.join(TOP, "tools", "try_grammar"), *words], 80, TERM="xterm")
    making, said = f"{CLEARED}making the texts", f"{CLEARED}conform try: {bison} isn't read as it is"
    lines = [making + said, f"{making}{CLEARED}", f"{CLEARED}0 of 373 texts, 0 cases failed"]
    if output != call("try_grammar", *words)[1] or not in_order(lines, shown) or not shown.endswith(CLEARED):
        yield f"try on a terminal: {shown!r}, {output}"


def interrupted(folder):
    """An interrupt while texts are made is told, and the program isn't asked again why it ended."""
    open(os.path.join(folder, "calls"), "w").close()
    words = [os.path.join(TOP, "tools", "try_grammar"), program(folder, "slow", SLOW), GRAMMAR, SCANNER, "--", "cat"]
    pipes = {"stdout": subprocess.PIPE, "stderr": subprocess.PIPE}
    run = subprocess.Popen(words, start_new_session=True, preexec_fn=heed_interrupts, **pipes)
    until = time.monotonic() + 60
    while not any(line.startswith("suite") for line in calls(folder)) and time.monotonic() < until:
        time.sleep(0.05)
    time.sleep(0.5)
    os.killpg(run.pid, signal.SIGINT)
    found = run.communicate(timeout=60)
    made = [line.split()[0] for line in calls(folder)]
    if (run.returncode, *found) != (130, b"", b"conform try: interrupted\n") or made.count("suite") != 1:
        yield f"an interrupt of try: {run.returncode}, {found}, {made}"


def grammars(folder):
    """Grammars of Bison, files that are refused, and calls without a scanner or a parser."""
    written(folder, "lists", lists_suite())
    old = program(folder, "old", OLD)
    with open(GRAMMAR) as file:
        text = file.read()
    bison = written(folder, "bison.y", text.replace("%{", "%code {", 1).replace("%}", "}", 1))
    found = tried(old, files=(bison, SCANNER))
    said = "isn't read as it is (conform: yacc: UnknownDirective at 0)"
    if found[0] != 0 or "tools/from_bison" not in found[2] or said not in found[2]:
        yield f"a grammar of Bison: {found}"
    flex = written(folder, "flex.l", "%x S\n%%\n")
    found = tried(program(folder, "flexed", FLEXED), files=(bison, flex))
    if found[0] != 2 or f"  tools/from_flex {flex} {bison} > plain.l keeps the rules of INITIAL" not in found[2]:
        yield f"a scanner of flex's: {found}"
    for rest, status, said in ((" END ", 0, "a token with the number 0"), (" END 'x' ", 2, "from_bison: ")):
        ended = text.replace("%%", "%token END 0\n%%", 1).replace("%%\n", f"%%\nwhole : value{rest};\n", 1)
        found = tried(old, files=(written(folder, "ended.y", ended), SCANNER))
        if found[0] != status or said not in found[2] or "Traceback" in found[2]:
            yield f"a grammar with an end of the text: {found}"
    refused = tried(old, files=(written(folder, "refused.y", "%%\nrefused : name"), SCANNER))
    if refused[0] != 2 or "conform: yacc: Undefined at 3" not in refused[2] or refused[1] or "Traceback" in refused[2]:
        yield f"a grammar that is refused: {refused}"
    rows = [
        ([old, GRAMMAR, "--", "cat"], "tools/start_lex"),
        ([old, GRAMMAR, SCANNER], "behind --"),
        ([old, "--"], "FILE"),
        ([], "program"),
        (["./no such program", GRAMMAR, SCANNER, "--", "cat"], "No such file"),
        ([old, GRAMMAR, SCANNER, "--", "./no such parser"], "No such file"),
    ]
    for words, said in rows:
        found = call("try_grammar", *words)
        if found[0] != 2 or said not in found[2] or "Traceback" in found[2]:
            yield f"try {words}: {found}"


end(verdicts, others, kept, progress, interrupted, grammars)
