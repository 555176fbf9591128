#!/usr/bin/env python3
"""Runs the model of `check`, and the program beside it: check_runs.py [PROGRAM]. It prints the rows that fail, and ends with
status 1 where one did.

The rows are changes of the manifest of `s : 'x' ;`, worked by hand from the faults that tests/model/check.py lists. Then come
suites that have to pass: the model's own by several options, and what the program writes of the files of examples/, of generated
files and of the gallery. Of a manifest each line is taken out, doubled and exchanged with its neighbour, and each byte changed to
each of six others; where the closed lines are left out each line is put in anywhere. A line above the change never has a fault.
A program that has the command answers all of this as the model does.
"""

import os
import subprocess
import sys
import tempfile
from concurrent.futures import ThreadPoolExecutor

sys.dont_write_bytecode = True

TOP = os.path.dirname(os.path.dirname(os.path.abspath(__file__)))
sys.path[1:1] = [os.path.join(TOP, "gallery"), os.path.join(TOP, "tools")]

import languages
from calls import PROGRAM, call, written
from model.check import MOST_BYTES, checked
from model.generated import lex_file, yacc_file
from model.reading import read
from rows import end
from suites import SECOND, lists, lists_suite

EXAMPLES = os.path.join(TOP, "examples")
PAIRS = [("x.y", "x.l"), ("g1.y", "l1.l"), ("lists.y", "lists.l"), ("cexpr.y", "cexpr.l")]
# The model isn't asked of longer manifests: the program is.
MOST_FOR_MODEL = 400_000
OTHERS = b"0 x1'\n<"
YES, CLOSED_LINES = "yes goals 5 negatives 2", SECOND[SECOND.index("closed") : SECOND.index("case")]
NEGATIVES = SECOND[SECOND.index("negative") : SECOND.index("end goals")]
FIRST_NEGATIVE, BASES = NEGATIVES[: NEGATIVES.index("negative 2")], "base 1 goal 1\n" + NEGATIVES
GOALS = SECOND[SECOND.index("goal 2") : SECOND.index("base")]
COUNTS = "goals 5 feasible 3 infeasible 2 large 0 negatives 2 cases 1"
FEWER = "goals 1 feasible 1 infeasible 0 large 0 negatives 0 cases 1"
FIRST_GOAL, LAST_GOAL = "goal 1 rule 1 size 2 case 1 first 1", "goal 5 pair 'x' <end> size 2 case 1 first 1"
SECOND_NEGATIVE = "negative 2 base 1 insert 0 'x' pair 'x' 'x' at 1"
# What is said of a changed manifest, and the changes: old and new texts in turn.
ROWS = [
    (YES, []),
    # the form of lines
    ("no line 1: Form", ["conform 2", "conform 1"]),
    ("no line 1: Form", [SECOND, ""]),
    ("no line 2: Form", ["nodes", "edges"]),
    ("no line 3: Form", ["token 1", "token 2"]),
    ("no line 3: Form", ["token 1", "token 01"]),
    ("no line 3: Form", ["token 1 'x'", "token 1"]),
    ("no line 5: Form", ['"x"\nclosed', '"\\x78"\nclosed']),
    ("no line 6: Form", ["closed productive s\n", ""]),
    ("no line 7: Form", ["closed reachable s\n", ""]),
    ("no line 13: Form", ["closed next 'x' : <end>\n", "closed next 'x' : <end>\nclosed productive s\n"]),
    ("no line 13: Form", ["case 1 size", "case 2 size"]),
    ("no line 14: Form", ["  derive 1", " derive 1"]),
    ("no line 14: Form", ["  derive 1", "  derive 01"]),
    ("no line 17: Form", [FIRST_GOAL + "\n", ""]),
    ("no line 17: Form", [FIRST_GOAL, FIRST_GOAL + " "]),
    ("no line 17: Form", [FIRST_GOAL, "case 2 size 2"]),
    ("no line 23: Form", ["negative 1 ", "negative 0 "]),
    ("no line 29: Form", [f"end {COUNTS}\n", ""]),
    ("no line 29: Form", [f"{COUNTS}\n", COUNTS]),
    ("no line 30: Form", [f"{COUNTS}\n", f"{COUNTS}\n\n"]),
    ("no line 11: Form", [CLOSED_LINES, "", FIRST_GOAL + "\n", FIRST_GOAL + "\n" + CLOSED_LINES]),
    ("no line 12: Form", [CLOSED_LINES, "", GOALS + BASES, "", COUNTS, FEWER + "\nclosed productive s"]),
    # the head and its sets
    ("no line 3: Head", ["token 1 'x'", "token 1 'y'"]),
    ("no line 4: Head", ["rule 1 s : 'x'", "rule 1 s :"]),
    ("no line 5: Head", ["lexeme 'x'", "lexeme x"]),
    (YES, ["lexeme 'x' \"x\"", "lexeme 'x' none"]),
    ("no line 6: Head", ["productive s", "productive s 'x'"]),
    ("no line 9: Head", ["first s :", "first t :"]),
    ("no line 11: Head", ["<begin> : 'x'\nclosed", "<begin> : 'x' <begin>\nclosed"]),
    (YES, ["closed first s : 'x'", "closed first s : 'x' 'x'"]),
    ("no line 12: Unclosed", ["closed last s : 'x'", "closed last s :"]),
    ("no line 12: Unclosed", ["closed next <begin> : 'x'", "closed next <begin> :"]),
    ("no line 12: Unclosed", ["closed reachable s", "closed reachable"]),
    # cases
    ("no line 14: Derive", ["  derive 1", "  derive"]),
    ("no line 14: Derive", ["  derive 1", "  derive 1 1"]),
    ("no line 14: Derive", ["  derive 1", "  derive 4294967297"]),
    ("no line 14: Size", ["case 1 size 2", "case 1 size 3"]),
    ("no line 14: Size", ["case 1 size 2", "case 1 size 4294967298"]),
    ("no line 15: Yield", ["  tokens 'x'\n  text \"x\"\ngoal", "  tokens\n  text \"x\"\ngoal"]),
    ("no line 16: Scan", ['  text "x"\ngoal', '  text ""\ngoal']),
    ("no line 16: Scan", ['  text "x"\ngoal', '  text "x y"\ngoal']),
    (YES, ['  text "x"\ngoal', '  text " x "\ngoal']),
    (YES, ['  text "x"\ngoal', "  no text lexeme abc\ngoal"]),
    # goals
    ("no line 17: Goal", ["goal 1 rule 1 size 2", "goal 1 rule 1 size 3"]),
    ("no line 17: Goal", ["goal 1 rule 1 size 2 case 1 first 1", "goal 1 rule 1 size 2 case 1 first 2"]),
    ("no line 17: Goal", ["goal 1 rule 1 size 2 case 1", "goal 1 rule 1 size 2 case 4294967297"]),
    ("no line 17: Goal", ["goal 1 rule 1", "goal 1 pair 'x' 'x'"]),
    ("no line 19: Goal", ["goal 3 pair <begin> <end> infeasible", "goal 3 pair <begin> <end> size 2 case 1 first 1"]),
    ("no line 17: Infeasible", [FIRST_GOAL, "goal 1 rule 1 infeasible"]),
    ("no line 20: Infeasible", ["closed next 'x' : <end>", "closed next 'x' : 'x' <end>"]),
    ("no line 12: Infeasible", [CLOSED_LINES, ""]),
    # bases and negatives
    ("no line 22: Base", ["base 1 goal 1", "base 1 goal 3"]),
    ("no line 22: Base", ["base 1 goal 1", "base 1 goal 6"]),
    ("no line 21: Goal", [LAST_GOAL + "\n", ""]),
    ("no line 23: Base", ["negative 1 base 1", "negative 1 base 2"]),
    ("no line 23: Edit", ["delete 0", "delete 1"]),
    ("no line 26: Edit", ["insert 0 'x'", "insert 0 'y'"]),
    ("no line 26: Edit", ["insert 0 'x'", "insert 4294967296 'x'"]),
    ("no line 24: Yield", ["  tokens\n", "  tokens 'x'\n"]),
    ("no line 26: Pair", ["'x' 'x' at 1", "'x' 'x' at 0"]),
    ("no line 26: Pair", ["'x' 'x' at 1", "'x' <end> at 2"]),
    (YES, [SECOND_NEGATIVE, "negative 2 base 1 insert 1 'x' pair 'x' 'x' at 1"]),
    ("no line 28: Scan", ['"x x"', '"x"']),
    ("no line 29: Totals", ["feasible 3", "feasible 4"]),
    ("no line 29: Totals", ["cases 1\n", "cases 4294967297\n"]),
    # two faults of one line
    ("no line 3: Form", ["token 1 'x'", "token 2 'y'"]),
    ("no line 12: Head", ["closed next 'x' : <end>", "closed next 'x' : s"]),
    ("no line 12: Form", ["closed next 'x' : <end>", "closed next 'x' :  s"]),
    ("no line 14: Form", ["  derive 1", "  derive 2 "]),
    ("no line 14: Form", ["case 1 size 2\n  derive 1", "case 1 size 3\n  derive 01"]),
    ("no line 14: Derive", ["case 1 size 2\n  derive 1", "case 1 size 3\n  derive 2"]),
    ("no line 15: Form", ["  tokens 'x'\n", "  tokens  y\n"]),
    ("no line 16: Form", ['  text "x"\ngoal', '  text "y" \ngoal']),
    ("no line 17: Form", [FIRST_GOAL, "goal 2 rule 2 size 2 case 1 first 1"]),
    ("no line 17: Form", [FIRST_GOAL, "goal 2 rule 1 infeasible"]),
    ("no line 17: Goal", [FIRST_GOAL, "goal 1 rule 2 infeasible"]),
    ("no line 22: Form", ["base 1 goal 1", "base 2 goal 3"]),
    ("no line 21: Goal", [LAST_GOAL + "\nbase 1 goal 1", "base 1 goal 6"]),
    ("no line 23: Form", ["negative 1 base 1 delete 0", "negative 2 base 2 delete 1"]),
    ("no line 23: Form", ["negative 1 base 1 delete 0", "negative 1 base 1 delete 01"]),
    ("no line 23: Form", ["<begin> <end> at 0", "<begin> <end> at 01"]),
    ("no line 23: Base", ["negative 1 base 1 delete 0", "negative 1 base 2 delete 1"]),
    ("no line 23: Base", ["base 1 delete 0 pair <begin> <end> at 0", "base 2 delete 0 pair <begin> <end> at 7"]),
    ("no line 23: Edit", ["delete 0 pair <begin> <end> at 0", "delete 1 pair <begin> <end> at 7"]),
    ("no line 29: Form", ["goals 5 feasible 3 infeasible 2", "goals 6 feasible 03 infeasible 2"]),
    ("no line 19: Goal", [SECOND[SECOND.index(GOALS) :], f"goal 2 pair <begin> 'x' large\nend {COUNTS}\n"]),
    # fewer claims
    ("yes goals 5 negatives 1", [FIRST_NEGATIVE, "", "negative 2", "negative 1", "negatives 2", "negatives 1"]),
    ("yes goals 5 negatives 0", [NEGATIVES, "", "negatives 2", "negatives 0"]),
    ("yes goals 5 negatives 0", [BASES, "", "negatives 2", "negatives 0"]),
    ("yes goals 1 negatives 0", [GOALS + BASES, "", COUNTS, FEWER]),
    ("yes goals 1 negatives 0", [CLOSED_LINES, "", GOALS + BASES, "", COUNTS, FEWER]),
    ("yes goals 5 negatives 2", ["infeasible\ngoal 4", "large\ngoal 4", "infeasible 2 large 0", "infeasible 1 large 1"]),
]


def changed(text, changes):
    for old, new in zip(changes[::2], changes[1::2]):
        if old not in text:
            raise ValueError(f"no {old!r} in the manifest")
        text = text.replace(old, new, 1)
    return text


def line_changes(text):
    """The text with each line taken out, doubled, or exchanged with the next one, and the number of the first line that differs."""
    lines = text.splitlines(keepends=True)
    for place in range(len(lines)):
        before, line, behind = lines[:place], lines[place], lines[place + 1 :]
        yield place + 1, "".join([*before, *behind])
        yield place + 1, "".join([*before, line, line, *behind])
        yield place + 1, "".join([*before, *behind[:1], line, *behind[1:]])


def byte_changes(text):
    """The text with each byte changed to each of six others."""
    for place, byte in enumerate(text):
        for other in [chr(other) for other in OTHERS if chr(other) != byte][:6]:
            yield text.count("\n", 0, place) + 1, text[:place] + other + text[place + 1 :]


def lines_put_in(text, lines):
    """The text with each of these lines put in at each place, and the number of that line."""
    kept = text.splitlines(keepends=True)
    for place in range(len(kept) + 1):
        yield from ((place + 1, "".join([*kept[:place], line, *kept[place:]])) for line in lines)


class Command:
    """The command of the program, where it has it."""

    def __init__(self, folder):
        self.folder = folder
        self.is_there = call([PROGRAM, "check"], folder)[2] == b"conform: usage: word 1\n"

    def differs(self, name, yacc, lex, manifest, right):
        """A failure where the program doesn't answer so. The name is that of a new file."""
        if not self.is_there:
            return []
        path = written(self.folder, name, manifest)
        found = call([PROGRAM, "check", yacc, lex, path], self.folder)
        os.remove(path)
        return [] if found == right else [f"the program: {found}, the model: {right}"]


def worked(command):
    files = [os.path.join(EXAMPLES, name) for name in ("x.y", "x.l")]
    known = read(*map(bytes_in, files))
    for number, (wanted, changes) in enumerate(ROWS):
        text = changed(SECOND, changes).encode()
        right = (0 if wanted.startswith("yes") else 6, f"{wanted}\n".encode(), b"")
        found = checked(*known, text)
        failed = [] if found == right else [f"the model: {found}"]
        for failure in failed + command.differs(f"row{number}", *files, text, right):
            yield f"row {number}, {wanted}: {failure}"


def other_files(command):
    """A manifest beside a grammar or a scanner that it isn't of, and files that are refused or aren't there."""
    rows = [("'x' 'x'", "x", 4, "Head"), ("'x'", "y", 16, "Scan")]
    for number, (body, pattern, line, fault) in enumerate(rows):
        yacc, lex = f"%%\ns : {body} ;\n", f"%%\n{pattern} return 'x';\n"
        right = 6, f"no line {line}: {fault}\n".encode(), b""
        found = checked(*read(yacc.encode(), lex.encode()), SECOND.encode())
        paths = [written(command.folder, f"other{number}.{kind}", text) for kind, text in (("y", yacc), ("l", lex))]
        failed = [] if found == right else [f"the model: {found}"]
        for failure in failed + command.differs("other", *paths, SECOND, right):
            yield f"files of others {number}: {failure}"
    too_long = 1, b"", b"conform: manifest: Length above 67108864\n"
    for size, right in ((MOST_BYTES, (6, b"no line 1: Form\n", b"")), (MOST_BYTES + 1, too_long)):
        for failure in command.differs("long", *paths, b"x" * size, right):
            yield f"{size} bytes: {failure}"
    missing = 3, b"", b"conform: read fault: manifest\n"
    if command.is_there and call([PROGRAM, "check", *paths, "missing"], command.folder) != missing:
        yield "a manifest that isn't there"


def changes(command):
    """Each change of a line or a byte; and each line put in anywhere where the closed lines are left out."""
    files = [os.path.join(EXAMPLES, name) for name in ("x.y", "x.l")]
    known = read(*map(bytes_in, files))

    def failure(row):
        number, (line, text) = row
        right = checked(*known, text.encode("latin-1"))
        told = right[1].split()
        early = [f"the model: {right}"] if told[0] == b"no" and int(told[2].rstrip(b":")) < line else []
        return [f"change {number}: {each}" for each in early + command.differs(f"c{number}", *files, text.encode("latin-1"), right)]

    short = changed(SECOND, [CLOSED_LINES, "", GOALS + BASES, "", COUNTS, FEWER])
    put_in = lines_put_in(short, SECOND.splitlines(keepends=True))
    with ThreadPoolExecutor() as pool:
        for found in pool.map(failure, enumerate([*line_changes(SECOND), *byte_changes(SECOND), *put_in])):
            yield from found


def smaller_sets(command):
    """No sets are closed that are smaller than those of a suite: each name of a closed line of the lists, left out."""
    files, known = [os.path.join(EXAMPLES, name) for name in ("lists.y", "lists.l")], lists()
    lines = lists_suite(criteria=["rule"], operators=[]).splitlines()
    places = [place for place, line in enumerate(lines) if line.startswith("closed ")]
    right = 6, f"no line {places[-1] + 1}: Unclosed\n".encode(), b""
    for place in places:
        before, colon, named = lines[place].partition(" :" if ":" in lines[place] else lines[place].split()[1])
        for name in named.split():
            line = before + colon + "".join(f" {other}" for other in named.split() if other != name)
            text = "".join(f"{each}\n" for each in [*lines[:place], line, *lines[place + 1 :]]).encode()
            found = checked(*known, text)
            failed = [] if found == right else [f"the model: {found}"]
            for failure in failed + command.differs("smaller", *files, text, right):
                yield f"{lines[place]} without {name}: {failure}"


def model_suites(command):
    """The model's own suites of the lists pass, with as many goals and negatives as their last lines say."""
    files = [os.path.join(EXAMPLES, name) for name in ("lists.y", "lists.l")]
    alone = [{"criteria": [kind]} for kind in ("rule", "cdrc", "pair")]
    for choice in [{}, *alone, {"weigh": "bytes"}, {"first": 1}, {"operators": []}, {"separator": b"\n "}]:
        text = lists_suite(**choice).encode()
        yield from passing(command, f"lists by {choice}", files, lists(), text)


def passing(command, name, files, known, text):
    words = text.rsplit(b"\n", 2)[1].split()
    right = 0, b"yes goals %b negatives %b\n" % (words[2], words[10]), b""
    found = checked(*known, text) if len(text) <= MOST_FOR_MODEL else right
    failed = [] if found == right else [f"the model: {found}"]
    for failure in failed + command.differs("suite", *files, text, right):
        yield f"{name}: {failure}"


def generated_files(folder):
    """The words of suites of generated pairs, whose files are written."""
    for seed in (1, 2):
        paths = [written(folder, f"generated{seed}.{kind}", text) for kind, text in (("y", yacc_file(seed)), ("l", lex_file()))]
        yield folder, ["suite", *map(os.path.basename, paths)]


def program_suites(command):
    """The suites that the program writes of the examples, of generated pairs and of the gallery, with all negatives and with the
    kept ones."""
    rows = [*((EXAMPLES, ["suite", *pair]) for pair in PAIRS), *generated_files(command.folder)]
    rows += [(found.folder, suite.words) for found in map(languages.read, languages.keys()) for suite in found.suites]
    knows_first = call([PROGRAM, "suite", "x.y", "x.l", "--first=1"], EXAMPLES)[0] == 0
    for folder, words in rows:
        files = [os.path.join(folder, name) for name in words[1:3]]
        known = read(*map(bytes_in, files))
        for more in [[], ["--bases=1000", "--first=3"]] if knows_first else [[]]:
            kept = [word for word in words if not more or not word.startswith("--bases=")]
            made = subprocess.run([PROGRAM, *kept, *more], cwd=folder, capture_output=True, timeout=300)
            if made.returncode:
                yield f"{words}: {made.stderr.decode()}"
            else:
                yield from passing(command, f"{words} {more}", files, known, made.stdout)


def bytes_in(path):
    with open(path, "rb") as file:
        return file.read()


TABLES = (worked, other_files, changes, smaller_sets, model_suites, program_suites)


def main():
    if not os.path.exists(PROGRAM):
        sys.exit(f"{PROGRAM} isn't there: rt ci or ./conform builds it")
    with tempfile.TemporaryDirectory() as folder:
        command = Command(folder)
        end([failure for table in TABLES for failure in table(command)])


main()
