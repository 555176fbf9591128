#!/usr/bin/env python3
"""Runs what reads manifests, tools/try_parser, show and page: suite_tools_runs.py. It prints the rows that fail, and
ends with status 1 where one did.

The manifests are those of `s : 'x' ;`, by both formats.
"""

import os
import sys
import xml.etree.ElementTree

sys.dont_write_bytecode = True

from suites import FIRST, SECOND, call, end, written

# A parser that takes what has an x.
TAKING_X = [sys.executable, "-c", "import sys; sys.exit(b'x' not in sys.stdin.buffer.read())"]

FAILURE = """negative 2 base 1 insert 0 'x' pair 'x' 'x' at 1
  wanted: refused; the parser: taken
  text: "x x"
  tokens: 'x' 'x'
kind """

# Manifests that aren't read, and what is said of them.
DAMAGED = [
    (FIRST[: FIRST.index("end ")], "ended early"),
    (FIRST[:-1], "ended early"),
    (FIRST.replace("negatives 2", "negatives 3"), "doesn't count"),
    (FIRST.replace("goal 4 pair 'x' 'x' infeasible\n", ""), "doesn't count"),
    (FIRST.replace("rule 1 size 2\n  derive 1\n", "rule 1 size 2\n"), "line 6"),
    (SECOND.replace("size 2 case 1 first 1", "size 2 case 2 first 1", 1), "line"),
    ("conform 3 suite\n", "line 1"),
    ("", "line 1"),
]
TREE = "goal 5 pair 'x' <end>: feasible, size 2\n* s  (rule 1: 'x')\n*   'x'\ntokens: 'x'\ntext: x\n"


def failures(folder):
    for text in (FIRST, SECOND):
        told = call("try_parser", "--all", written(folder, "suite", text), "--", *TAKING_X)[1]
        if not told.startswith(FAILURE):
            yield f"a failure: {told}"


def machines(folder):
    first, report = written(folder, "suite", FIRST), os.path.join(folder, "report.xml")
    told = call("try_parser", "--tap", "--junit", report, first, "--", *TAKING_X)
    begins = told[1].startswith("TAP version 13\n1..5\nok 1 - goal 1 rule 1\n")
    if told[0] != 1 or not begins or told[1].count("\nnot ok") != 1:
        yield f"the protocol of tests: {told}"
    suite = xml.etree.ElementTree.parse(report).getroot()
    if (suite.get("tests"), suite.get("failures"), len(suite.findall("testcase/failure"))) != ("5", "1", 1):
        yield f"the report: {suite.attrib}"


def bad_calls(folder):
    first = written(folder, "suite", FIRST)
    rows = [("show", [first]), ("show", [first, "6"]), ("show", [first, "x"]), ("page", []), ("page", ["no such file"])]
    for tool, words in rows:
        found = call(tool, *words)
        if found[0] != 2 or not found[2]:
            yield f"{tool} {words}: {found}"


def damaged(folder):
    for number, (text, reason) in enumerate(DAMAGED):
        path = written(folder, "damaged", text)
        for tool, words in (("try_parser", ["--", "cat"]), ("show", ["1"]), ("page", [])):
            found = call(tool, path, *words)
            if found[0] != 2 or reason not in found[2] or found[1]:
                yield f"{tool} on damaged manifest {number}: {found}"


def trees(folder):
    for path in (written(folder, "first", FIRST), written(folder, "second", SECOND)):
        found = call("show", path, "5")
        if found != (0, TREE, ""):
            yield f"show: {found}"
        if call("show", path, "3") != (0, "goal 3 pair <begin> <end>: infeasible\n", ""):
            yield "show of an infeasible goal"
        status, page, _ = call("page", path)
        if status or page.count("<script>") != 1 or "/* DATA */" in page or '"verdict":"infeasible"' not in page:
            yield f"page: {status}"


end(failures, machines, bad_calls, damaged, trees)
