#!/usr/bin/env python3
"""Runs tools/try_parser on parsers with planted faults: causes_runs.py. It prints the rows that fail, and ends with
status 1 where one did.

The faults are planted in tests/parsers/lists.py, and what a cause has to say is worked by hand from the fault. The
outputs beside the suite are written by hand.
"""

import json
import os
import re
import sys
from itertools import product

sys.dont_write_bytecode = True

from suites import LISTS_RULES, call, end, frame, lists_chains, lists_suite, written

COMMA = "wrongly taken: ',' before ']'"
SPACE = "wrongly taken: value before NUMBER"
NAME = "wrongly refused: rule 2 (value : NAME) as symbol 3 of rule 7 (members : members ',' value)"
EMPTY = "wrongly refused: rule 4 (items : %empty)"
CRASH = "died of signal 11, SIGSEGV: ',' before '['"
MORE = "wrongly taken: a whole sentence, and then more tokens"
LONG = "wrongly refused: rule 7 (members : members ',' value) as symbol 1 of rule 7 (members : members ',' value)"
VALUE = "wrongly refused: rules 2 and 3 (value) as symbol 3 of rule 7 (members : members ',' value)"
# Planted faults, and the causes.
PLANTED = [
    ("none", []),
    ("comma", [COMMA]),
    ("name", [NAME]),
    ("empty", [EMPTY]),
    ("value", [VALUE]),
    ("long", [LONG]),
    ("more", [MORE]),
    ("comma,name,space", [COMMA, NAME, SPACE]),
    ("comma,empty,crash", [COMMA, EMPTY, CRASH]),
    ("more,comma,name", [COMMA, MORE, NAME]),
    ("long,space,comma", [COMMA, LONG, SPACE]),
]

# Outputs beside the suite of lists: wrong rules, deep edits, spellings and chains.
WRONG = """conform wrong
wrong 1 empty pair <begin> <end> at 0
  tokens
  text ""
wrong 2 rule 3 drop 1 pair <begin> ']' at 0
  tokens ']'
  text "]"
wrong 3 rule 3 double 1 outside
  tokens '[' '[' ']'
  text "[ [ ]"
wrong 4 rule 7 drop 3 pair ',' ']' at 3
  tokens '[' NUMBER ',' ']'
  text "[ 0 , ]"
wrong 5 rule 7 double 2 pair ',' ',' at 3
  tokens '[' NUMBER ',' ',' NUMBER ']'
  no text lexeme NUMBER
end slips 25 none 0 large 0 again 9 long 0 sentences 1 wrong 5
"""
DEEP = """conform deep
base 1 goal 3
deep 1 base 1 delete 1
  tokens '['
  text "["
deep 2 base 1 insert 2 ']'
  tokens '[' ']' ']'
  text "[ ] ]"
end bases 1 edits 12 negatives 10 deep 2 sentences 0 long 0
"""
SPELL = """conform spell
spelling 1 token NUMBER goal 1 size 2 at 0
  derive 1
  tokens NUMBER
  text "0"
spelling 2 token NAME goal 2 size 2 at 0
  derive 2
  tokens NAME
  text "ab"
spelling 3 literal
spelling 4 skip goal 3 size 4
  derive 3 4
  tokens '[' ']'
  text "\\x0a[\\x0a]\\x0a"
end rules 4 spelled 3 shadowed 0 foreign 0 literal 1 infeasible 0 large 0
"""
RULES = "".join(
    f"rule {number} {left} : {' '.join(right)}".rstrip() + "\n" for number, (left, right) in enumerate(LISTS_RULES, 1)
)
CHAINS = f"""conform chains
token 1 NAME
token 2 NUMBER
token 3 '['
token 4 ']'
token 5 ','
{RULES}goal 1 chain 3 2 5 1 6 size 6
  derive 3 5 6 1
  tokens '[' NUMBER ']'
goal 2 chain 3 2 5 1 7 infeasible
end goals 2 feasible 1 infeasible 1 large 0
"""
OUTPUTS = {"wrong": WRONG, "deep": DEEP, "spell": SPELL, "chains": CHAINS}

# Lines of a file of known departures, the faults, the status, and what is said.
KNOWN = [
    ("neg ',' '\\]' # commas", "comma", 0, "known: 14 cases: commas"),
    ("# a comment\n\nneg ',' '\\]' # commas\n", "comma", 0, "; 0 failed, 14 known;"),
    ("pos ',' '\\]' # commas", "comma", 1, "line 1 matches no failed case any more: pos"),
    ("neg ',' '\\]' # commas\npos ',' NAME # names", "comma", 1, "line 2 matches no failed case any more"),
    ("neg ',' '\\]' # commas\npos ',' NAME # names", "comma,name", 0, "known: 2 cases: names"),
    ("neg ',' '\\]' # commas", "comma,name", 1, "2 failed of 1 cause, 13 known"),
    ("neg ',' '\\]' # commas", "none", 1, "matches no failed case any more"),
    ("other ',' '\\[' # lists", "crash", 0, "; 0 failed, "),
    ("neg '\\[' # lists\npos '\\[' # lists", "crash", 1, "matches no failed case any more"),
    ("neg , # and # so", "none", 1, "matches no failed case"),
    ("neg ( # open", "none", 2, "line 1: its pattern isn't a regular expression"),
    ("negative ',' # no sign", "none", 2, "line 1 isn't"),
    ("neg ','", "none", 2, "line 1 isn't"),
]


def causes_of(output):
    return re.findall(r"^cause \d+: (.*)", output, re.M)


def planted(folder):
    paths = [written(folder, "second", lists_suite()), written(folder, "first", lists_suite(version=1))]
    for path in paths:
        for faults, wanted in PLANTED:
            found = call("try_parser", path, *frame("lists.py", faults))
            if (found[0], sorted(causes_of(found[1]))) != (int(bool(wanted)), sorted(wanted)):
                yield f"causes of {faults} on {path}: {found}"


def cases_of_causes(folder):
    """Each failed case stands in one cause, and the shortest text is told."""
    path = written(folder, "lists", lists_suite())
    for faults, _ in PLANTED[1:]:
        output = call("try_parser", "--all", path, *frame("lists.py", faults))[1]
        failed = output.count("\n  wanted: ")
        counts = [int(count) for count in re.findall(r"^  (\d+) cases?: ", output, re.M)]
        is_told = f"; {failed} failed of {len(counts)} cause" in output
        if sum(counts) != failed or not is_told or counts != sorted(counts, reverse=True):
            yield f"cases of {faults}: {output}"
    output = call("try_parser", path, *frame("lists.py", "comma"))[1]
    if """  text: "[ 0 , ]"\n  tokens: '[' NUMBER ',' ']'\n""" not in output:
        yield "the shortest text of a cause"


def known(folder):
    path = written(folder, "lists", lists_suite())
    for lines, faults, status, said in KNOWN:
        found = call("try_parser", path, "--known", written(folder, "known", lines), *frame("lists.py", faults))
        if found[0] != status or said not in found[1] + found[2]:
            yield f"known departures {lines!r} with {faults}: {found}"
    lines = written(folder, "known", "pos ',' NAME # names")
    partly = call("try_parser", path, "--known", lines, "--kinds", "rule", *frame("lists.py", "name"))
    if partly[0] != 0:
        yield f"a known departure that isn't tried: {partly}"


def written_known(folder):
    """What is written for the causes lets them pass, and nothing is written over."""
    path, lines = written(folder, "lists", lists_suite()), os.path.join(folder, "new")
    for number, (faults, wanted) in enumerate(PLANTED[1:]):
        first = call("try_parser", path, "--write-known", f"{lines}{number}", *frame("lists.py", faults))
        again = call("try_parser", path, "--known", f"{lines}{number}", *frame("lists.py", faults))
        with open(f"{lines}{number}") as file:
            count = len(file.read().splitlines())
        if (first[0], again[0], count) != (1, 0, len(wanted)):
            yield f"the known departures of {faults}: {first[0]}, {count} lines, {again}"
    over = call("try_parser", path, "--write-known", f"{lines}0", *frame("lists.py", "comma"))
    if over[0] != 2 or "is there already" not in over[2]:
        yield f"known departures written over: {over}"


def chains_of_the_model(folder):
    """Chains that the model wrote, with texts of their own, or beside a suite that lends them texts: a parser without
    faults passes all of them."""
    suite = written(folder, "lists", lists_suite())
    bare, own = (written(folder, f"chains_{texts}", lists_chains(texts)) for texts in (False, True))
    rows = product(([suite, bare], [suite, own], [own]), (("none", 0, []), ("long", 1, [LONG])))
    for paths, (faults, status, causes) in rows:
        found = call("try_parser", *paths, *frame("lists.py", faults))
        all_have_texts = re.search(r"\b22 chains; all \d+ different texts run; .*; 0 without a text$", found[1], re.M)
        if found[0] != status or not all_have_texts or causes_of(found[1]) != causes:
            yield f"chains of the model, with {faults}: {found}"


def several(folder):
    """All forms of outputs at once."""
    paths = [written(folder, "lists", lists_suite())] + [written(folder, name, text) for name, text in OUTPUTS.items()]
    found = call("try_parser", *paths, *frame("lists.py", "comma,more"))
    begin = "\n38 goals, 405 negatives, 4 wrong lists, 2 deep edits, 3 spellings, 1 chain; all "
    end_of_line = "; 1 without a text, most for `no text lexeme NUMBER`\n"
    if begin not in found[1] or not found[1].endswith(end_of_line) or sorted(causes_of(found[1])) != [COMMA, MORE]:
        yield f"several outputs: {found}"
    spelled = sorted(causes_of(call("try_parser", *paths, *frame("lists.py", "letters,name"))[1]))
    if spelled != [NAME, "wrongly refused: spelling 2 token NAME goal 2"]:
        yield f"a spelling that is refused: {spelled}"
    for path in paths[1:4]:
        alone = call("try_parser", path, *frame("lists.py", "none"))
        if alone[0] != 0 or "; 0 failed;" not in alone[1]:
            yield f"{path} alone: {alone}"
    bare = call("try_parser", paths[4], *frame("lists.py", "none"))
    if bare[0] != 2 or "no case to try; 1 without a text" not in bare[2]:
        yield f"chains alone: {bare}"
    for path in paths[1:]:
        with open(path) as file:
            text = file.read()
        last = text.splitlines(True)[-1]
        cut = text.removesuffix(last)
        for text, said in ((cut, "ended early"), (cut + cut[cut.index("\n") + 1 :] + last, "doesn't count")):
            found = call("try_parser", written(folder, "cut", text), *frame("lists.py", "none"))
            if found[0] != 2 or said not in found[2]:
                yield f"{path} cut short: {found}"


def order(folder):
    """With a limit those are tried that tell most."""
    paths = [written(folder, "lists", lists_suite())] + [written(folder, name, text) for name, text in OUTPUTS.items()]
    # seven rules have five texts; then come two dropped symbols, contexts, other wrong rules, spellings
    rows = [(5, "rule", 7), (7, "wrong", 2), (13, "context", 12), (15, "wrong", 4), (16, "spelling", 3)]
    for limit, kind, count in rows:
        found = call("try_parser", *paths, "--limit", str(limit), *frame("lists.py", "none"))
        table = re.findall(r"^(\w+) +(\d+) +(\d+)", found[1], re.M)
        if {row[0]: int(row[1]) + int(row[2]) for row in table}.get(kind) != count:
            yield f"the first {limit} texts: {found}"


def rounds(folder):
    """The first round has a delete for each left neighbour: behind ten texts of rules and contexts come those of six
    deletes, two of which stand twice."""
    path, kept = written(folder, "lists", lists_suite()), os.path.join(folder, "results")
    call("try_parser", path, "--limit", "16", "--results", kept, *frame("lists.py", "none"))
    with open(kept) as file:
        cases = json.load(file)["cases"]
    found = [case["name"].split()[1] for case in cases if case["kind"] == "delete"]
    if found != ["1", "12", "24", "66", "67", "226", "316", "360"]:
        yield f"the first round: {found}"


def chosen(folder):
    path = written(folder, "lists", lists_suite())
    rows = [("--only positive", 12), ("--sample 20 --seed 7", 20), ("--limit 30", 30), ("--kinds rule,context", 10)]
    for options, count in rows:
        runs = [call("try_parser", path, *options.split(), *frame("lists.py", "comma")) for _ in range(2)]
        if runs[0] != runs[1] or f"; {count} of 373 different texts run;" not in runs[0][1]:
            yield f"chosen by {options}: {runs}"
    drawn = call("try_parser", path, "--sample", "20", *frame("lists.py", "none"))
    seed = re.search(r"the sample is that of --seed (\d+)", drawn[2])
    words = ["--sample", "20", "--seed", seed[1] if seed else ""]
    if call("try_parser", path, *words, *frame("lists.py", "none"))[1] != drawn[1]:
        yield f"a sample without a seed: {drawn}"


def results(folder):
    """A file of results, and the page that has it."""
    path, kept = written(folder, "lists", lists_suite()), os.path.join(folder, "results")
    lines = written(folder, "known", "pos ',' NAME # names")
    call("try_parser", path, "--results", kept, "--known", lines, *frame("lists.py", "comma,name,crash"))
    with open(kept) as file:
        found = json.load(file)
    outcomes, told = [case["outcome"] for case in found["cases"]], [cause["told"] for cause in found["causes"]]
    if (len(outcomes), set(outcomes), told) != (443, {"taken", "refused", "other"}, [CRASH, COMMA]):
        yield f"results: {found['causes']}"
    if [case["known"] for case in found["cases"] if case["known"]] != ["names"] * 2:
        yield "results of known departures"
    for words in ([path, "--results", kept], ["--results", kept, path]):
        status, page, _ = call("page", *words)
        if status or "/* RESULTS */" in page or COMMA.replace("<", "") not in page or page.count("<script>") != 1:
            yield f"a page with results: {status}"
    others = written(folder, "other", lists_suite(bases=3))
    for words in ([others, "--results", kept], [path, "--results", path], [path, "--results"]):
        refused = call("page", *words)
        if refused[0] != 2 or not refused[2] or refused[1] or "Traceback" in refused[2]:
            yield f"page {words}: {refused}"


end(planted, cases_of_causes, known, written_known, several, chains_of_the_model, order, rounds, chosen, results)
