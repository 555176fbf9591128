#!/usr/bin/env python3
"""Runs the program as it was built: whole_runs.py [PROGRAM]. Each row is its words, its status, its output and its line on
the error output. It prints the rows that fail, and ends with status 1 where one did.

The contracts say all of this of `run`; here it is shown that the program does what `run` says. The expected texts were
worked by hand from the rules of docs/FORMATS.md, but for the negatives and the bytes of a summary, which are the program's own.
tests/page_runs.py has the runs that the documents show.
"""

import os
import resource
import signal
import subprocess
import sys
import tempfile

TOP = os.path.dirname(os.path.dirname(os.path.abspath(__file__)))
PROGRAM = os.path.abspath(sys.argv[1]) if len(sys.argv) > 1 else os.path.join(TOP, "crates", "cs_cli", "out", "cs_cli")

FILES = {
    "g1.y": b"%token NUM\n%%\ne : e '+' t | t ;\nt : NUM | '(' e ')' ;\n",
    "choice.y": b"%%\na : a | 'x' ;\n",
    "empty.y": b"",
    "open.y": b"%token NUM\n%%\ne : e '+' t | t ; t : NUM { x",
    "long.y": b" " * 1048577,
    "g1.l": b"%%\n[0-9]+ return NUM;\n[-+*/()] return yytext[0];\n[ \\t\\n]+ ;\n",
    "one.y": b"%%\ns : 'x' ;\n",
    "one.l": b"%%\nx return 'x';\n[ ]+ ;\n",
    # A keyword in two cases, two forms of strings, and comments.
    "forms.y": b"%token SET STR\n%%\ns : SET STR ;\n",
    "forms.l": b"%%\nset return SET;\nSET return SET;\n'[^']*' return STR;\n`[^`]*` return STR;\n[ ]+ ;\n\"/*\"[^*]*\"*/\" ;\n",
    "trailing.l": b"%%\nab/cd return NUM;\n",
    "states.y": b"%token NUM\n%%\ns : NUM ;\n",
    "states.l": b"%%\n(a|b)*a(a|b){14} return NUM;\n",
    # each of 100 rules has one place for any of 101: 100 * 100 * 101 chains
    "many.y": b"%%\ns : 'x'" + b" | s 'x'" * 100 + b" ;\n",
    "inside": b"( 0 + 0 )",
    "outside": b"( 0",
    "stops": b"0 x",
    "long": b" " * 65537,
    "most": b"(" * 2001,
}
CHAINS = b"""conform chains
token 1 'x'
rule 1 a : a
rule 2 a : 'x'
goal 1 chain 1 1 1 1 1 size 5
  derive 1 1 1 2
  tokens 'x'
goal 2 chain 1 1 1 1 2 size 4
  derive 1 1 2
  tokens 'x'
end goals 2 feasible 2 infeasible 0 large 0
"""
# One base, `x`: of its two edits one is empty, and both hold a pair that no sentence has.
DEEP = b"""conform deep
base 1 goal 1
end bases 1 edits 2 negatives 2 deep 0 sentences 0 long 0
"""
CHAINS_WITH_TEXTS = b"""conform chains
token 1 'x'
rule 1 a : a
rule 2 a : 'x'
lexeme 'x' "x"
goal 1 chain 1 1 1 1 1 size 21
  derive 1 1 1 2
  tokens 'x'
  text "x"
goal 2 chain 1 1 1 1 2 size 20
  derive 1 1 2
  tokens 'x'
  text "x"
end goals 2 feasible 2 infeasible 0 large 0
"""
LEXICAL = b"""conform lexical
rule 1 token 'x' wins "x"
rule 2 skip wins " "
end rules 2 shadowed 0 overlaps 0 disjoint 1
"""
SPELL = b"""conform spell
spelling 1 token 'x' goal 1 size 2 at 0
  derive 1
  tokens 'x'
  text "x"
spelling 2 skip goal 1 size 2
  derive 1
  tokens 'x'
  text " x "
end rules 2 spelled 2 shadowed 0 foreign 0 literal 0 infeasible 0 large 0
"""
# Slips: the empty list; no symbol, so the empty list again; the symbol twice.
WRONG = b"""conform wrong
wrong 1 empty pair <begin> <end> at 0
  tokens
  text ""
wrong 2 rule 1 double 1 pair 'x' 'x' at 1
  tokens 'x' 'x'
  text "x x"
end slips 3 none 0 large 0 again 1 long 0 sentences 0 wrong 2
"""
CHOICE = b"""conform 1 rules
token 1 'x'
rule 1 a : a
rule 2 a : 'x'
goal 1 rule 1 size 3
  derive 1 2
  tokens 'x'
goal 2 rule 2 size 2
  derive 2
  tokens 'x'
end goals 2 feasible 2 infeasible 0 large 0 negatives 0
"""
SUM = b"""conform 1 rules
token 1 NUM
token 2 '+'
rule 1 s : s '+' NUM
rule 2 s : NUM
goal 1 rule 1 size 5
  derive 1 2
  tokens NUM '+' NUM
goal 2 rule 2 size 2
  derive 2
  tokens NUM
end goals 2 feasible 2 infeasible 0 large 0 negatives 0
"""
CALCULATOR = b"""conform 1 rules
token 1 NUMBER
token 2 PRINT
token 3 LET
token 4 NAME
token 5 '+'
token 6 '-'
token 7 '*'
token 8 '/'
token 9 ';'
token 10 '='
token 11 '('
token 12 ')'
rule 1 program :
rule 2 program : program statement ';'
rule 3 statement : PRINT expression
rule 4 statement : LET NAME '=' expression
rule 5 expression : expression '+' expression
rule 6 expression : expression '-' expression
rule 7 expression : expression '*' expression
rule 8 expression : expression '/' expression
rule 9 expression : '-' expression
rule 10 expression : '(' expression ')'
rule 11 expression : NUMBER
goal 1 rule 1 size 1
  derive 1
  tokens
goal 2 rule 2 size 7
  derive 2 1 3 11
  tokens PRINT NUMBER ';'
goal 3 rule 3 size 7
  derive 2 1 3 11
  tokens PRINT NUMBER ';'
goal 4 rule 4 size 9
  derive 2 1 4 11
  tokens LET NAME '=' NUMBER ';'
goal 5 rule 5 size 11
  derive 2 1 3 5 11 11
  tokens PRINT NUMBER '+' NUMBER ';'
goal 6 rule 6 size 11
  derive 2 1 3 6 11 11
  tokens PRINT NUMBER '-' NUMBER ';'
goal 7 rule 7 size 11
  derive 2 1 3 7 11 11
  tokens PRINT NUMBER '*' NUMBER ';'
goal 8 rule 8 size 11
  derive 2 1 3 8 11 11
  tokens PRINT NUMBER '/' NUMBER ';'
goal 9 rule 9 size 9
  derive 2 1 3 9 11
  tokens PRINT '-' NUMBER ';'
goal 10 rule 10 size 10
  derive 2 1 3 10 11
  tokens PRINT '(' NUMBER ')' ';'
goal 11 rule 11 size 7
  derive 2 1 3 11
  tokens PRINT NUMBER ';'
end goals 11 feasible 11 infeasible 0 large 0 negatives 0
"""
SUMS = b"""conform 1 rules
token 1 NUM
token 2 '+'
token 3 '('
token 4 ')'
rule 1 e : e '+' t
rule 2 e : t
rule 3 t : NUM
rule 4 t : '(' e ')'
goal 1 rule 1 size 7
  derive 1 2 3 3
  tokens NUM '+' NUM
goal 2 rule 2 size 3
  derive 2 3
  tokens NUM
goal 3 rule 3 size 3
  derive 2 3
  tokens NUM
goal 4 rule 4 size 7
  derive 2 4 2 3
  tokens '(' NUM ')'
end goals 4 feasible 4 infeasible 0 large 0 negatives 0
"""
SUITE = b"""conform 1 suite
token 1 NUM
token 2 '+'
token 3 '('
token 4 ')'
rule 1 e : e '+' t
rule 2 e : t
rule 3 t : NUM
rule 4 t : '(' e ')'
lexeme NUM "0"
lexeme '+' "+"
lexeme '(' "("
lexeme ')' ")"
goal 1 rule 1 size 7
  derive 1 2 3 3
  tokens NUM '+' NUM
  text "0 + 0"
goal 2 rule 2 size 3
  derive 2 3
  tokens NUM
  text "0"
goal 3 rule 3 size 3
  derive 2 3
  tokens NUM
  text "0"
goal 4 rule 4 size 7
  derive 2 4 2 3
  tokens '(' NUM ')'
  text "( 0 )"
end goals 4 feasible 4 infeasible 0 large 0 negatives 0
"""
# The deletes of the first base have the left marks <begin>, NUM and '+'; that of the second, of NUM alone, has <begin> again.
SUITE_GOALS = SUITE[: SUITE.index(b"end goals")]
KEPT = SUITE_GOALS + b"""base 1 goal 1
negative 1 base 1 delete 0 pair <begin> '+' at 0
  tokens '+' NUM
  text "+ 0"
negative 2 base 1 delete 1 pair NUM NUM at 1
  tokens NUM NUM
  text "0 0"
negative 3 base 1 delete 2 pair '+' <end> at 2
  tokens NUM '+'
  text "0 +"
base 2 goal 2
end goals 4 feasible 4 infeasible 0 large 0 negatives 3
"""
# The swaps of NUM '+' NUM have two poisoned pairs each.
NONE_KEPT = SUITE_GOALS + b"""base 1 goal 1
end goals 4 feasible 4 infeasible 0 large 0 negatives 0
"""
ONE = b"""conform 1 suite
token 1 'x'
rule 1 s : 'x'
lexeme 'x' "x"
goal 1 rule 1 size 2
  derive 1
  tokens 'x'
  text "x"
goal 2 pair <begin> 'x' size 2
  derive 1
  tokens 'x'
  text "x"
goal 3 pair <begin> <end> infeasible
goal 4 pair 'x' 'x' infeasible
goal 5 pair 'x' <end> size 2
  derive 1
  tokens 'x'
  text "x"
base 1 goal 1
negative 1 base 1 delete 0 pair <begin> <end> at 0
  tokens
  text ""
negative 2 base 1 insert 0 'x' pair 'x' 'x' at 1
  tokens 'x' 'x'
  text "x x"
end goals 5 feasible 3 infeasible 2 large 0 negatives 2
"""
ONE_SHARED = b"""conform 2 suite
weigh nodes
token 1 'x'
rule 1 s : 'x'
lexeme 'x' "x"
closed productive s
closed reachable s
closed empty
closed first s : 'x'
closed last s : 'x'
closed next <begin> : 'x'
closed next 'x' : <end>
case 1 size 2
  derive 1
  tokens 'x'
  text "x"
goal 1 rule 1 size 2 case 1 first 1
goal 2 pair <begin> 'x' size 2 case 1 first 1
goal 3 pair <begin> <end> infeasible
goal 4 pair 'x' 'x' infeasible
goal 5 pair 'x' <end> size 2 case 1 first 1
base 1 goal 1
negative 1 base 1 delete 0 pair <begin> <end> at 0
  tokens
  text ""
negative 2 base 1 insert 0 'x' pair 'x' 'x' at 1
  tokens 'x' 'x'
  text "x x"
end goals 5 feasible 3 infeasible 2 large 0 negatives 2 cases 1
"""
# The line of "The generated files" in docs/FORMATS.md.
SUMMARY = b"gen 1 yacc 1240 lex 378 goals 968 feasible 862 infeasible 106 large 0 negatives 1442 bytes 315463\n"
EXAMPLES = os.path.join(TOP, "examples")
# the last line of the marks that may follow has one more: no sentence has `x x`
FILES["manifest"], FILES["wider"] = ONE_SHARED, ONE_SHARED.replace(b"'x' : <end>", b"'x' : 'x' <end>")
ONE_FILES = ["one.y", "one.l"]
G1 = [os.path.join(EXAMPLES, "g1.y"), os.path.join(EXAMPLES, "l1.l")]
C_EXPRESSIONS = [os.path.join(EXAMPLES, "cexpr.y"), os.path.join(EXAMPLES, "cexpr.l")]

# words, status, output, error output
SPELL_FORMS = b"""conform spell
spelling 1 token SET goal 1 size 3 at 0
  derive 1
  tokens SET STR
  text "set ''"
spelling 2 token SET goal 1 size 3 at 0
  derive 1
  tokens SET STR
  text "SET ''"
spelling 3 token STR goal 1 size 3 at 1
  derive 1
  tokens SET STR
  text "set ''"
spelling 4 token STR goal 1 size 3 at 1
  derive 1
  tokens SET STR
  text "set ``"
spelling 5 skip goal 1 size 3
  derive 1
  tokens SET STR
  text " set '' "
spelling 6 skip goal 1 size 3
  derive 1
  tokens SET STR
  text "/**/set/**/''/**/"
end rules 6 spelled 6 shadowed 0 foreign 0 literal 0 infeasible 0 large 0
"""
# Rows whose output is cut at each of its bytes.
CUT = [
    (["lexical", "one.y", "one.l"], LEXICAL),
    (["spell", "forms.y", "forms.l"], SPELL_FORMS),
    (["deep", "one.y", "one.l"], DEEP),
    (["chains", "choice.y"], CHAINS),
    (["chains", "choice.y", "one.l", "--weigh=bytes"], CHAINS_WITH_TEXTS),
    (["wrong", "one.y", "one.l"], WRONG),
]
ROWS = [
    (["rules", "g1.y"], 0, SUMS, b""),
    (["rules", "./g1.y"], 0, SUMS, b""),
    (["rules", "choice.y"], 0, CHOICE, b""),
    (["rules", os.path.join(EXAMPLES, "sum.y")], 0, SUM, b""),
    (["rules", os.path.join(EXAMPLES, "calculator.y")], 0, CALCULATOR, b""),
    (["rules", "empty.y"], 1, b"", b"conform: yacc: Syntax at 0\n"),
    (["rules", "open.y"], 1, b"", b"conform: yacc: Unended at 40\n"),
    (["rules", "long.y"], 1, b"", b"conform: yacc: Length above 1048576\n"),
    ([], 2, b"", b"conform: usage: word 0\n"),
    (["--help"], 2, b"", b"conform: usage: word 0\n"),
    (["rules"], 2, b"", b"conform: usage: word 1\n"),
    (["rules", "-g"], 2, b"", b"conform: usage: word 1\n"),
    (["rules", "g1.y", "g1.y"], 2, b"", b"conform: usage: word 2\n"),
    (["rules", "missing.y"], 3, b"", b"conform: read fault: yacc\n"),
    (["rules", "."], 3, b"", b"conform: read fault: yacc\n"),
    ([b"rules", b"\xff"], 7, b"", b""),
    (["suite", *G1, "--mutate=none", "--criteria=rule", "--format=1"], 0, SUITE, b""),
    (["suite", "g1.y", "g1.l", "--criteria=rule", "--format=1", "--mutate=none"], 0, SUITE, b""),
    (["suite", "g1.y", "trailing.l", "--mutate=none"], 1, b"", b"conform: lex: Pattern at 3: Trailing at 2\n"),
    (["suite", "states.y", "states.l", "--mutate=none"], 1, b"", b"conform: lex: States above 16384\n"),
    (["suite", "empty.y", "long.y", "--mutate=none"], 1, b"", b"conform: lex: Length above 1048576\n"),
    (["suite", "empty.y", "missing.l", "--mutate=none"], 3, b"", b"conform: read fault: lex\n"),
    (["suite", "one.y", "one.l", "--format=1"], 0, ONE, b""),
    (["suite", "one.y", "one.l"], 0, ONE_SHARED, b""),
    (["suite", "one.y", "one.l", "--format=1", "--first=1"], 0, ONE, b""),
    (["suite", "one.y", "one.l", "--first=01"], 0, ONE_SHARED, b""),
    (["suite", "one.y", "one.l", "--first=1000"], 0, ONE_SHARED, b""),
    (["suite", "g1.y", "g1.l", "--criteria=rule", "--mutate=delete", "--bases=2", "--first=1", "--format=1"], 0, KEPT, b""),
    (["suite", "g1.y", "g1.l", "--criteria=rule", "--mutate=swap", "--bases=1", "--first=1", "--format=1"], 0, NONE_KEPT, b""),
    (["suite", "g1.y", "g1.l", "--first=7", "--mutate=none", "--criteria=rule", "--format=1"], 0, SUITE, b""),
    (["suite", "g1.y", "g1.l", "--first=0"], 2, b"", b"conform: usage: word 3\n"),
    (["suite", "g1.y", "g1.l", "--first=1001"], 2, b"", b"conform: usage: word 3\n"),
    (["suite", "g1.y", "g1.l", "--first="], 2, b"", b"conform: usage: word 3\n"),
    (["suite", "g1.y", "g1.l", "--first=1", "--first=1"], 2, b"", b"conform: usage: word 4\n"),
    (["deep", "g1.y", "g1.l", "--first=1"], 2, b"", b"conform: usage: word 3\n"),
    (["suite", "g1.y", "g1.l", "--format=3"], 2, b"", b"conform: usage: word 3\n"),
    (["suite", "g1.y", "g1.l", "--mutate=all"], 2, b"", b"conform: usage: word 3\n"),
    (["suite", "g1.y", "g1.l", "--bases=1", "--bases=1"], 2, b"", b"conform: usage: word 4\n"),
    (["member", *G1, "inside"], 0, b"inside\n  derive 2 4 1 2 3 3\n", b""),
    (["member", *G1, "outside"], 0, b"outside\n", b""),
    (["member", *G1, "stops"], 1, b"", b"conform: text: Stops at 2\n"),
    (["member", *G1, "long"], 1, b"", b"conform: text: Length above 65536\n"),
    (["member", *G1, "most"], 1, b"", b"conform: text: Tokens 2001 of 2000\n"),
    (["member", *G1, "missing"], 3, b"", b"conform: read fault: text\n"),
    (["member", *G1], 2, b"", b"conform: usage: word 3\n"),
    (["member", "states.y", "states.l", "stops"], 1, b"", b"conform: lex: States above 16384\n"),
    (["check", *ONE_FILES, "manifest"], 0, b"yes goals 5 negatives 2\n", b""),
    (["check", *ONE_FILES, "wider"], 6, b"no line 20: Infeasible\n", b""),
    (["check", *ONE_FILES, "one.l"], 6, b"no line 1: Form\n", b""),
    (["check", *ONE_FILES, "missing"], 3, b"", b"conform: read fault: manifest\n"),
    (["check", *ONE_FILES], 2, b"", b"conform: usage: word 3\n"),
    (["check", "states.y", "states.l", "manifest"], 1, b"", b"conform: lex: States above 16384\n"),
    (["lexical", "one.y", "one.l"], 0, LEXICAL, b""),
    (["lexical", "states.y", "states.l"], 1, b"", b"conform: lex: States above 16384\n"),
    (["lexical", "g1.y", "g1.l", "--weigh=bytes"], 2, b"", b"conform: usage: word 3\n"),
    (["deep", "one.y", "one.l"], 0, DEEP, b""),
    (["deep", "states.y", "states.l"], 1, b"", b"conform: lex: States above 16384\n"),
    (["deep", "g1.y", "g1.l", "--format=1"], 2, b"", b"conform: usage: word 3\n"),
    (["spell", "one.y", "one.l"], 0, SPELL, b""),
    (["spell", "forms.y", "forms.l"], 0, SPELL_FORMS, b""),
    (["spell", "states.y", "states.l"], 1, b"", b"conform: lex: States above 16384\n"),
    (["spell", "g1.y", "g1.l", "--bases=1"], 2, b"", b"conform: usage: word 3\n"),
    (["wrong", "one.y", "one.l"], 0, WRONG, b""),
    (["wrong", "one.y", "one.l", "--weigh=bytes", "--slips=swap,double,drop"], 0, WRONG, b""),
    (["wrong", "states.y", "states.l"], 1, b"", b"conform: lex: States above 16384\n"),
    (["wrong", "g1.y", "g1.l", "--slips="], 2, b"", b"conform: usage: word 3\n"),
    (["wrong", "g1.y", "g1.l", "--slips=drop,drop"], 2, b"", b"conform: usage: word 3\n"),
    (["wrong", "g1.y", "g1.l", "--bases=1"], 2, b"", b"conform: usage: word 3\n"),
    (["suite", "g1.y", "g1.l", "--slips=drop"], 2, b"", b"conform: usage: word 3\n"),
    (["chains", "choice.y"], 0, CHAINS, b""),
    (["chains", "empty.y"], 1, b"", b"conform: yacc: Syntax at 0\n"),
    (["chains", "many.y"], 1, b"", b"conform: chains: Limit Goals 1010000 of 1000000\n"),
    (["chains", "choice.y", "one.l", "--weigh=bytes"], 0, CHAINS_WITH_TEXTS, b""),
    (["chains", "choice.y", "--weigh=bytes"], 2, b"", b"conform: usage: word 2\n"),
    (["chains", "g1.y", "g1.l", "--bases=1"], 2, b"", b"conform: usage: word 3\n"),
    (["chains", "states.y", "states.l"], 1, b"", b"conform: lex: States above 16384\n"),
    (["gen", "1"], 0, SUMMARY, b""),
    (["gen", "0001"], 0, SUMMARY, b""),
    (["gen", "18446744073709551616"], 2, b"", b"conform: usage: word 1\n"),
]


def run(words, folder, **streams):
    done = subprocess.run([PROGRAM, *words], cwd=folder, timeout=60, **streams)
    return done.returncode, done.stdout, done.stderr


def cut_at(size):
    """Lets a file take so many bytes; a write beyond fails, and nothing ends the program."""
    signal.signal(signal.SIGXFSZ, signal.SIG_IGN)
    resource.setrlimit(resource.RLIMIT_FSIZE, (size, size))


def cut_failures(folder):
    """An output that fails at any byte holds what came before it."""
    path = os.path.join(folder, "cut")
    for words, whole in CUT:
        for size in range(len(whole)):
            with open(path, "wb") as out:
                status, _, said = run(words, folder, stdout=out, stderr=subprocess.PIPE, preexec_fn=lambda: cut_at(size))
            with open(path, "rb") as out:
                written = out.read()
            if (status, written, said) != (4, whole[:size], b"conform: write fault\n"):
                yield f"{words}, cut at byte {size}: status {status}, {len(written)} bytes, {said!r}"


def negatives_of(folder, *options):
    """The negatives of the suite of G1, each as its line without its number, its tokens and its text."""
    status, written, _ = run(["suite", *G1, *options], folder, stdout=subprocess.PIPE, stderr=subprocess.PIPE)
    lines = written.decode().split("\n")
    places = [place for place, line in enumerate(lines) if line.startswith("negative ")]
    found = [(lines[at].split(" ", 2)[2], lines[at + 1].split()[1:], lines[at + 2]) for at in places]
    return found if status == 0 else None


def poisoned_pairs(tokens, neighbours):
    """The places of the framed list whose two marks are no neighbours."""
    framed = ["<begin>", *tokens, "<end>"]
    return [place for place, left in enumerate(framed[:-1]) if framed[place + 1] not in neighbours[left]]


def kept_failures(folder):
    """Of so many of each operator and left mark all negatives with one poisoned pair are kept; both formats keep the same."""
    _, shared, _ = run(["suite", *G1, "--mutate=none"], folder, stdout=subprocess.PIPE, stderr=subprocess.PIPE)
    closed = [line.split()[2:] for line in shared.decode().split("\n") if line.startswith("closed next ")]
    neighbours = {words[0]: words[2:] for words in closed}
    every = negatives_of(folder, "--bases=1000")
    wanted = [negative for negative in every if len(poisoned_pairs(negative[1], neighbours)) == 1]
    for form in ("--format=1", "--format=2"):
        found = negatives_of(folder, "--bases=1000", "--first=1000", form)
        if found != wanted:
            yield f"{form}: {len(found or [])} kept negatives of {len(every)}, not {len(wanted)}"
    options = ["--criteria=rule", "--mutate=delete", "--bases=2", "--first=1"]
    edits = [negative[0] for negative in negatives_of(folder, *options, "--format=2")]
    if edits != [line.split(" ", 2)[2] for line in KEPT.decode().split("\n") if line.startswith("negative ")]:
        yield f"the kept deletes in the second format: {edits}"


def failures(folder):
    yield from cut_failures(folder)
    yield from kept_failures(folder)
    pipes = {"stdout": subprocess.PIPE, "stderr": subprocess.PIPE}
    for words, *wanted in ROWS:
        found = run(words, folder, **pipes)
        if found != tuple(wanted):
            yield f"{words}: {found!r}, not {tuple(wanted)!r}"
    with open("/dev/full", "wb") as full:
        status, _, said = run(["rules", "g1.y"], folder, stdout=full, stderr=subprocess.PIPE)
        if (status, said) != (4, b"conform: write fault\n"):
            yield f"a full output: status {status}, {said!r}"
        suite = ["suite", *C_EXPRESSIONS, "--mutate=none", "--format=1"]
        status, _, said = run(suite, folder, stdout=full, stderr=subprocess.PIPE)
        if (status, said) != (4, b"conform: write fault\n"):
            yield f"a suite into a full output: status {status}, {said!r}"
        reader, writer = os.pipe()
        os.close(reader)
        status, _, said = run(suite, folder, stdout=writer, stderr=subprocess.PIPE)
        os.close(writer)
        if (status, said) != (4, b"conform: write fault\n"):
            yield f"a suite into a closed pipe: status {status}, {said!r}"
        status, written, _ = run(["rules", "empty.y"], folder, stdout=subprocess.PIPE, stderr=full)
        if (status, written) != (1, b""):
            yield f"a full error output: status {status}, {written!r}"
    status, written, _ = run(["suite", *C_EXPRESSIONS, "--mutate=none", "--format=1"], folder, **pipes)
    goals = [line for line in written.split(b"\n") if line.startswith(b"goal ")]
    texts = [line for line in written.split(b"\n") if line.startswith(b"  text ")]
    feasible = [line for line in goals if b" size " in line]
    if (status, len(goals), len(texts)) != (0, 2776, len(feasible)) or feasible[:375] != goals[:375]:
        yield f"C expressions: status {status}, {len(goals)} goals, {len(feasible)} feasible, {len(texts)} texts"
    if b'\ngoal 1 rule 1 size 18\n  derive 72 59 57 55 53 51 49 47 44 39 36 33 29 27 15 5 1\n' not in written:
        yield "C expressions: the first goal"


def main():
    if not os.path.exists(PROGRAM):
        sys.exit(f"{PROGRAM} isn't there: rt ci or ./conform builds it")
    with tempfile.TemporaryDirectory() as folder:
        for name, text in FILES.items():
            with open(os.path.join(folder, name), "wb") as file:
                file.write(text)
        failed = [*failures(folder)]
    print("\n".join(failed), file=sys.stderr, end="\n" if failed else "")
    sys.exit(1 if failed else 0)


main()
