#!/usr/bin/env python3
"""Runs tools/start_lex and tools/export: beside_runs.py [PROGRAM]. It prints the rows that fail, and ends with status 1
where one did.

The lines and the manifest were worked by hand. Where the program is built, it reads the lex files that are written.
"""

import os
import sys
import tempfile

sys.dont_write_bytecode = True

from calls import BUILT, PROGRAM, call, marked, tool, written
from rows import end

# A grammar, the lines of its lex file behind the first %%, and what was guessed how often.
GRAMMARS = [
    (
        "%token <n> NUMBER T_IF /* not this */ LBRACE PLUS_ASSIGN\n%token LE \"<=\" LAST 0 \"end of file\" NAMED \"a name\"\n"
        "%token SHL /* << */ WHILE /* `while' */ OTHER T_DO\n%%\ns : NUMBER '+' '-' s | T_IF LBRACE PLUS_ASSIGN LE NAMED\n"
        "  | error ';' | '\\n' SHL WHILE OTHER T_DO LAST ;\n",
        [
            "[\\n+\\-] return yytext[0]; /* the literals of the grammar */",
            '"{" return LBRACE; /* of its name: mark */',
            '"+=" return PLUS_ASSIGN; /* of its name: mark */',
            '"<=" return LE; /* of its string */',
            '"<<" return SHL; /* of the comment beside it */',
            '"while" return WHILE; /* of the comment beside it */',
            ' /* OTHER: its name tells no text; fill in: "..." return OTHER; */',
            '"if" return T_IF; /* of its name behind T_: keyword */',
            '"do" return T_DO; /* of its name behind T_: keyword */',
            "[0-9]+ return NUMBER; /* of its name: number */",
            "[A-Za-z_][A-Za-z0-9_]* return NAMED; /* of its string: word */",
            "[\\t\\v-\\r ]+ ;",
        ],
        "13 tokens: 3 literals, 1 of their strings, 2 of comments, 2 marks of their names, 2 classes of their names, "
        "2 keywords of their names, 1 to fill in",
    ),
    (
        "%token AND LAND BEGIN INT CHAR STRING_LITERAL REAL_CONST ID FUNC_ID NL\n%%\n"
        "s : AND LAND BEGIN INT CHAR STRING_LITERAL REAL_CONST ID FUNC_ID NL ;",
        [
            '"&" return AND; /* of its name: mark */',
            '"&&" return LAND; /* of its name: mark */',
            ' /* FUNC_ID: by its name it has the texts of ID; fill in: "..." return FUNC_ID; */',
            '"\\n" return NL; /* of its name: mark */',
            '"begin" return BEGIN; /*@token BEGIN*/ /* of its name: keyword */',
            '"int" return INT; /* of its name: keyword */',
            '"char" return CHAR; /* of its name: keyword */',
            "[0-9]+\\.[0-9]+ return REAL_CONST; /* of its name: real number */",
            '\\"([^\\\\\\"\\n]|\\\\.)*\\" return STRING_LITERAL; /* of its name: string */',
            "[A-Za-z_][A-Za-z0-9_]* return ID; /* of its name: word */",
            "[\\t\\v-\\r ]+ ;",
        ],
        "10 tokens: 3 marks of their names, 3 classes of their names, 3 keywords of their names, 1 to fill in",
    ),
]
# A grammar, and a line of its lex file.
GUESSES = [
    ("%token IF_KW T_KW_OR\n%%\ns : IF_KW | T_KW_OR ;", '"if" return IF_KW; /* of its name before _KW: keyword */'),
    ("%token KW_OR\n%%\ns : KW_OR ;", '"or" return KW_OR; /* of its name behind KW_: keyword */'),
    ("%token K_STRING\n%%\ns : K_STRING ;", '"string" return K_STRING; /* of its name behind K_: keyword */'),
    ("%token K_TEXT\n%%\ns : K_TEXT ;", '"text" return K_TEXT; /* of its name behind K_: keyword */'),
    ("%token K_IF K_NOT\n%%\ns : K_IF K_NOT ;", '"not" return K_NOT; /* of its name behind K_: keyword */'),
    ("%token kIf kOr\n%%\ns : kIf kOr '|' ;", '"or" return kOr; /* of its name behind k: keyword */'),
    ("%token K_IF K_AND K_PLUS\n%%\ns : K_IF K_AND K_PLUS ;", '"&&" return K_AND; /* of its name: mark */'),
    ("%token K_AND K_OR\n%%\ns : K_AND K_OR ;", '"||" return K_OR; /* of its name: mark */'),
    ("%token ICONST\n%%\ns : ICONST ;", "[0-9]+ return ICONST; /* of its name: number */"),
    ("%token TDO TIF TON TOR TAT\n%%\ns : TDO TIF TON TOR TAT ;", '"do" return TDO; /* of its name behind T: keyword */'),
    ("%token tDO\n%%\ns : tDO ;", '"do" return tDO; /* of its name behind t: keyword */'),
    ("%token LESS_LESS_MINUS\n%%\ns : LESS_LESS_MINUS ;", '"<<-" return LESS_LESS_MINUS; /* of its name: mark */'),
    ("%token SHL_ASSIGN '='\n%%\ns : SHL_ASSIGN '=' ;", '"<<=" return SHL_ASSIGN; /* of its name: mark */'),
    ("%token ASSIGN\n%%\ns : ASSIGN '=' ;", '":=" return ASSIGN; /* of its name: mark */'),
    ("%token RULE /* --- */\n%%\ns : RULE ;", '"rule" return RULE; /* of its name: keyword */'),
    ("%token A \"\\\"\\n\"\n%%\ns : A ;", '"\\"\\n" return A; /* of its string */'),
    ("%token A \"'use'\"\n%%\ns : \"'use'\" ;", '"use" return A; /* of its string */'),
    ("%token A \"'end if'\"\n%%\ns : A ;", '"end if" return A; /* of its string */'),
    ("%token A \"floating-point number\"\n%%\ns : A ;", "[0-9]+\\.[0-9]+ return A; /* of its string: real number */"),
    ("%token A _(\"integer literal\")\n%%\ns : A ;", "[0-9]+ return A; /* of its string: number */"),
    ("%token A \"open tag\"\n%%\ns : A ;", ' /* A: its string tells no text; fill in: "..." return A; */'),
    ("%%\ns : 'a' error | 'b' 'c' %prec 'x' | 'd' ;", "[b-d] return yytext[0]; /* the literals of the grammar */"),
    ("%token A.B\n%%\ns : A.B ;", '"a_b" return A.B; /*@token A.B*/ /* of its name: keyword */'),
]
# A manifest with marks in its names, and a goal without a text; its files and the lines of its index; worked by hand.
MANIFEST = """conform 2 suite
weigh nodes
token 1 '+'
token 2 '\\x27'
rule 1 s : '+'
rule 2 s : '\\x27'
lexeme '+' "+"
lexeme '\\x27' none
closed next <begin> : '+' '\\x27'
case 1 size 2
  derive 1
  tokens '+'
  text "+\\x0a"
goal 1 rule 1 size 2 case 1 first 1
case 2 size 2
  derive 2
  tokens '\\x27'
  no text lexeme '\\x27'
goal 2 rule 2 size 2 case 2 first 2
goal 3 pair <begin> '+' size 2 case 1 first 1
goal 4 pair '\\x27' '+' infeasible
base 1 goal 1
negative 1 base 1 insert 0 '+' pair '+' '+' at 1
  tokens '+' '+'
  text "+ +"
negative 2 base 1 delete 0 pair <begin> <end> at 0
  tokens
  text ""
negative 3 base 1 replace 0 '\\x27' pair '+' '+' at 1
  tokens '+' '+'
  text "+ +"
end goals 4 feasible 3 infeasible 1 large 0 negatives 3 cases 2
"""
EXPORTED = {"y_goal_1_rule_1.txt": b"+\n", "n_negative_1_insert.txt": b"+ +", "n_negative_2_delete.txt": b""}
INDEX = [
    "file\twanted\tkind\tname\ttokens",
    "y_goal_1_rule_1.txt\ttaken\trule\tgoal 1 rule 1\t'+'",
    "y_goal_1_rule_1.txt\ttaken\tpair\tgoal 3 pair <begin> '+'\t'+'",
    "n_negative_1_insert.txt\trefused\tinsert\tnegative 1 base 1 insert 0 '+' pair '+' '+' at 1\t'+' '+'",
    "n_negative_1_insert.txt\trefused\treplace\tnegative 3 base 1 replace 0 '\\x27' pair '+' '+' at 1\t'+' '+'",
    "n_negative_2_delete.txt\trefused\tdelete\tnegative 2 base 1 delete 0 pair <begin> <end> at 0\t",
]
# Calls of export that write nothing, and a part of what is said.
BAD_EXPORTS = [
    ([], "required"),
    (["suite", "."], "isn't empty"),
    (["suite", "suite"], "File exists"),
    (["rules", "texts"], "it has no texts"),
    (["cut", "texts"], "ended early"),
    (["none", "texts"], "No such file"),
    (["suite", "texts", "--pytest"], "come together"),
    (["suite", "texts", "--", "cat"], "come together"),
    (["--suffix=/", "suite", "texts"], "--suffix is of letters"),
]
# A parser as a Python expression over its text t for its status, whether it gets a file, how many tests fail, what is said.
PARSERS = [
    ("t.strip() != '+'", True, 0, "OK"),
    ("t.strip() != '+'", False, 0, "OK"),
    ("0", True, 2, "wanted: refused; the parser: taken\nnegative 2 base 1 delete 0 pair <begin> <end> at 0\n  tokens: "),
    ("1", False, 1, "wanted: taken; the parser: refused\ngoal 1 rule 1\n  tokens: '+'\ngoal 3 pair <begin> '+'\n"),
    ("77", False, 0, "OK (skipped=3)"),
    ("os.kill(os.getpid(), 9)", False, 3, "wanted: taken; the parser: neither, by its status -9\n"),
]


def grammar_rows(folder):
    for text, wanted, counts in GRAMMARS:
        written(folder, "g.y", text)
        status, out, said = tool(folder, "start_lex", "g.y")
        found = out.partition("%%\n")[2].splitlines()
        if (status, said) != (0, f"start_lex: g.y: {counts}\n") or found != [*wanted, f" /* {counts} */"]:
            yield f"start_lex on {text!r}: {status}, {said}, {found}"
        written(folder, "plain.y", tool(folder, "from_bison", "g.y")[1])
        written(folder, "l.l", out)
        if BUILT and call([PROGRAM, "suite", "plain.y", "l.l", "--criteria=rule", "--mutate=none"], folder)[0]:
            yield f"the program refuses what start_lex wrote of {text!r}"
    for text, wanted in GUESSES:
        written(folder, "g.y", text)
        if wanted not in tool(folder, "start_lex", "g.y")[1]:
            yield f"start_lex on {text!r}: no {wanted}"
    raw, _, (line, column) = marked("%token A\n%%\ns : «? ;\n")
    written(folder, "g.y", raw)
    if tool(folder, "start_lex", "g.y")[2].startswith(f"start_lex: g.y:{line}:{column}: ") is False:
        yield "start_lex on a grammar that is none"


def exported(folder):
    """The files of a folder with their bytes."""
    found = {}
    for name in os.listdir(folder):
        with open(os.path.join(folder, name), "rb") as file:
            found[name] = file.read()
    return found


def export_rows(folder):
    written(folder, "suite", MANIFEST)
    status, out, said = tool(folder, "export", "suite", "texts")
    found = exported(os.path.join(folder, "texts")) if not status else {}
    index = found.pop("index.tsv", b"").decode().splitlines()
    told = "3 texts of 5 goals and negatives; 1 has no text\n"
    if (status, out, said, found, index) != (0, told, "", EXPORTED, INDEX):
        yield f"export: {status}, {out}, {said}, {found}, {index}"
    status = tool(folder, "export", "--suffix=.c", "suite", "texts.c")[0]
    names = sorted(os.listdir(os.path.join(folder, "texts.c")))
    if status or names != sorted(["index.tsv", *(name.replace(".txt", ".c") for name in EXPORTED)]):
        yield f"export with another suffix: {status}, {names}"


def bad_exports(folder):
    written(folder, "suite", MANIFEST)
    written(folder, "rules", "conform 1 rules\nend goals 0 feasible 0 infeasible 0 large 0 negatives 0\n")
    written(folder, "cut", MANIFEST[:-9])
    for words, wanted in BAD_EXPORTS:
        status, out, said = tool(folder, "export", *words)
        if (status, out) != (2, "") or wanted not in said or len(os.listdir(folder)) != 3:
            yield f"export {words}: {status}, {out}, {said}"


def parser_rows(folder):
    """The tests that --pytest adds, run by the standard library's own."""
    written(folder, "suite", MANIFEST)
    for number, (expression, has_file, failures, told) in enumerate(PARSERS):
        reads = "open(sys.argv[1]).read()" if has_file else "sys.stdin.read()"
        code = f"import os, sys; t = {reads}; sys.exit({expression})"
        command = [sys.executable, "-c", code, *(["{}"] if has_file else [])]
        tool(folder, "export", "suite", f"t{number}", "--pytest", "--", *command)
        status, _, said = call([sys.executable, "-m", "unittest", "discover", f"t{number}"], folder)
        said = said.decode()
        if (status == 0) != (failures == 0) or said.count("\nFAIL: ") != failures or told not in said:
            yield f"the tests of a folder with {expression}: {status}, {said}"


def bad_calls(folder):
    for words, wanted in (([], 2), (["a", "b"], 2), (["no.y"], 3)):
        status, out, said = tool(folder, "start_lex", *words)
        if (status, out) != (wanted, "") or not said.startswith("start_lex: "):
            yield f"start_lex {words}: {status}, {said}"


def main():
    failed = []
    for rows in (grammar_rows, export_rows, bad_exports, parser_rows, bad_calls):
        with tempfile.TemporaryDirectory() as folder:
            failed += rows(folder)
    if not BUILT:
        print("beside_runs: the program isn't built: it read nothing of what was written", file=sys.stderr)
    end(failed)


main()
