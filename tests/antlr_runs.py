#!/usr/bin/env python3
"""Runs tools/from_antlr: antlr_runs.py [PROGRAM]. It prints the rows that fail, and ends with status 1 where one did.

What is written was worked by hand from what ANTLR 4's documentation says of grammars. Small made-up grammars are compared
with slow matchers of their own: one lists the sentences of parser rules as sets, the other keeps, in order, lists of what is
still to be matched of a lexer rule. Where the program is built, it reads what is written.
"""

import itertools
import os
import random
import sys
import tempfile

sys.dont_write_bytecode = True

from antlr_made import frozen, least, made, matched, spelled
from calls import BUILT, PROGRAM, TOOLS, call, marked, tool, written
from rows import end

sys.path.insert(0, TOOLS)

import plain
import plain_lex
import plain_scanner

# A grammar, further words, the rules of the yacc file, the lex file's lines behind its comment, and parts of what is said.
FILES = [
    (
        "grammar G; // by hand\noptions { language = Java; }\n@header { /* } */ import x; }\n"
        "list returns [int n = 0] locals [String[] t] @init { $n = 1; }\n"
        "  : first=item (',' more+=item { $n++; })* EOF # Whole ;\n"
        "item : <assoc=right> NAME? | '(' many ')' | ('+' | '-' | '+=') NUMBER+ ;\n"
        "  catch [Exception e] { it(); } finally { }\n"
        "many : item*? ;\nNAME : [a-z]+ ;\nNUMBER : [0-9] ;\nPLUS : '+' ;\nWS : [ \\n]+ -> skip ;\n",
        (),
        [
            "list : item comma_item_list_opt",
            "comma_item_list_opt : %empty | comma_item_list_opt ',' item",
            "item : name_opt | '(' many ')' | plus_or_minus_or_plus_equal number_list",
            "name_opt : %empty | NAME",
            "plus_or_minus_or_plus_equal : PLUS | '-' | PLUS_EQUAL",
            "number_list : NUMBER | number_list NUMBER",
            "many : item_list_opt",
            "item_list_opt : %empty | item_list_opt item",
        ],
        [
            "%%",
            '"," return \',\';',
            '"(" return \'(\';',
            '")" return \')\';',
            '"-" return \'-\';',
            '"+=" return PLUS_EQUAL;',
            "[a-z]+ return NAME;",
            "[0-9] return NUMBER;",
            '"+" return PLUS;',
            "[\\n ]+ ;",
        ],
        ["G.g4:4:1: the start rule is list\n"],
    ),
    # Sets of tokens, tokens that no rule has or gives, rules that the start rule doesn't lead to, and a name of yacc's.
    (
        "grammar G;\ntokens { NEVER }\nerror : ~('if' | BEGIN) . ~NEVER ;\nother : 'if' other | UNSEEN ;\n"
        "BEGIN : 'begin' ; HIDDEN_ONE : '#' -> channel(HIDDEN) ; ONE : '1' -> type(NEVER), channel(0) ; ODD : . ;\n",
        ("--start=error",),
        [
            "error_2 : not_if_or_begin any_token not_never",
            "not_if_or_begin : NEVER | ODD",
            "any_token : IF | BEGIN | NEVER | ODD",
            "not_never : IF | BEGIN | ODD",
        ],
        None,
        ["the start rule is error: it need not end with EOF", "left out: error leads to none of these rules: other\n"],
    ),
    (
        "grammar G;\nfirst : A ;\nlast : first ('b' first | 'c' 'd' 'e' 'f' 'g')+ EOF? | ;\n"
        "A : 'a' ; D : 'd' ; UNUSED : 'u' ;\n",
        (),
        [
            "first : A",
            "last : first last_part_list | %empty",
            "last_part : 'b' first | 'c' D 'e' 'f' 'g'",
            "last_part_list : last_part | last_part_list last_part",
            "unused_token : UNUSED",
        ],
        None,
        ["G.g4:3:1: the start rule is last: it need not end with EOF"],
    ),
    # EOF within rules.
    (
        "grammar G; s : t* EOF ; t : 'a' e ; e : ';' | EOF ;",
        (),
        [
            "s : t_list_opt_end | t_list_opt",
            "t_list_opt : %empty | t_list_opt t",
            "t_list_opt_end : t_list_opt t_end",
            "t : 'a' e",
            "t_end : 'a' e_end",
            "e : ';'",
            "e_end : %empty",
        ],
        None,
        ["the start rule is s\n"],
    ),
    (
        "grammar G; s : '(' s ')' | 'a' EOF | 'b' EOF+ 'c' | 'd' (EOF | EOF EOF)? ;",
        (),
        ["s_text : s | s_end", "s : '(' s ')' | 'd'", "s_end : 'a'", "unused_token : 'b' | 'c'"],
        None,
        ["it need not end with EOF"],
    ),
    (
        "grammar G;\ns : { a }  b | {x}? {'}'} ;\nb : 'b' ;\n",
        ("--ignore-code",),
        ["s : b | %empty", "b : 'b'"],
        ["%%", '"b" return \'b\';'],
        ["G.g4:2:16: ignored: a predicate may refuse sentences\n", "2:1: the start rule is s"],
    ),
    (
        "grammar G; s : 'BEGIN' X 'é' '\\u0001' '\\'' '0x' EOF ; X : '\"' ('\\\\' . | ~[\"\\\\])*? '\"' ; "
        "C : '/*' .*? '*/' -> skip ;\n"
        "L : '//' ~[\\n]* (EOF | '\\n') -> skip ; M : 'm' ; mode IN ; N : 'n' ;",
        (),
        ["s : BEGIN X U00E9 '\\x01' '\\'' LITERAL_0X", "unused_token : M"],
        [
            "BEYOND_ASCII [\\xc2-\\xdf][\\x80-\\xbf]|\\xe0[\\xa0-\\xbf][\\x80-\\xbf]|[\\xe1-\\xec][\\x80-\\xbf][\\x80-\\xbf]|"
            "\\xed[\\x80-\\x9f][\\x80-\\xbf]|[\\xee-\\xef][\\x80-\\xbf][\\x80-\\xbf]|"
            "\\xf0[\\x90-\\xbf][\\x80-\\xbf][\\x80-\\xbf]|"
            "[\\xf1-\\xf3][\\x80-\\xbf][\\x80-\\xbf][\\x80-\\xbf]|\\xf4[\\x80-\\x8f][\\x80-\\xbf][\\x80-\\xbf]",
            "%%",
            '"//"([^\\n\\x80-\\xff]|{BEYOND_ASCII})* /*@token not.a.token*/ ;',
            '"BEGIN" return BEGIN; /*@token BEGIN*/',
            '"\\xc3\\xa9" return U00E9;',
            '"\\x01" return \'\\x01\';',
            '"\'" return \'\\\'\';',
            '"0x" return LITERAL_0X;',
            '"\\""([^"\\\\\\x80-\\xff]|{BEYOND_ASCII}|"\\\\"([\\x00-\\x7f]|{BEYOND_ASCII}))*"\\"" return X;',
            '"/*"([^*\\x80-\\xff]|{BEYOND_ASCII}|"*"+([^*/\\x80-\\xff]|{BEYOND_ASCII}))*"*"+"/" ;',
            '"//"([^\\n\\x80-\\xff]|{BEYOND_ASCII})*"\\n" ;',
            '"m" return M;',
        ],
        ["2:1: L may take the end of the text along: such a match is in no text\n", "left out: the rules of the mode IN"],
    ),
]
# What stands in a lexer rule, texts that its pattern matches, and texts that it doesn't.
PATTERNS = [
    ("'ab'? 'c'", ["abc", "c"], ["ac", "ab"]),
    ("'a'..'c' ~'b'", ["a\n", "cé"], ["ab", "d\n"]),
    ("[a\\-\\]\\\\\\n\\u0041\\u{42}-D]+", ["a-]\\\n", "ABCD"], ["u", "0", "^"]),
    ("[-a] [b-]", ["-b", "a-"], ["bb"]),
    ("[--/]", ["-", ".", "/"], [",", "0"]),
    ("~[a-y]", ["z", "\n", "é", "\U0001f600"], ["a", "ab", ""]),
    (".", ["\n", "\x7f", "߿", "ࠀ", "￿", "\U0010ffff"], ["", "ab"]),
    ("[é-ü\\u{1F600}-\\u{1F64F}]", ["é", "ó", "ü", "\U0001f600", "\U0001f64f"], ["è", "ý", "\U0001f650", "e"]),
    ("[^\"]", ["^", '"'], ["a"]),
    ("('a' | 'bc' | ) 'd'", ["ad", "bcd", "d"], ["abcd"]),
    ("D+ ('.' D+)? ; fragment D : [0-9]", ["1", "12.5"], ["1.", ".5"]),
    ("(A | 'b')+ ; A : 'a'", ["abba"], ["c"]),
    ("'a'*? 'b'", ["b", "aab"], ["a"]),
    ("'a' 'b'*?", ["a"], ["ab"]),
    ("'a' ('b' | 'bc')??", ["a"], ["ab", "abc"]),
    ("'<' .+? '>'", ["<>>", "<a>"], ["<>", "<a>>", "<a>b>"]),
    ("'\"' ('\\\\' '\"' | .)*? '\"'", ['"a"', '"\\"', '"\\""'], ['"a"b"', '"\\""a"']),
    ("'a' (EOF | 'b')", ["ab"], ["a", "b"]),
    ("'if' ~'\\u{FFFF}'", ["ifa", "if\U0010ffff"], ["if￿"]),
    ("[\\uD800-\\uDFFF] | 'x'", ["x"], ["\x00"]),
    ("'\\uD83D\\uDE00' '\\r\\t\\f\\b'", ["\U0001f600\r\t\f\b"], ["\U0001f600"]),
]
# Grammars with the place where they are refused, and how the message begins.
REFUSED = [
    ("grammar G; s : «'a ;\n", "this literal isn't closed"),
    ("grammar G; s : «\"a\" ;\n", "ANTLR 4 has no double quotes"),
    ("grammar G; s : a«! ;\n", "ANTLR 4 has no tree operators"),
    ("grammar G; s : «{ ( '\n;", "this is never closed"),
    ("grammar G; s : A ; A : «[a\n] ;", "this is never closed"),
    ("«rule : a ;", "a grammar file begins with"),
    ("grammar G; s : a «: b ;", "nothing of an alternative begins so"),
    ("grammar G; s : («options { greedy = false; } : . )* ;", "options and actions of a block"),
    ("grammar G; s : 'a' ; «s : 'b' ;", "the rule s stands a second time"),
    ("grammar G; s : 'a' «t ;", "no rule is t"),
    ("grammar «G; A : 'a' ;", "this grammar has no parser rules"),
    ("lexer grammar «G; A : 'a' ;", "name one combined grammar"),
    ("grammar G; options { tokenVocab = «L; } s : A ;", "a combined grammar has its own tokens"),
    ("grammar G; «s : EOF 'a' ;", "s has no sentence"),
    ("grammar G; «s : (t? (';' | EOF))* EOF ; t : 'a' ;", "s may take EOF again and again"),
    ("grammar G; s : t EOF ; «t : t EOF | 'a' ;", "t may take EOF again and again"),
    ("grammar G; s : t EOF ; «t : e t | ; e : ';' | EOF ;", "t may take EOF again and again"),
    ("grammar G; s : «{ok()}? 'a' ;", "a predicate may refuse sentences"),
    ("grammar G; s : «'a'..'c' ;", "a parser rule has no characters"),
    ("grammar G; s : A ; A : 'a' «{ skip(); } ;", "an action of a lexer rule"),
    ("grammar G; s : A ; A : «{x}? 'a' ;", "a predicate of a lexer rule"),
    ("grammar G; @lexer::members «{ Token nextToken() { } } s : A ; A : 'a' ;", "these members may change what is scanned"),
    ("grammar G; s : A ; A : 'a' | '(' «A ')' ;", "the rule A leads to itself"),
    ("grammar G; s : A ; A : B ; fragment B : C ; fragment C : 'c' «B ;", "the rule B leads to itself"),
    ("grammar G; s : A ; A : «B ;", "no lexer rule is B"),
    ("grammar G; s : A ; «A : 'a'* ;", "this rule matches the empty text"),
    ("grammar G; s : A ; «A : 'a' | EOF ;", "this rule matches the empty text"),
    ("grammar G; s : A ; A : 'a' -> «more ;", "conform's scanner has no modes"),
    ("grammar G; s : A ; A : 'a' -> «pushMode(X) ;", "conform's scanner has no modes"),
    ("grammar G; s : A ; A : 'a' -> «skip | 'b' ;", "commands stand at the end of a rule with one alternative"),
    ("grammar G; s : A ; A : 'a' -> «drop ;", "the commands are skip, channel(..) and type(..)"),
    ("grammar G; s : A ; «A : 'a' -> type(B) ;", "type(B) names no token"),
    ("grammar G; s : A ; A : «[a-c-e] ;", "this - stands behind a range"),
    ("grammar G; s : A ; A : «[c-a] ;", "this range goes down"),
    ("grammar G; s : A ; A : «[\\d] ;", "an escape is"),
    ("grammar G; s : A ; A : «[\\p{Lu}] ;", "an escape is"),
    ("grammar G; s : A ; A : «[] ;", "a set holds a character"),
    ("grammar G; s : A ; A : «'' ;", "a literal holds a character"),
    ("grammar G; s : A ; A : «'\\\"' ;", "an escape is"),
    ("grammar G; s : A ; A : ~«'ab' ;", "one character stands here"),
    ("grammar G; s : A ; A : ~(«B | 'a') ; B : 'b' ;", "a set of a lexer has no rules in it"),
    ("grammar G; s : «'x' ; A : 'x' ; B : 'x' ;", "several lexer rules are this literal"),
    ("grammar G; options { caseInsensitive = true; } s : A ; A : «[0-z] ;", "caseInsensitive is read of ranges"),
    ("grammar G; options { caseInsensitive = true; } s : «'x' ; A : 'X' ;", "a lexer rule is this literal but for"),
    ("grammar G; import «Nowhere; s : 'a' ;", "Nowhere.g4 isn't there"),
    ("parser grammar G; options { tokenVocab = «Nowhere; } s : A ;", "Nowhere.g4 isn't there"),
    ("parser grammar «G; s : A ;", "name one combined grammar"),
]
# Files of several grammars: their texts, the words before the outputs, the yacc file's rules, and those of the lex file.
SEVERAL = [
    (
        {
            "P.g4": "parser grammar P; options { tokenVocab = L; } s : ID '(' ')' EOF ;",
            "L.g4": "lexer grammar L; LEFT : '(' ; RIGHT : ')' ; ID : [a-z]+ ; WS : ' ' -> skip ;",
        },
        (["P.g4"], ["P.g4", "L.g4"], ["L.g4", "P.g4"]),
        ["s : ID LEFT RIGHT"],
        ['"(" return LEFT;', '")" return RIGHT;', "[a-z]+ return ID;", '" " ;'],
    ),
    # Rules of imports stand behind, each of them where its name isn't taken: first A's, then those of A's own import.
    (
        {
            "G.g4": "grammar G; import A, C; s : x EOF ; X : 'x' ;",
            "A.g4": "parser grammar A; import B; x : y | X ; s : 'never' ;",
            "B.g4": "parser grammar B; x : 'never' ; y : Z ;",
            "C.g4": "lexer grammar C; X : 'never' ; Z : [xz] ;",
        },
        (["G.g4"], ["--start=s", "G.g4"]),
        ["s : x", "x : y | X", "y : Z"],
        ['"x" return X;', "[xz] return Z;"],
    ),
    (
        {
            "G.g4": "grammar G; options { caseInsensitive = true; } s : 'if' X ; X options { caseInsensitive = false; } : [a-c] ; "
            "Y : [p-q1] ;"
        },
        (["G.g4"],),
        ["s : IF X", "unused_token : Y"],
        ["[Ii][Ff] return IF;", "[a-c] return X;", "[1PQpq] return Y;"],
    ),
]


def converted(folder, text, *words):
    written(folder, "G.g4", text)
    status, out, said = tool(folder, "from_antlr", *words, "G.g4", "g.y", "g.l")
    return status, out, said.replace("from_antlr: ", "")


def read(folder, name):
    with open(os.path.join(folder, name), "rb") as file:
        return file.read()


def yacc_rules(folder):
    """The rules of the yacc file, each on a line."""
    text = read(folder, "g.y").decode().partition("%%\n")[2].replace("/* Tokens that stand in no sentence. */\n", "")
    return [" ".join(rule.split()) for rule in text.split("\n    ;\n")[:-1]]


def program_rows(folder, text):
    """The program reads both files, where it is built."""
    if plain.fault(read(folder, "g.y")):
        yield f"{text!r}: the yacc file has a fault: {plain.fault(read(folder, 'g.y'))}"
    words = [PROGRAM, "suite", "g.y", "g.l", "--criteria=rule", "--mutate=none"]
    status, _, said = call(words, folder) if BUILT else (0, b"", b"")
    if status:
        yield f"{text!r}: the program ends with {status}: {said.decode()}"


def file_rows(folder):
    for text, words, rules, lines, told in FILES:
        status, out, said = converted(folder, text, *words)
        if (status, out) != (0, "") or not all(part in said for part in told):
            yield f"{text!r}: {status}, {out!r}, {said}"
            continue
        if yacc_rules(folder) != rules:
            yield f"{text!r}: {yacc_rules(folder)}, not {rules}"
        found = read(folder, "g.l").decode().splitlines()[1:]
        if lines is not None and found != lines:
            yield f"{text!r}: {found}, not {lines}"
        yield from program_rows(folder, text)


def several_rows(folder):
    for files, calls, rules, lines in SEVERAL:
        for name, text in files.items():
            written(folder, name, text)
        for words in calls:
            status, _, said = tool(folder, "from_antlr", *words, "g.y", "g.l")
            found = read(folder, "g.l").decode().partition("%%\n")[2].splitlines() if status == 0 else []
            if status or yacc_rules(folder) != rules or found != lines:
                yield f"{words}: {status}, {said}, {yacc_rules(folder)}, {found}"
            yield from program_rows(folder, words)


def refused_rows(folder):
    for text, wanted in REFUSED:
        raw, _, (line, column) = marked(text)
        status, out, said = converted(folder, raw)
        if (status, out) != (1, "") or not said.startswith(f"G.g4:{line}:{column}: {wanted}"):
            yield f"{text!r}: {status}, {said!r}, not {line}:{column}: {wanted}"
    status, _, said = converted(folder, b"grammar G;\n// \xff\n")
    if status != 1 or not said.startswith("G.g4:2:4: the file isn't UTF-8 here"):
        yield f"a byte that is no UTF-8: {status}, {said}"


def first_rule(folder):
    """A scanner of the lex file's first rule that gives a token."""
    rules = plain_lex.rules(read(folder, "g.l"))
    return plain_scanner.Scanner([next(rule.pattern for rule in rules if b"return" in rule.action)])


def is_match(scanner, text):
    nodes = scanner.begin
    for byte in text.encode():
        nodes = scanner.nodes.behind(nodes, byte)
    return scanner.winner(nodes) is not None


def pattern_rows(folder):
    for body, *texts in PATTERNS:
        text = f"grammar G; s : X EOF ; X : {body} ;"
        status, _, said = converted(folder, text)
        if status:
            yield f"{text!r}: {status}, {said}"
            continue
        scanner = first_rule(folder)
        for wanted, listed in zip((True, False), texts):
            wrong = [each for each in listed if is_match(scanner, each) != wanted]
            if wrong:
                yield f"{body}: {wrong} {'not matched' if wanted else 'matched'}"
        yield from program_rows(folder, text)


def made_lexer_rows(folder):
    texts = ["".join(letters) for length in range(1, 7) for letters in itertools.product("ab", repeat=length)]
    for seed in range(60):
        part = frozen(("row", ["a", made(random.Random(seed), 4, ("a", "b", "."))]))
        status, _, said = converted(folder, f"grammar G; s : X EOF ; X : {spelled(part)} ;")
        scanner = first_rule(folder) if status == 0 else None
        wrong = [text for text in texts if status or is_match(scanner, text) != matched(part, text)]
        if wrong:
            yield f"X : {spelled(part)}: {status}, {said}, {wrong[:3]}"


def written_sentences(folder):
    items, fault = plain.read_items(read(folder, "g.y"))
    if fault:
        return {"fault"}
    parts = {}
    for rule in plain.rules(items):
        body = [item.text.decode().strip("'") for item in rule.body]
        parts.setdefault(rule.left.text.decode(), ("or", []))[1].append(("row", body))
    return least(parts)["start"]


def made_parser_rows(folder):
    for seed in range(40):
        chance = random.Random(seed)
        parts = {name: made(chance, 3, ("a", "b", "rule", "other")) for name in ("start", "rule", "other")}
        parts["rule"] = "or", [("row", ["rule", "b", "rule"]), ("row", ["a", "rule"]), "b", parts["rule"]]
        rules = " ".join(f"{name} : {spelled(part)} ;" for name, part in parts.items())
        status, _, said = converted(folder, f"grammar G; {rules}", "--start=start")
        wanted = least(parts)["start"]
        found = written_sentences(folder) if status == 0 else set()
        if status or found != wanted:
            yield f"{rules}: {status}, {said}, {sorted(found ^ wanted)[:3]}"
        yield from program_rows(folder, rules)


def bad_calls(folder):
    written(folder, "G.g4", "grammar G; s : 'a' EOF ;")
    rows = [
        ([], 2),
        (["G.g4"], 2),
        (["G.g4", "g.y"], 2),
        (["--what", "G.g4", "g.y", "g.l"], 2),
        (["G.g4", "G.g4", "g.y"], 2),
        (["G.g4", "g.y", "x.g4"], 2),
        (["a", "b", "c", "d", "e"], 2),
        (["no.g4", "g.y", "g.l"], 3),
        (["G.g4", "g.y", "no/g.l"], 4),
        (["--start=t", "G.g4", "g.y", "g.l"], 1),
    ]
    for words, wanted in rows:
        status, out, said = tool(folder, "from_antlr", *words)
        if (status, out) != (wanted, "") or "from_antlr: " not in said:
            yield f"from_antlr {words}: {status}, {said}"
    for word in ("--help", "-h"):
        status, out, said = tool(folder, "from_antlr", word)
        if (status, said) != (0, "") or not out.startswith("from_antlr "):
            yield f"from_antlr {word}: {status}, {out!r}, {said!r}"


def main():
    failed = []
    for rows in (file_rows, several_rows, refused_rows, pattern_rows, made_lexer_rows, made_parser_rows, bad_calls):
        with tempfile.TemporaryDirectory() as folder:
            failed += rows(folder)
    if not BUILT:
        print("antlr_runs: the program isn't built: it read nothing of what was written", file=sys.stderr)
    end(failed)


main()
