#!/usr/bin/env python3
"""Runs what stands beside the program, tools/from_bison and tools/explain: tools_runs.py [PROGRAM].

It prints the rows that fail, and ends with status 1 where one did. Where the program isn't built, a made-up one stands in
for it, which says what the row has as its line; where bison isn't there, its reports aren't compared. A text's place is
where its mark « stands, which is taken out. The expected texts were worked by hand from docs/FORMATS.md.
"""

import os
import re
import shutil
import subprocess
import sys
import tempfile

sys.dont_write_bytecode = True

from calls import BUILT, PROGRAM, TOOLS, TOP, call, marked, written

sys.path.insert(0, TOOLS)

import plain
from refusals import FAULTS, SENTENCES
from rows import end, in_order
from suites import SECOND

MADE_UP = """#!/bin/sh
printf '%s' "$WROTE"
printf '%s' "$SAID" >&2
exit "$STATUS"
"""

# Bison's text, and the plain one.
PLAIN = [
    ("%token A \"a\"\n%%\ns : \"a\"s | ;\n", "%token A    \n%%\ns : A  s | ;\n"),
    ('%token ADD "+" SUB "-"\n%%\ns:"+""-"    \'x\' ;', "%token ADD     SUB    \n%%\ns:ADD SUB   'x' ;"),
    (
        "%define a.b-c {x}\n%code /* kept */ {\n\t{}\n}\n%%\ns[x]: 'a'[y] ;",
        "                 \n      /* kept */  \n\t  \n \n%%\ns   : 'a'    ;",
    ),
    ("%%\ns : '\\x0041' '\\u0042' ;", "%%\ns : '\\x41'   '\\x42'   ;"),
    ("%%\ns : 'a' { <% } } ;", "%%\ns : 'a'          ;"),
    ("%%\ns : 'a' { // } \\\n } \n } ;", "%%\ns : 'a'         \n   \n   ;"),
    ("%token <a->b> A <c> B\n%%\ns : A ;", "%token        A     B\n%%\ns : A ;"),
    ("%{ \"%}\" %}\n%%\ns : YYerror | ;", "          \n%%\ns : error   | ;"),
    ("%precedence \"low\"\n%token A\n%%\ns : A %prec \"low\" ;", "                 \n%token A\n%%\ns : A             ;"),
    (
        "%%  /* x */\ns : A \"b\" ; %token A B \"b\";\n%start s; %left '+' A; | A",
        "%token A %token B %start s %% /* x */\ns : A B   ;                \n                       | A",
    ),
    ("%union u {int x;}\n%union v { <% } }\n%%\ns : ;", "%union   {int x;}\n                 \n%%\ns : ;"),
    ("%token A\n%%\n#line 7 \"x.y\"\ns, : A, <t>{ }[u] ;\n", "%token A\n%%\n             \ns  : A     { }    ;\n"),
    # A token with the number 0 is the end of the text, by POSIX yacc too: a sentence ends where its text does.
    (
        "%token A 1 LAST 0 \"end\"\n%%\ns : l \"end\" { } | LAST | error LAST A ;\nl : A | l A %prec LAST ;",
        "%token A 1 LAST 0      \n%%\ns : l       { } |      | error LAST A ;\nl : A | l A %prec LAST ;",
    ),
    ("%token END 0x0\n%%\ns : t END ; t : 'a' u ; u : END ;", "%token END 0  \n%%\ns : t     ; t : 'a' u ; u :     ;"),
]

# Texts that are plain already.
SAME = [
    "%{ it's %}\n%{ /* %}\n%%\ns : 'a' { // \\\n } | 'b' ;\n",
    "%token <t> A 258, B , %left '+' 4 /* x */\n%type<u> a\n%union { } %start a %expect 3 ; %{ ' %}\n"
    "%%\na : A { it's }\n%prec B b : ; | ';' ;\n%%\n%%{",
    "%%\ns:{'\"'}'\\x2b''+'%empty|s\n",
    "%precedence 'x'\r\n%nonassoc A\t%right B\r\n%%\r\ns : '\\\\' '\\'' '\\101' // end\r\n",
]

# Bison's text with the place that is refused, and how the message begins.
NOT_PLAIN = [
    ("%start a «b\n%%\na : ; b : ;", "there are several start symbols"),
    ("%start a\n%start «b\n%%\na : ; b : ;", "there are several start symbols"),
    ("%%\na : «\"+\" ;", "no token has this string: write %token NAME \"+\""),
    ("%%\na : «%? { x } 'b' ;", "a semantic predicate"),
    ("%token «A-B\n%%\na : A-B ;", "names have no `-`"),
    ("«%tokn A\n%%\na : A ;", "%tokn is no directive that is known: write %token"),
    ("%%\na : «%token-x ;", "%token-x is no directive that is known"),
    ("«@PURE@\n%%\ns : ;", "configure puts text in here"),
    ("%%\na : «'ab' ;", "a literal stands for one byte"),
    ("%%\na : «'' ;", "a literal stands for one byte"),
    ("%%\na : «'\\0' ;", "a literal stands for one byte"),
    ("%%\na : «'é' ;", "a literal stands for one byte"),
    ("%%\na : «'b", "this literal isn't closed"),
    ("%token A «\"b\n%%\na : A ;", "this string isn't closed"),
    ("%start a\n%%\na : b ; b : ; %start «b;", "there are several start symbols"),
    ("%%\na : ; %type <t> a «", "a declaration among the rules ends with `;`"),
    ("%%\na : «{ /* } ;", "this brace is never closed"),
    ("«%{ '}'\n%%\na : ;", "this prologue is never closed"),
    ("%token «<t A\n", "this tag is never closed"),
    ("%%\na : b«[1] ;", "a name in brackets"),
    ("%%\na : «/* b", "this comment is never closed"),
    ("%%\na : «= ;", "no grammar file has this here"),
    ("%%\na : «@ ;", "nothing of a grammar file begins so"),
    ("%token A\n«#if X\n%token B\n#endif\n%%\na : A ;", "#if is a preprocessor's line, which Bison doesn't read"),
    ("%%\na : 'x'\n«# ifdef Y\n | 'y'\n#endif\n;", "# ifdef is a preprocessor's line"),
    ("%%\na : {\n#if 0\n}\n«#else\n}\n#endif\n;", "#else is a preprocessor's line"),
    ("%%\na : «#iffy ;", "nothing of a grammar file begins so"),
    ("%code «%%\na : ;", "a block in braces is missing behind %code"),
    ("%require «3\n%%\na : ;", "a string is missing behind %require"),
    ("%token A«", "the file ends without %%"),
    ("%%\na : «YYEOF ;", "this token is Bison's own"),
    ("%token END 0\n%%\na : «END 'b' ;", "the number 0 of END is the end of the text, and more may stand behind it here"),
    ("%token END 0\n%%\na : «b 'c' ; b : 'b' END ;", "the number 0 of END is the end of the text"),
    ("%token END 0\n%%\na : | «a b ; b : 'b' END ;", "the number 0 of END is the end of the text"),
    ("%token A \"x\" B «\"x\"\n%%\na : A ;", "this string stands for two tokens"),
    ("%union «%%\na : ;", "a block in braces is missing behind %union"),
    ("%%\na : 'b' %prec «; ", "a token is missing behind %prec"),
    ("%%\na : 'b' %expect «;", "a number is missing behind %expect"),
    ("«%prec A\n%%\na : ;", "%prec has no place here"),
]

# The token of each string of tests/grammars, beside what differs in Bison's report.
STRINGS = {
    "desk.y": {
        '"number"': "NUMBER", '"name"': "NAME", '"+"': "PLUS", '"-"': "MINUS", '"*"': "TIMES", '"/"': "OVER",
        '"("': "LEFT_BRACKET", '")"': "RIGHT_BRACKET", '":="': "ASSIGN", '"**"': "POWER",
    },
    "scenes.y": {
        '"list of points"': "POINTS", '"word"': "WORD", '"text"': "TEXT", '"count"': "COUNT", '"of"': "OF",
        '"end"': "END", '"scene"': "SCENE", '"repeat"': "REPEAT", '"->"': "ARROW", "'\\''": "'\\x27'",
    },
    "either.y": {},
}

# A yacc file with its place, the refusal, and how the hint beside it begins.
PLACES = [
    ("%token NUMBER\n%%\ne : e «nmuber | NUMBER ;\n", "Undefined", "the nearest name is NUMBER"),
    ("%%\nline : 'x' ;\nb : «lien ;\n", "Undefined", "the nearest name is line"),
    ("%%\ns : «PLUS ;\n", "Undefined", "a token is declared by %token PLUS"),
    ("%%\ns : «FILE ;\n", "Undefined", "a token is declared by %token FILE"),
    ("%%\n\ts : 'a' «{ if (x) {\n y; }", "Unended", "a block goes through"),
    ("%%\ns : 'a' «{ if (x) { y;\n", "Unended", "the last brace that stays open begins at line 2, column 18"),
    ("%%\ns : 'a' «{ /* } ;", "Unended", "the last comment that stays open begins at line 2, column 11"),
    ("«/* %%\ns : ;", "Unended", "a comment goes through"),
    ("«%{ %%\ns : ;", "Unended", "a prologue goes through"),
    ("%%\ns «'a' ;\n", "Syntax", "a `:` is missing behind s at line 2, column 1"),
    ("%%\ns : 'a' ;\nb «c ;\n", "Syntax", "a `:` is missing behind b at line 3, column 1"),
    ("%token A\n\ns «: A ;\n", "Syntax", "a line with %% seems to be missing before s at line 3, column 1"),
    ("%start s\n«s : 'a' ;\n", "Syntax", "a line with %% seems to be missing before s at line 2, column 1"),
    ("«", "Syntax", "the file is empty"),
    ("%token A\n«", "Syntax", "the file ends without %%"),
    ("%%\ns«", "Syntax", "the file ends behind s"),
    ("%%\ns : ; «'a' ;", "Syntax", "behind `;` comes the next left side: take the `;` at line 2"),
    ("%%\ns : 'a' «: 'b' ;", "Syntax", "a left side is one name and one `:`"),
    ("%%\ns ::«= 'b' ;", "BadItem", "a left side is followed by `:` alone"),
    ("%%\ns : 'a' { } «: 'b' ;", "Syntax", "the left side, a name, is missing"),
    ("%%\n«@PURE@\ns : ;", "BadItem", "configure puts text in here"),
    ("%%\ns «-> 'b' ;", "BadItem", "a left side is followed by `:` alone"),
    ("%%\n«<s> : 'b' ;", "Syntax", "behind %% comes the left side"),
    ("%%\ns : «%token A ;", "Syntax", "this directive stands before the first %%"),
    ("%union «value { }\n%%\ns : ;", "Syntax", "a union with a name: this is GNU Bison's"),
    ("%token <a> A «<b> B\n%%\ns : A ;", "Syntax", "a second tag in a list: this is GNU Bison's"),
    ("%%\ns : «<t>{ } ;", "Syntax", "a tag before an action: this is GNU Bison's"),
    ("%token «%left A\n%%\ns : A ;", "Syntax", "behind the directive comes a token"),
    ("%%\ns : «\"{\" ;", "BadItem", "a string for a token: this is GNU Bison's"),
    ("%%\ns : t«[u] ; t : ;", "BadItem", "a name in brackets: this is GNU Bison's"),
    ("%%\ns : t«-u ;", "BadItem", "names have no `-`"),
    ("%%\ns : «'ab' ;", "BadItem", "a literal holds one byte or escape: give a longer"),
    ("%%\ns : «'\\0' ;", "BadItem", "the byte 0 is no literal"),
    ("%%\ns : t «* ; t : ;", "BadItem", "yacc has no repetitions and groups"),
    ("%%\ns : «%? { } ;", "BadItem", "a semantic predicate"),
    ("«%\ns : ;", "BadItem", "a directive is % and a word"),
    ("%%\ns : 'x'\n«#ifdef Y\n | 'y'\n#endif\n ;", "BadItem", "a line for a preprocessor"),
    ("%%\ns : /* é */ «é ;", "BadItem", "names and literals hold ASCII alone"),
    ("«%define x\n%%\ns : ;", "UnknownDirective", "this is GNU Bison's, and tools/from_bison g.y > plain.y"),
    ("/* s */ grammar S;\ns : A EOF ;\nA : «[a-z]+ ;", "BadItem", "this is a grammar of ANTLR's: tools/from_antlr g.y plain.y plain.l"),
    ("«%tokens A\n%%\ns : ;", "UnknownDirective", "%token may be meant"),
    ("%start s\n«%start t\n%%\ns : ;", "SecondStart", "the first stands at line 1, column 1"),
    ("%token A\n%left s\n%%\n«s : ;", "TokenOnLeft", "it is declared at line 2, column 7"),
    ("%start «sum\n%%\nsums : ;", "StartNotNonterminal", "the nearest left side is sums"),
]
FILES = {
    "wide.y": "%token A\n%%\nt : | error\n | " + "A " * 129 + ";\n",
    "many.y": "%token A\n%%\n" + "".join(f"n{number} : A ;\n" for number in range(1025)),
    "long.y": " " * 1048577,
}
LONG = "%token A\n%%\ns : " + "A " * 120 + "«\x1b[1m " + "A " * 120 + ";\n"
BAD_NAME = b"\xff".decode(errors="surrogateescape")
USAGE = "usage: conform suite YACC LEX"

# Words, the program's line, its status, and parts of what is said beside it, in order.
OTHERS = [
    (["rules", "wide.y"], "yacc: Limit RightSide 129 of 128", 1, ["wide.y:4:2: A rule has", " ^", "of t and has 129"]),
    (["rules", "many.y"], "yacc: Limit Nonterminals 1025 of 1024", 1, ["many.y: The grammar", "1,025, and at most 1,024"]),
    (["rules", "long.y"], "yacc: Length above 1048576", 1, ["long.y: The yacc file is too long", "it has 1,048,577 bytes"]),
    (["rules", "no.y"], "read fault: yacc", 3, ["no.y: The yacc file can't be read", "no file has this name"]),
    (["rules", "."], "read fault: yacc", 3, [".: The yacc file can't be read", "this is a folder"]),
    ([], "usage: word 0", 2, [USAGE]),
    (["--help"], "usage: word 0", 2, [USAGE]),
    (["rule", "g.y"], "usage: word 0", 2, ["This word may not", "  conform rule g.y\n          ^^^^    \n", USAGE]),
    (["rules"], "usage: word 1", 2, ["A word is missing behind rules.\n", USAGE]),
    (["gen", "x"], "usage: word 1", 2, ["  conform gen x\n              ^\n", USAGE]),
    (["rules", "a", "bc"], "usage: word 2", 2, ["  conform rules a bc\n                  ^^\n", USAGE]),
    (["rules", BAD_NAME], None, 7, ["write the file's name in UTF-8"]),
]
# A lex file with its place, and where the place is in a pattern the pattern's begin », the refusal, and how the hint begins.
LEX_PLACES = [
    ("%%\n»[a-z]«{-}[b] return A;\n", "Syntax", "[a-z]{-}[b] is flex's"),
    ("B »[a]«{+}[b]\n%%\n{B} return A;\n", "Syntax", "[a-z]{+}[b] is flex's"),
    ("%%\n»(«?i:x) return A;\n", "Syntax", "(?i:x) and its like are flex's"),
    ("%%\n»a(«?#b)c return A;\n", "Syntax", "(?#..) is flex's"),
    ("%%\n»a«[[:^digit:]] return A;\n", "Syntax", "[:^alpha:] and its like are flex's"),
    ("%%\n»a«/b return A;\n", "Trailing", "r/s is an r with an s behind it: tools/from_flex l.l g.y > plain.l leaves such rules"),
    ("END »a«/b\n%%\na return A;\n", "Trailing", "r/s is an r with an s behind it, here in the part that END names"),
    ("%%\n»«^a return A;\n", "Anchor", "tools/from_flex l.l g.y > plain.l leaves such rules out"),
    ("%%\n»a«$ return A;\n", "Anchor", "tools/from_flex l.l g.y > plain.l leaves such rules out"),
    ("%%\n»a«$b return A;\n", "Anchor", "within a pattern flex takes it for the byte itself"),
    ("%%\n»«<<EOF>> return A;\n", "Condition", "<<EOF>> is flex's"),
    ("%%\n»«<INITIAL>a return A;\n", "Condition", "tools/from_flex l.l g.y > plain.l writes such rules without <..>"),
    ("%%\n»«<S>a return A;\n", "Condition", "tools/from_flex l.l g.y > plain.l leaves such rules out"),
    ("«%x S\n%%\na return A;\n", "StartCondition", "tools/from_flex l.l g.y > plain.l keeps the rules of INITIAL"),
    ("%option «case-insensitive\n%%\na return A;\n", "UnknownOption", "tools/from_flex l.l g.y > plain.l writes each letter"),
    ("%option «stack\n%%\na return A;\n", "UnknownOption", "tools/from_flex l.l g.y > plain.l takes out what changes nothing"),
    ("«%top{\n}\n%%\na return A;\n", "UnknownDirective", "this is flex's"),
]
# Lines that no command writes today, or that no file brings about: those on the lex file, and want of memory and room.
MADE_UP_LINES = [
    ("lex: Pattern at 4: Anchor at 1", 1, ["l.l:2:3: The anchors", "a ^b x\n  ^\n"]),
    ("lex: Pattern at 4: TooDeep 201 of 200", 1, ["l.l:2:2: Too many groups"]),
    ("lex: Pattern at 4: TooManyPositions above 8192", 1, ["l.l:2:2: The pattern is too large"]),
    ("lex: Unended at 3", 1, ["l.l:2:1: What begins here"]),
    ("lex: NoRules", 1, ["l.l: The rules section is empty"]),
    ("lex: Limit Rules 2049 of 2048", 1, ["l.l: The lex file has too many rules", "2,049, and at most 2,048"]),
    ("lex: States above 16384", 1, ["l.l: The patterns together need"]),
    ("lex: Length above 1048576", 1, ["l.l: The lex file is too long"]),
    ("read fault: lex", 3, ["l.l: The lex file can't be read"]),
    ("chains: Limit Goals 1000001 of 1000000", 1, ["g.y: The grammar has too many goals", "1,000,001, and at most 1,000,000"]),
    ("text: Length above 65536", 1, ["t: The text is too long", "it has 3 bytes"]),
    ("text: Stops at 2", 1, ["t:1:3: The scanner takes nothing here", "0 x\n  ^\n"]),
    ("text: Tokens 2001 of 2000", 1, ["t: The text has too many tokens", "2,001, and at most 2,000"]),
    ("read fault: text", 3, ["t: The text can't be read"]),
    ("manifest: Length above 67108864", 1, ["t: The manifest is too long", "it has 3 bytes"]),
    ("read fault: manifest", 3, ["t: The manifest can't be read"]),
    ("write fault", 4, ["The output can't be written"]),
    ("out of memory", 5, ["The system gave no more memory"]),
]
# Each line of the error output, without numbers: that docs/FORMATS.md has them is looked at below.
PATTERNS = "Anchor Trailing Condition Collation Syntax UndefinedName DefinitionCycle TooDeep TooManyPositions".split()
LEX = "Unended Layout UnknownDirective UnknownOption StartCondition NoRules DanglingBar".split()
ERROR_RULES = "%%\ns : 'a' | error | 'b' error 'c' ;\n"
END = "end goals 1 feasible 1 infeasible 0 large 0 negatives 0\n"
SCANNER = "%%\na return 'a';\n"
# Scanners of two rules `A B` and `B`, the lines of texts that the program writes, and what is said of these.
UNKNOWN = (
    "no text is known of this token: no rule is understood to give it, or rules above take its texts (`conform lexical` tells)"
)
MISSING = [
    ("a return A;\nb return B;\n[ ] ;\n", '  text "a b"\n  text "b"\n', ""),
    (
        "a return A;\nb return B;\n",
        '  no text scan 1\n  text "b"\n',
        "l.l: of 2 texts 1 missing\n  the joined lexemes scan to other tokens there: --separator= names other bytes between two\n",
    ),
    (
        "a return T_A;\nb return B;\n[ ] ;\n",
        '  no text lexeme A\n  text "b"\n',
        f"l.l: of 2 texts 1 missing\n  A: {UNKNOWN}\n"
        "  the scanner returns T_A for A: `tools/from_flex l.l GRAMMAR.y` with Bison's own grammar reads names as Bison makes "
        "them\n",
    ),
    (
        "a return 'B';\n /* A: of its name: unknown; fill in: \"...\" return A; */\nb return B;\n[ ] ;\n",
        '  no text lexeme A\n  text "b"\n',
        f"l.l: of 2 texts 1 missing\n  A: {UNKNOWN}\n  a rule is to be filled in at line 3, column 2\n",
    ),
    (
        "a return give(A);\nb return give(B);\n",
        "  no text lexeme A\n  no text lexeme B\n",
        "l.l: of 2 texts 2 missing\n  A, B: no text is known of these tokens: no rule is understood to give them, or rules above "
        "take their texts (`conform lexical` tells)\n"
        "  `tools/from_flex l.l g.y` says which actions aren't understood, and what may stand in them\n",
    ),
]
# What from_flex writes before a scanner, and the hint then.
WRITTEN = (
    "/* The rules of INITIAL of a.l, by from_flex.\n  kept, but in no text: why:\n    4 */\n",
    "  the comment at its beginning tells which lines of a.l are left out or aren't understood: write rules for the "
    "former, and /*@token NAME*/ into actions of the latter\n",
)
# Scanners behind that, and the lines of texts. A make_A that from_flex left so is a function of the file's own.
WRITTEN_RULES = [
    ("a return give(A);\nb return give(B);\n", "  no text lexeme A\n  no text lexeme B\n"),
    ("a /*@token not.a.token*/ return make_A(yytext);\nb return B;\n[ ] ;\n", '  no text lexeme A\n  text "b"\n'),
]
# Other commands on these files: a last line, and what is said of it.
ENDINGS = [
    (
        ["deep", "g.y", "l.l"],
        "end bases 1 edits 2 negatives 2 deep 0 sentences 0 long 0\n",
        "of 2 edits 2 left to suite, 0 deep, 0 sentences and 0 long",
    ),
    (["chains", "g.y"], "end goals 0 feasible 0 infeasible 0 large 0\n", "of 0 goals 0 infeasible and 0 large"),
    (["chains", "g.y", "l.l"], "end goals 0 feasible 0 infeasible 0 large 0\n", "of 0 goals 0 infeasible and 0 large"),
    (
        ["wrong", "g.y", "l.l"],
        "end slips 3 none 0 large 0 again 1 long 0 sentences 0 wrong 2\n",
        "of 3 slips 0 without a list, 0 large, 1 with an earlier one's, 0 long, 0 sentences and 2 wrong",
    ),
    (
        ["lexical", "g.y", "l.l"],
        "end rules 1 shadowed 0 overlaps 0 disjoint 0\n",
        "of 1 scanner rule 0 shadowed, and 0 overlaps",
    ),
    (
        ["spell", "g.y", "l.l"],
        "end rules 1 spelled 1 shadowed 0 foreign 0 literal 0 infeasible 0 large 0\n",
        "of 1 scanner rule 1 spelled; 0 shadowed, 0 foreign, 0 of literals, 0 infeasible and 0 large",
    ),
    (["check", "g.y", "l.l", "m"], "yes goals 5 negatives 2\n", "of 5 goals all holds, and of 2 negatives"),
]
MANIFEST = re.sub(r"\bx\b", "a", SECOND).replace("a a\"", "aa\"")


def from_bison(folder, name):
    return call([sys.executable, os.path.join(TOOLS, "from_bison"), name], folder)


def plain_rows(folder):
    for text, wanted in PLAIN + [(text, text) for text in SAME]:
        written(folder, "g.y", text)
        found = from_bison(folder, "g.y")
        if found != (0, wanted.encode(), b""):
            yield f"{text!r}: {found!r}, not {wanted!r}"


def not_plain_rows(folder):
    for text, wanted in NOT_PLAIN:
        raw, _, (line, column) = marked(text)
        written(folder, "g.y", raw)
        status, out, said = from_bison(folder, "g.y")
        if (status, out) != (1, b"") or not said.decode().startswith(f"from_bison: g.y:{line}:{column}: {wanted}"):
            yield f"{text!r}: status {status}, {said.decode()!r}, not {line}:{column}: {wanted!r}"


def calls(folder):
    rows = (["missing.y"], 3), ([], 2), (["a", "b"], 2)
    for words, wanted in rows:
        status, out, said = call([sys.executable, os.path.join(TOOLS, "from_bison"), *words], folder)
        if (status, out) != (wanted, b"") or not said.startswith(b"from_bison: "):
            yield f"from_bison {words}: status {status}, {said!r}"


SYMBOL = re.compile(r"""'(?:\\.|[^'])+'|"(?:\\.|[^"])*"|\S+""")


def has_bison():
    """Whether bison is there, not older than 3.8."""
    if not shutil.which("bison"):
        return False
    version = re.search(rb" (\d+)\.(\d+)", call(["bison", "--version"], "/")[1])
    return version is not None and (int(version[1]), int(version[2])) >= (3, 8)


def reported(folder, path):
    """The rules of Bison's report, without those that it adds and those with `error`."""
    report = os.path.join(folder, "report")
    subprocess.run(["bison", "-Wnone", "--report=state", f"--report-file={report}", "-o", "g.c", path], cwd=folder, check=True)
    with open(report) as file:
        part = file.read().split("Grammar\n", 1)[1].split("Terminals,", 1)[0]
    left, strings = None, STRINGS[os.path.basename(path)]
    for name, right in re.findall(r"^ *\d+ (?:(\S+):| +\|)(.*)$", part, re.M):
        left = name or left
        symbols = (symbol for symbol in SYMBOL.findall(right) if not re.fullmatch(r"\$?@\d+|ε|%empty", symbol))
        names = [strings.get(symbol, symbol) for symbol in symbols]
        if not re.match(r"\$?@\d|\$accept", left) and "error" not in names:
            yield left, names


def name_of(item):
    if item.kind == "name":
        return item.text.decode()
    value = plain.literal_value(item.text)
    return f"'{chr(value)}'" if 0x21 <= value <= 0x7E and value not in b"'\\" else f"'\\x{value:02x}'"


def read(text):
    """The rules of a plain text, as the module that tools/explain has for it reads them."""
    kept = (rule for rule in plain.rules(plain.read_items(text)[0]) if not rule.has_error)
    return [(rule.left.text.decode(), [name_of(item) for item in rule.body]) for rule in kept]


def numbered(folder, text):
    """The rules that the program numbers."""
    written(folder, "plain.y", text)
    _, out, _ = call([PROGRAM, "rules", "plain.y"], folder)
    return [(left, right.split()) for left, right in re.findall(r"^rule \d+ (\S+) :(.*)$", out.decode(), re.M)]


def no_shorter(before, after):
    return len(before) == len(after) and all(old <= new for old, new in zip(before, after))


def reports(folder):
    for name in STRINGS:
        path = os.path.join(TOP, "tests", "grammars", name)
        status, text, said = from_bison(folder, path)
        with open(path, "rb") as file:
            lines = [len(line) for line in file.read().split(b"\n")]
        if status or not no_shorter(lines, [len(line) for line in text.split(b"\n")]):
            yield f"{name}: status {status}, {said!r}, or a line is shorter or missing"
        found = list(reported(folder, path)) if has_bison() else read(text)
        for source, rules in ("tools/plain.py", read(text)), ("the program", numbered(folder, text) if BUILT else found):
            if rules != found:
                yield f"{name}: {source} has {rules}, and bison {found}"


def explained(folder, words, line, status, out=""):
    """What tools/explain writes: the program where it is built and writes such lines, else one that says this line."""
    is_made_up = not BUILT or any(line == made_up for made_up, *_ in MADE_UP_LINES)
    program = os.path.join(folder, "program") if is_made_up else PROGRAM
    said = f"conform: {line}\n" if line else ""
    found, _, told = call(
        [sys.executable, os.path.join(TOOLS, "explain"), program, *words], folder, SAID=said, STATUS=str(status), WROTE=out
    )
    told = told.decode(errors="surrogateescape")
    if found != status or not told.startswith(said):
        return f"{words} {line}: status {found}, {told!r}", ""
    return None, told[len(said) :]


def places(folder):
    for text, name, hint in PLACES:
        raw, at, (line, column) = marked(text)
        written(folder, "g.y", raw)
        fault, told = explained(folder, ["rules", "g.y"], f"yacc: {name} at {at}", 1)
        yield from [fault] if fault else []
        shown = raw[at - column + 1 :] if raw.isascii() else b""
        sentence = SENTENCES[f"yacc: {name}"]
        wanted = [f"g.y:{line}:{column}: {sentence}\n", shown.decode().split("\n")[0], "^\n", f"  {hint}"]
        if not fault and not in_order(wanted, told):
            yield f"{text!r}: {told!r}, not {wanted}"
        early = plain.fault(raw) if name in ("BadItem", "Unended", "UnknownDirective", "Syntax") else None
        if early not in (None, (name, at)):
            yield f"{text!r}: tools/plain.py has {early}"


def lex_places(folder):
    """On lex files too a hint says which form of flex's stands there."""
    written(folder, "g.y", "%token A\n%%\ns : A ;\n")
    for text, name, hint in LEX_PLACES:
        begin = text.replace("«", "").encode().find("»".encode())
        raw, at, (line, column) = marked(text.replace("»", ""))
        written(folder, "l.l", raw)
        said = f"lex: {name} at {at}" if begin < 0 else f"lex: Pattern at {begin}: {name} at {at - begin}"
        fault, told = explained(folder, ["suite", "g.y", "l.l"], said, 1)
        sentence = SENTENCES[f"lex: {name}" if begin < 0 else f"lex: Pattern {name}"]
        wanted = [f"l.l:{line}:{column}: {sentence}\n", "^\n", f"  {hint}"]
        if fault or not in_order(wanted, told):
            yield fault or f"{text!r}: {told!r}, not {wanted}"


def long_lines(folder):
    """A long line is shown in part, without what a terminal would take as a command."""
    raw, at, _ = marked(LONG)
    written(folder, "g.y", raw)
    fault, told = explained(folder, ["rules", "g.y"], f"yacc: BadItem at {at}", 1)
    shown, mark = told.split("\n")[1:3] if not fault else ("", "")
    if fault or shown[:3] + shown[-3:] != "......" or shown[len(mark) - 1 :][:4] != "?[1m":
        yield fault or f"a long line: {told!r}"


def others(folder):
    for name, text in FILES.items():
        written(folder, name, text)
    for words, line, status, wanted in OTHERS:
        fault, told = explained(folder, words, line, status)
        if fault or not in_order(wanted, told):
            yield fault or f"{words}: {told!r}, not {wanted}"
    written(folder, "l.l", "%%\na ^b x\n")
    written(folder, "t", "0 x")
    for line, status, wanted in MADE_UP_LINES:
        fault, told = explained(folder, ["suite", "g.y", "l.l", "t"], line, status)
        if fault or not in_order(wanted, told):
            yield fault or f"{line}: {told!r}, not {wanted}"


def good_runs(folder):
    written(folder, "g.y", ERROR_RULES)
    written(folder, "l.l", SCANNER)
    written(folder, "m", MANIFEST)
    shared = END.replace("\n", " cases 1\n")
    for words, wrote in (["rules", "g.y"], END), (["suite", "g.y", "l.l", "--criteria=rule", "--mutate=none"], shared):
        fault, told = explained(folder, words, None, 0, wrote)
        if fault or told != "g.y: 2 rules left out for `error`; of 1 goal 0 infeasible and 0 large\n":
            yield fault or f"a good run of {words}: {told!r}"
    for words, wrote, ending in ENDINGS:
        fault, told = explained(folder, words, None, 0, wrote)
        if fault or told.split("\n")[0] != f"g.y: 2 rules left out for `error`; {ending}":
            yield fault or f"a good run of {words}: {told!r}"


def slow_runs(folder):
    """A run that took long isn't repeated to count what it wrote, and that is told."""
    os.chmod(written(folder, "slow", "#!/bin/sh\nexec sleep 2.1\n"), 0o755)
    written(folder, "g.y", ERROR_RULES)
    words = [sys.executable, os.path.join(TOOLS, "explain"), os.path.join(folder, "slow"), "rules", "g.y"]
    status, _, told = call(words, folder)
    wanted = b"g.y: 2 rules left out for `error`; it took more than 2 seconds, so what it wrote isn't counted"
    if status or not told.startswith(wanted):
        yield f"a slow run: {status}, {told!r}"


def missing_texts(folder):
    """Behind a good run stands how many texts are missing, and why."""
    written(folder, "g.y", "%token A B\n%%\ns : A B | B ;\n")
    for rules, wrote, wanted in MISSING:
        written(folder, "l.l", f"%%\n{rules}")
        fault, told = explained(folder, ["suite", "g.y", "l.l", "--criteria=rule", "--mutate=none"], None, 0, wrote)
        if fault or told.partition("\n")[2] != wanted:
            yield fault or f"{rules!r}: {told!r}, not {wanted!r}"
    for rules, wrote in WRITTEN_RULES:
        written(folder, "l.l", f"{WRITTEN[0]}%%\n{rules}")
        fault, told = explained(folder, ["suite", "g.y", "l.l", "--criteria=rule", "--mutate=none"], None, 0, wrote)
        if fault or not told.endswith(WRITTEN[1]):
            yield fault or f"{WRITTEN[0]!r}, {rules!r}: {told!r}"


def ends_of_text(folder):
    """A token with the number 0 has no text, and the hint says what to do."""
    written(folder, "g.y", "%token A B LAST 0\n%%\ns : A B LAST | B ;\n")
    written(folder, "l.l", "%%\na return A;\nb return B;\n[ ] ;\n")
    wrote = '  no text lexeme LAST\n  text "b"\n'
    fault, told = explained(folder, ["suite", "g.y", "l.l", "--criteria=rule", "--mutate=none"], None, 0, wrote)
    hint = "  LAST has the number 0, the end of the text: `tools/from_bison g.y` takes it out of the rules\n"
    if fault or not told.endswith(hint):
        yield fault or f"an end of the text: {told!r}"


def faults(folder):
    """The line of a manifest that has a fault, with what it lacks; and the end of one that is cut short."""
    written(folder, "g.y", ERROR_RULES)
    written(folder, "l.l", SCANNER)
    for text, number, line in (("conform 1 suite\n", 1, "conform 1 suite"), ("conform 2 suite\n", 2, "")):
        written(folder, "m", text)
        fault, told = explained(folder, ["check", "g.y", "l.l", "m"], None, 6, f"no line {number}: Form\n")
        if fault or told != f"m:{number}: {FAULTS['Form']}\n{line}\n":
            yield fault or f"line {number} of a manifest: {told!r}"
    with open(os.path.join(TOP, "docs", "FORMATS.md")) as file:
        part = file.read().split("## Checked manifests", 1)[1].split("**Form.**", 1)[0]
    if re.findall(r"^\| ([A-Z]\w+) \|", part, re.M)[1:] != [*FAULTS]:
        yield "faults without a sentence, or others"


def lines_of_formats():
    """The error lines that docs/FORMATS.md names, without numbers."""
    with open(os.path.join(TOP, "docs", "FORMATS.md")) as file:
        text = file.read()
    part = text.split("## Statuses and lines", 1)[1].split("## C text", 1)[0]
    yield from re.findall(r"`conform: ((?:yacc: Length|read fault: yacc|usage|write fault|out of memory))", part)
    # those of the commands that read a text or count goals before they are made
    yield from re.findall(r"`conform: ((?:(?:text|manifest): [A-Z]\w+|read fault: (?:text|manifest)|chains: Limit \w+))", part)
    for name in re.findall(r"NAME is (.*?) \|", part)[0].replace(" or ", ", ").split(", "):
        yield f"yacc: {name}"
    for name in re.findall(r"WHICH is one of (.*?) \|", part)[0].split(", "):
        yield f"yacc: Limit {name}"
    lex = text.split("## The lex file", 1)[1].split("## Patterns", 1)[0]
    for name in re.findall(r"^\d+\. `(\w+)(?: at N)?`", lex, re.M):
        yield from [f"lex: {name}"] if name not in ("Pattern", "Limit") else []


def sentences(_):
    wanted = {*lines_of_formats(), *(f"lex: Pattern {name}" for name in PATTERNS), *(f"lex: {name}" for name in LEX)}
    wanted |= {"lex: Length", "lex: States", "lex: Limit Rules", "lex: Limit Positions", "read fault: lex"}
    if wanted != SENTENCES.keys():
        yield f"lines without a sentence: {wanted - SENTENCES.keys()}; sentences without a line: {SENTENCES.keys() - wanted}"


def main():
    failed = []
    on_files = (plain_rows, not_plain_rows, calls, reports, places, lex_places, long_lines, others, good_runs)
    on_files += (slow_runs, missing_texts, ends_of_text, faults)
    for rows in (*on_files, sentences):
        with tempfile.TemporaryDirectory() as folder:
            os.chmod(written(folder, "program", MADE_UP), 0o755)
            failed += rows(folder)
    if not BUILT:
        print("tools_runs: the program isn't built: a made-up one stood in for it", file=sys.stderr)
    if not has_bison():
        print("tools_runs: bison 3.8 isn't there: its reports weren't compared", file=sys.stderr)
    end(failed)


main()
