#!/usr/bin/env python3
"""Runs tools/from_flex: flex_runs.py [PROGRAM]. It prints the rows that fail, and ends with status 1 where one did.

What patterns match was worked by hand from flex's manual; where flex and a C compiler are there, a scanner of flex's is
asked too. Where the program is built, it reads what is written.
"""

import os
import re
import shutil
import subprocess
import sys
import tempfile

sys.dont_write_bytecode = True

from calls import BUILT, PROGRAM, call, marked, tool, written
from rows import end

# Definitions that the patterns below may use.
NAMES = 'LETTER [a-c]\nIF "if"\nLESS <\nMIDDLE a$b\nSPACED (?x: a  b )\n'
# A pattern of flex, what is written for it, and texts that it matches and doesn't match.
PATTERNS = [
    ("[a-e]{-}[ae]", "[b-d]", "bcd", "ae"),
    ("[a-z]{-}[d-y]{+}[0-9]{-}[3-9]", "[0-2a-cz]", "0az", "d39"),
    ("[^a]{-}[^a-c]", "[bc]", "bc", "ad"),
    ("(?i:ab)c", "([Aa][Bb])c", ["abc", "ABc", "aBc"], ["abC", "ab"]),
    ('(?i:"a b")+', '([Aa]" "[Bb])+', ["a b", "A Ba b"], ["ab", "a b "]),
    ('(?i:"ab"{2})', "(([Aa][Bb]){2})", ["abAB"], ["ab", "abb"]),
    ('(?i:"a\\"1\\"b")', '([Aa]"\\"1\\""[Bb])', ['A"1"b'], ['a\\"1"b']),
    ("(?i:[a-c])", "([A-Ca-c])", "aC", "dD"),
    ("(?i:[Z-a])", "([Z-a])", "Z[a", "zA"),
    ("(?i:[^a-y])", "([^A-Ya-y])", "zZ1", "aY"),
    ("(?i:[[:upper:]])", "([A-Za-z])", "aZ", "1"),
    ("(?i:\\x61\\142)", "([Aa][Bb])", ["aB"], ["a", "61"]),
    ("(?i:a(?-i:b)c)", "([Aa](b)[Cc])", ["AbC"], ["aBc"]),
    ("(?i:1+-)", "(1+-)", ["1-", "11-"], ["1"]),
    ("(?s:a.)", "(a[\\x00-\\xff])", ["ab", "a\n"], ["a"]),
    ("(?s:a(?-s:.))", "(a(.))", ["ab"], ["a\n"]),
    ("(?x: a | b\\ c /* d */ | \" \" )", "(a|b\\ c|\" \")", ["a", "b c", " "], ["bc", " a"]),
    ("(?x:[ ]b \\1 2)", "([ ]b\\1\"2\")", [" b\x012"], [" b\n"]),
    ("a(?# b )c", "ac", ["ac"], ["abc"]),
    ("[[:^digit:][:^alpha:]]", "[\\x00-\\xff]", "a1!", []),
    ("[[:^alnum:]]", "[^0-9A-Za-z]", "_!", "a0"),
    ("[[.a]", "[.\\[a]", "[.a", "b]"),
    ("a^b$c", "a\\^b\\$c", ["a^b$c"], ["abc"]),
    ("x|(y$)", "x|(y\\$)", ["x", "y$"], ["y"]),
    ("{LETTER}{LESS}=", "{LETTER}{LESS}=", ["a<="], ["d<="]),
    ("(?i:{LETTER}1{IF})", "(([A-Ca-c])1([Ii][Ff]))", ["C1iF"], ["d1if"]),
    ("{MIDDLE}", "{MIDDLE}", ["a$b"], ["ab"]),
    ("{SPACED}c", "{SPACED}c", ["abc"], ["a bc"]),
    ("\\401", "[\\x01]", "\x01", "!"),
    # what is plain already
    ('"a*"|[]^-]+\\n{2,3}', '"a*"|[]^-]+\\n{2,3}', ["a*", "]-^\n\n"], ["aa", "]\n"]),
    ("[a-c-][^]a]", "[a-c-][^]a]", ["-b", "cc"], ["d]", "ba"]),
    ("([[:alpha:]_]|\\.)*<>", "([[:alpha:]_]|\\.)*<>", ["a._<>", "<>"], ["1<>"]),
]
# What is written for a whole file, behind its first comment, and what is said of it, by lines.
FILES = [
    (
        "%top{\n#include <x>\n}\n%option case-insensitive prefix=\"y y\" noyywrap\n%x STR\n%s INC\nD [0-9a]\nA ^x\n%%\n"
        "  int code;\nif return IF;\n  {D} return D;\n{A} return A;\n",
        "\n\n\n%option noyywrap\n\n\nD [0-9Aa]\n\n%%\n  int code;\n[Ii][Ff] return IF;\n{D} return D;\n\n",
        ["8:1: left out: the anchor ^, in {A}: A ^x", "13:1: left out: the anchor ^, in {A}: {A} return A;"],
    ),
    (
        "%x S\n%%\n<S>{\n  a return A;\n  <INITIAL>b return B;\n  /* c */\n}\n<*>\n{\nd return D;\n}\n"
        "<S,INITIAL>\n  e return E;\n<<EOF>> return END;\n%%\n<S>f\n",
        "\n%%\n\n\nb return B;\n  /* c */\n\n\n\nd return D;\n\n\ne return E;\n\n%%\n<S>f\n",
        ["4:3: left out: the start condition <S>: a return A;", "14:1: left out: the end <<EOF>>: <<EOF>> return END;"],
    ),
    (
        "%%\na |\nb/c |\nd$ {\n  return A;\n}\ne |\n^f return B;\ng |\nh return C;\n",
        "%%\na {\n  return A;\n}\n\n\ne return B;\n\ng |\nh return C;\n",
        [
            "3:1: left out: trailing context: b/c |",
            "4:1: left out: the anchor $: d$ {",
            "8:1: left out: the anchor ^: ^f return B;",
        ],
    ),
    (
        "W [ \\t]+ /* blanks */\r\n%%\r\n{W} ;\r\n \"x\" { yy_push_state(S); }\r\n[a]{-}[a] ;\r\n%%\r\n",
        "W [ \\t]+ /* blanks */\r\n%%\r\n{W} ;\r\n\"x\" /*@token not.a.token*/ { yy_push_state(S); }\r\n\n%%\r\n",
        [
            "4:2: kept, but in no text: a comment can say what its action gives: \"x\" { yy_push_state(S); }",
            "5:1: left out: a class without a byte: [a]{-}[a] ;",
        ],
    ),
    ("%%\n  %{\ncode\n  %}\na ;\n%{\ncode\n%}\n", "%%\n\n\n\na ;\n%{\ncode\n%}\n", []),
    (
        "%option posix-compat\nA a|b\n%%\n{A}c ;\nab{2} ;\na|b*c{2}d{1,3}(ef{2}) ;\n(?i:a) ;\n",
        "\nA a|b\n%%\n{A}c ;\n(ab){2} ;\na|((b*c){2}d){1,3}((ef){2}) ;\n\n",
        ["7:1: left out: (? under an option"],
    ),
    (
        "%option lex-compat\nA a|{B}\nB b\n%%\n{A}c ;\n{A}{2}[{A}]\"{A}\" ;\n(b)(c){2}d* ;\n",
        "\nA a|b\nB b\n%%\na|bc ;\na|b{2}[{A}]\"{A}\" ;\n((b)(c)){2}d* ;\n",
        [],
    ),
    ("%%\na %{\n  if (x) { }\n%}\n  /* c */ code\n", "%%\na %{\n  if (x) { }\n%}\n  /* c */ code\n", []),
    (
        "%%\na %{\n#ifdef X\n  NEXT\n#endif\n%}\n",
        "%%\na /*@token not.a.token*/ %{\n#ifdef X\n  NEXT\n#endif\n%}\n",
        ["2:1: kept, but in no text: a comment can say what its action gives, or name the file that defines NEXT by --header: "],
    ),
    (
        "%x A B\n%%\n<A>{\n<B>b ;\n<INITIAL>{ // x\nc ;\n<B>d ;\n}\n<*>e ;\n}\nf\n",
        "\n%%\n\n\n\nc ;\nd ;\n\ne ;\n\nf\n",
        ["4:4: left out: the start condition <A,B>: b ;"],
    ),
    (
        "C (a\n%%\n{C} ;\na ;\n",
        "\n%%\n\na ;\n",
        ["1:1: left out: what is no pattern, in {C}: C (a", "3:1: left out: what is no pattern, in {C}: {C} ;"],
    ),
    (
        "%%\na[b]{+}[^c] ;\n[^b]{-}[c]{+}[d] ;\n[^b]{+}[c] ;\n",
        "%%\n\n[^bc] ;\n\n",
        ["2:1: left out: {+} beside a class with ^", "4:1: left out: {+} beside a class with ^"],
    ),
    ("A {B}\nB {A}\n%%\n{A} ;\na ;\n", "\n\n%%\n\na ;\n", ["1:1: left out: names that lead too deep", "2:1:", "4:1:"]),
]
# Files with the place where flex wouldn't take them so, and how the message begins.
REFUSED = [
    ("%%\n«\"b ;\n", "no part of a pattern begins so"),
    ("%%\na«) ;\n", "this closes a group that was never opened"),
    ("%%\na «{ b\n", "this is never closed"),
    ("«%{\n", "this block is never closed"),
    ("«%y\n%%\na ;\n", "flex has no such % line"),
    ("A a\n«", "the file ends without %%"),
    ("A a\n«A bcd\n%%\n{A} ;\n", "this name was defined before"),
    ("%%\n<A>\n«", "a pattern is missing here"),
    ("%%\na«(b ;\n", "this group is never closed"),
    ("%%\na ;\n«}\n", "this closes a brace that was never opened"),
    ("%%\n<A>{« b ;\n}\n", "a rule stands behind this brace"),
    ("%%\n[a]b«{-}[a] ;\n", "{-} and {+} stand between two brackets"),
]
# Actions, and what they give: a token A, nothing, or what isn't understood; by "The kind of an action" of docs/FORMATS.md.
ACTIONS = [
    ("return A;", "token"),
    ("{ count(); return ( (A) ); } // return", "token"),
    ("{ return/* x */A ; }", "token"),
    ("{ return check(); /*@token A*/ }", "token"),
    ('{ say("return"); return A; }', "token"),
    ("return B; /* return */", "other"),
    ("return '=';", "other"),
    ("{ yyerror(\"a\"); }", "foreign"),
    ("{ say(stderr, \"error()\"); exit(1); }", "foreign"),
    ("{ lex_error (); /*@skip*/ }", "nothing"),
    ("{ errors++; }", "nothing"),
    ("", "nothing"),
    ("{ BEGIN_LINE = 1; }", "nothing"),
    ("BEGIN(X); /*@skip*/", "nothing"),
    ("{ char c = ';'; }", "nothing"),
    ("{ return check(); }", "foreign"),
    ("{ if (x) return A; return B; }", "foreign"),
    ("return (A;", "foreign"),
    ("return A", "foreign"),
    ("BEGIN(X); return A;", "foreign"),
    ("{ yyless(1); }", "foreign"),
    ("{ yy_push_state(X); return A; }", "foreign"),
    ("return -1;", "foreign"),
    # what returns on some ways alone, and what does on each
    ("{ if (x) return A; }", "foreign"),
    ("{ if (x) { count(); } else return A; }", "foreign"),
    ("{ while (x) return A; }", "foreign"),
    ("{ if (x) break; return A; }", "foreign"),
    ("{ if (x) goto end; return A; end: ; }", "foreign"),
    ("{ do { if (x) break; return A; } while (0); }", "foreign"),
    ("{ switch (x) { case 1: break; default: return A; } }", "foreign"),
    ("{ switch (x) { case 1: return A; } }", "foreign"),
    ("IF(x) return A;", "foreign"),
    ("{ if (x) return A; else return A; }", "token"),
    ("{ switch (x) { case 1: return A; break; default: return A; } }", "token"),
    ("{ while (x) { if (y) break; x++; } return A; break; }", "token"),
    ("{ do { count(); return A; } while (0); }", "token"),
    ("{ for (;;) { return A; } }", "token"),
    # what C, C++ and Bison's C++ parsers tell, as their standards and manual have it
    ("{ return (int) A; }", "token"),
    ("return static_cast<int>(A);", "token"),
    ("return (count(1, 2), A);", "token"),
    ("{ if (x) return A; return ( A ); }", "token"),
    ("return yy::parser::token::A;", "token"),
    ("return yy::parser::make_A (f(yytext), loc);", "token"),
    ("return make_A(yytext);", "foreign"),
    ("return yy::parser::make_A(x) + 1;", "foreign"),
    ("return (char) A;", "foreign"),
    ("return x ? A : B;", "foreign"),
    ("return check(A);", "foreign"),
    ("return 'ab';", "foreign"),
    ("{ c = '\"'; return A; d = '\"'; }", "token"),
    ("return kind = A;", "foreign"),
    ("return kind == A;", "foreign"),
    ("{ return yylval.b += A; }", "foreign"),
]
# A file with macros, what is written of its actions, and what is said; by C's preprocessor.
MACROS = """%{
#define GIVE(x) do { count(x, ""); \
  return (x); } while (0)
#define KIND(x) (note(#x, 1), T_ ## x)
#define AGAIN yyless(0)
#ifdef X
#define TRACE(x) say(x)
#define MAYBE(x) return x
#else
#define TRACE(x)
#define MAYBE(x)
#endif
#define BYTE yytext[0]
/*
#define NOTE return A
*/
%}
  #define INDENTED(x) return x
SLASHES [/*]
%%
"""
WITH_MACROS = [
    ("GIVE(A);", "/*@token A*/ GIVE(A);", ""),
    ("{ GIVE (',') }", "/*@token ','*/ { GIVE (',') }", ""),
    ("return KIND(B);", "/*@token T_B*/ return KIND(B);", ""),
    ("AGAIN;", "/*@token not.a.token*/ AGAIN;", "kept, but in no text: a comment can say what its action gives: "),
    ('TRACE("return");', 'TRACE("return");', "read as giving no token, though what they call isn't in sight: say, line 20: "),
    ("MAYBE(A);", "/*@token not.a.token*/ MAYBE(A);", "kept, but in no text: a comment can say what its action gives: "),
    ("{ if (x) GIVE(A); GIVE(B); }", "/*@token not.a.token*/ { if (x) GIVE(A); GIVE(B); }", "kept, but in no text: a comment "
     "can say what its action gives, as /*@token B*/: "),
    ("GIVE", "GIVE", ""),
    ("NOTE;", "/*@token not.a.token*/ NOTE;", "kept, but in no text: "),
    ("INDENTED(A);", "/*@token A*/ INDENTED(A);", ""),
    ("return BYTE;", "return yytext[0];", ""),
    ("GIVE(BYTE);", "/*@token not.a.token*/ GIVE(BYTE);", "kept, but in no text: "),
    # Casts of a byte give way to blanks.
    ("{ return((int)yytext[0]); }", "{ return(     yytext[0]); }", ""),
    ("{ return yylval.i = *yytext; }", "{ return yytext[0]         ; }", ""),
    ("/* return */ return b = *yytext;", "/* return */ return yytext[0]  ;", ""),
    ("return b /* it */ = *yytext;", "return b /* it */ = *yytext;", "kept, but in no text: "),
    ("{ return yylval.i = '+'; }", "/*@token '+'*/ { return yylval.i = '+'; }", ""),
    ("{ return yylval.i = '='; }", "/*@token '='*/ { return yylval.i = '='; }", ""),
    ("return (int) (unsigned char) *yytext;", "return                       *yytext;", ""),
]
# A file with some of the names that the actions below use, and a header with others; yacc wrote the number.
SEEN = """%{
void seen(int);
static int one(void), two(void);
%}
%%
%{
#define LOCAL return A
%}
"""
BEHIND = "%%\nin_user(x) { RETURN(A); }\n"
HEADER = """#define A 258
#define RETURN_TOKEN(x) do { note(#x, \\
  1); return (x); } while (0)
#define give(x) return x;
#define STOP return A;
#define STEP
#define KEYWORD(x) return known(x)
#define FOREIGN(x) RETURN_ELSEWHERE(x)
void count(void);
"""
# Actions, what is said of them without the header: the names that they call, or a part of what is advised where they aren't
# understood; and the token of their mark with it. By C: a macro that hides a `return` stands where a statement begins.
WITH_HEADER = [
    ("{ RETURN_TOKEN(A); }", "as /*@token A*/, or name the file that defines RETURN_TOKEN by --header: ", "A"),
    ("{ count(); give(A) }", "as /*@token A*/, or name the file that defines give by --header: ", "A"),
    ("STOP;", "gives, or name the file that defines STOP by --header: ", "A"),
    ("{ switch (x) { case B: STOP } }", "defines STOP by", "not.a.token"),
    ("{ if (x) { y++; } else STOP }", "defines STOP by", "not.a.token"),
    ("{ if (x) { y++; } STOP }", "defines STOP by", "A"),
    ("{ for (;;) label: RETURN_TOKEN(yy::A); }", "as /*@token A*/, or name the file that defines RETURN_TOKEN", "A"),
    ("{ KEYWORD(A); }", "as /*@token A*/, or name the file that defines KEYWORD", "not.a.token"),
    ("FOREIGN(A);", "as /*@token A*/, or name the file that defines FOREIGN", "not.a.token"),
    ("{ STEP give(A) }", "defines give by", "A"),
    ("{ STEP STOP }", "defines STOP by", "A"),
    ("{ RETURN A; }", "gives, or name the file that defines RETURN by", "not.a.token"),
    ("{ emit(x); }", "gives, or name the file that defines emit by", "not.a.token"),
    ("{ tok(); }", "defines tok by", "not.a.token"),
    ("{ kept; }", "defines kept by", "not.a.token"),
    ("{ return_if(x); return A; }", "as /*@token A*/, or name the file that defines return_if by", "not.a.token"),
    ("{ RETURN_IF(x); return yytext[0]; }", "gives, or name the file that defines RETURN_IF by", "not.a.token"),
    ("{ KNOWN(x); return A; }", [], None),
    ("LOCAL;", [], "A"),
    # A call of a function, or what tells a place.
    ("{ count(); }", ["count"], None),
    ("{ if (x) update(1); }", ["update"], None),
    ("{ do update(NULL, x); while (y); }", ["update"], None),
    ("{ STEP; }", ["STEP"], None),
    ('LOCATION_STEP (); LEXTRACE("RETURN(A)"); continue;', ["LOCATION_STEP", "LEXTRACE"], None),
    # What hides nothing.
    ("{ seen(A); one(); two(); in_user(); }", [], None),
    ("{ ECHO; printf(\"RETURN(A)\"); yyset_lineno(1); }", [], None),
    ("{ BUFFER(x) = *yytext; x = (char) CODE(yytext[1]); (void) GET(x); }", [], None),
    ("{ lexer.emit(A); lexer->RETURN(A); yy::update(A); std::string s(yytext); }", [], None),
    ("{ VALUE v; FILE *file; int N; x ? PLUS(1) : MINUS(2); /* RETURN(A) */ }", [], None),
    ("{ RETURN(A); /*@skip*/ }", [], None),
]
# A file of several start conditions; for each of some of them what is written behind the first %%, and what is said.
CONDITIONS = """%s MORE
%xtra TEXT  OTHER
%%
a return A;
<TEXT>b return B;
<TEXT,MORE>c return C;
<*>d return D;
<INITIAL>e return E;
"""
OF_CONDITIONS = [
    ("INITIAL", "a return A;\n\n\nd return D;\ne return E;\n", ["5:7: ", "6:12: "]),
    ("MORE", "a return A;\n\nc return C;\nd return D;\n\n", ["5:7: ", "8:10: left out: the start condition <INITIAL>: e return E;"]),
    ("TEXT", "\nb return B;\nc return C;\nd return D;\n\n", ["4:1: left out: the start condition <INITIAL>: a return A;", "8:10: "]),
    ("OTHER", "\n\n\nd return D;\n\n", ["4:1: ", "5:7: ", "6:12: ", "8:10: "]),
]
KEPT = "kept, but in no text: a comment can say what its action gives"
# A file whose functions change what is scanned, but for one, and the lines that are told.
FUNCTIONS = """%{
static int peek(void) { return input(); }
%}
%%
"/*" { comment(); }
a { count(); return A; }
b { ahead(1); return B; }
c peek();
[ ]+ count();
%%
int comment() { int c; while ((c = ahead((1))) != '*') ; return '}'; }
int ahead(int (x)) { if (x) { return peek(); } }
void count(void) { FILE *input; say("input()"); }
"""
OF_FUNCTIONS = ["5:1: kept", "7:1: kept", "8:1: kept"]
# A grammar, a scanner's rules, what is written of these, and what is said.
WITH_GRAMMAR = [
    (
        "%define api.token.prefix {T_}\n%token A B \"b\" C\n%%\ns : A \"b\" | error C ;\n",
        "a return T_A;\nb return yy::parser::make_B(loc);\nc return token::T_C;\n",
        "a /*@token A*/ return T_A;\nb /*@token B*/ return yy::parser::make_B(loc);\nc /*@token C*/ return token::T_C;\n",
        "from_flex: l.l: no sentence has these tokens, so what gives them is in no text: C, line 4\n",
    ),
    # What returns may be a macro that is defined elsewhere: a token is named, and that tells.
    (
        "%define api.token.prefix {T_}\n%token A B C\n%%\ns : A B C ;\n",
        "a GIVE(T_A);\nb return debug(T_B);\nc { BEGIN(X); return T_C; }\nd GIVE(T_D);\ne /*@skip*/ T_A;\n",
        "a /*@token not.a.token*/ GIVE(T_A);\nb return debug(T_B);\nc { BEGIN(X); return T_C; }\n"
        "d /*@token not.a.token*/ GIVE(T_D);\ne /*@skip*/ T_A;\n",
        f"from_flex: l.l:2:1: {KEPT}, as /*@token A*/, or name the file that defines GIVE by --header: a GIVE(T_A);\n"
        f"from_flex: l.l:3:1: {KEPT}, as /*@token B*/: b return debug(T_B);\n"
        f"from_flex: l.l:4:1: {KEPT}, as /*@token C*/: c {{ BEGIN(X); return T_C; }}\n"
        f"from_flex: l.l:5:1: {KEPT}, or name the file that defines GIVE by --header: d GIVE(T_D);\n"
        "from_flex: l.l: no rule gives these tokens, so sentences with them have no text: A, B, C\n",
    ),
    (
        "%token A\n%%\ns : A '+' ;\n",
        "a { if (x) return A; return BAD; }\n[+] return f(yytext[0]);\n",
        "a { if (x) return A; return BAD; }\n[+] return f(yytext[0]);\n",
        f"from_flex: l.l:2:1: {KEPT}, as /*@token A*/: a {{ if (x) return A; return BAD; }}\n"
        f"from_flex: l.l:3:1: {KEPT}, or write `return yytext[0];` where it gives its own byte: [+] return f(yytext[0]);\n"
        "from_flex: l.l: no rule gives these tokens, so sentences with them have no text: A\n",
    ),
    (
        "%token A B\n%%\ns : A B ;\n",
        "a { if (x) GIVE(A); else GIVE(B); }\n[+] { emit(x); }\n[ ] { count(); }\n",
        "a /*@token not.a.token*/ { if (x) GIVE(A); else GIVE(B); }\n[+] /*@token not.a.token*/ { emit(x); }\n[ ] { count(); }\n",
        f"from_flex: l.l:2:1: {KEPT}, as /*@token B*/, or name the file that defines GIVE by --header: a {{ if (x) GIVE(A); "
        "else GIVE(B); }\n"
        f"from_flex: l.l:3:1: {KEPT}, or name the file that defines emit by --header: [+] {{ emit(x); }}\n"
        "from_flex: l.l: read as giving no token, though what they call isn't in sight: count, line 4: where one of these is a "
        "macro that returns a token, name the file that defines it by --header\n"
        "from_flex: l.l: no rule gives these tokens, so sentences with them have no text: A, B\n",
    ),
    # Rules that were left out may give them.
    (
        "%token A B C D LAST\n%%\ns : A B C D LAST ;\n",
        "a return A;\n<S,T>b BEGIN(INITIAL); return B;\n<S,T>c return C;\n<S,T>a return A;\n^d return D;\n<<EOF>> return LAST;\n",
        "a return A;\n\n\n\n\n\n",
        "from_flex: l.l:3:6: left out: the start condition <S,T>: b BEGIN(INITIAL); return B;\n"
        "from_flex: l.l:4:6: left out: the start condition <S,T>: c return C;\n"
        "from_flex: l.l:5:6: left out: the start condition <S,T>: a return A;\n"
        "from_flex: l.l:6:1: left out: the anchor ^: ^d return D;\n"
        "from_flex: l.l:7:1: left out: the end <<EOF>>: <<EOF>> return LAST;\n"
        "from_flex: l.l: no rule gives these tokens, so sentences with them have no text: B, C, D, LAST\n"
        "from_flex: l.l: left out for the start condition <S,T>: B, C: write a rule for the whole text, or write the rules of "
        "this condition by --condition S\n"
        "from_flex: l.l: left out for the anchor ^: D: write a rule for the whole text\n"
        "from_flex: l.l: left out for the end <<EOF>>: LAST: take it out of the grammar's rules, since a sentence ends where "
        "its text does\n",
    ),
    (
        "%token A B C D\n%%\ns : A B C D '+' ;\n",
        "a return A;\nb check(); /*@token B*/\nc ;\n",
        "a return A;\nb check(); /*@token B*/\nc ;\n",
        "from_flex: l.l: no rule gives these tokens, so sentences with them have no text: C, D\n",
    ),
    # What throws gives nothing, and is no skip.
    (
        "%token A\n%%\ns : A ;\n",
        "a { if (x) return A; throw f(); }\nb { throw f(); }\nc { if (x) throw f(); }\nd { fail(x); }\ne { log(x); }\n"
        "f { try { x = 1; } catch (...) { x = 2; } }\n%%\n"
        "void fail(int x) { log(x); throw x; }\nvoid log(int x) { if (x < 0) throw x; }\n",
        "a { if (x) return A; throw f(); }\nb /*@token not.a.token*/ { throw f(); }\n"
        "c /*@token not.a.token*/ { if (x) throw f(); }\nd /*@token not.a.token*/ { fail(x); }\ne { log(x); }\n"
        "f { try { x = 1; } catch (...) { x = 2; } }\n%%\n"
        "void fail(int x) { log(x); throw x; }\nvoid log(int x) { if (x < 0) throw x; }\n",
        f"from_flex: l.l:3:1: {KEPT}: b {{ throw f(); }}\n"
        f"from_flex: l.l:4:1: {KEPT}: c {{ if (x) throw f(); }}\n"
        f"from_flex: l.l:5:1: {KEPT}: d {{ fail(x); }}\n",
    ),
    # Rules may give what the grammar doesn't use: by a mistake, or as a refusal.
    (
        "%define api.token.prefix {T_}\n%token A B\n%%\ns : A ;\n",
        "a return T_A;\nb return T_B;\nc return other;\nd return T_B;\ne return '-';\nf return T_YYUNDEF;\n"
        "g /*@token not.a.token*/ return T_G;\n[+] return yytext[0];\n[ ] ;\n",
        "a /*@token A*/ return T_A;\nb /*@token B*/ return T_B;\nc return other;\nd /*@token B*/ return T_B;\n"
        "e return '-';\nf /*@token YYUNDEF*/ return T_YYUNDEF;\ng /*@token not.a.token*/ return T_G;\n[+] return yytext[0];\n[ ] ;\n",
        "from_flex: l.l: no sentence has these tokens, so what gives them is in no text: B, lines 3, 5; other, line 4\n",
    ),
]

# A grammar of Bison's C++ parsers, and the code of a scanner, as that of the example calc++ in Bison's manual has it.
SYMBOLS_GRAMMAR = """%skeleton "lalr1.cc"
%define api.token.constructor
%define api.value.type variant
%define api.token.prefix {TOK_}
%token END 0 NUMBER PLUS "+" ':' UNUSED
%%
s : NUMBER "+" NUMBER ':' END ;
"""
SYMBOLS_CODE = """%{
yy::parser::symbol_type make_NUMBER (const std::string &s, const yy::parser::location_type& loc);
typedef yy::parser Calc;
using Same = Calc;
using Other = yy::helper;
#define OWN(x) yy::parser::make_ ## x (loc)
#define make_END(x) make_END (x, 0)
%}
"""
# Actions, and the token that they give, or None and what the line proposes; by "Complete Symbols" of Bison's manual: a `make_`
# has the name without the prefix, `symbol_type` the token with it. By C++ these are members of the parser class alone.
SYMBOLS = [
    ("return yy::parser::make_NUMBER (strtol (yytext, 0, 10), loc);", "NUMBER"),
    ("return yy::parser::make_PLUS(loc);", "PLUS"),
    ("return ::yy :: parser::make_PLUS ();", "PLUS"),
    ("return parser::make_PLUS (loc);", "PLUS"),
    ("return Calc::make_PLUS (loc);", "PLUS"),
    ("return Same::make_PLUS (loc);", "PLUS"),
    ("return OWN (PLUS);", "PLUS"),
    ("{ if (x) throw yy::parser::syntax_error (loc, std::string(yytext)); return yy::parser::make_NUMBER (n, loc); }", "NUMBER"),
    ("{ if (x) return yy::parser::make_PLUS (loc); return yy::parser::symbol_type (token::TOK_PLUS, loc); }", "PLUS"),
    ("return yy::parser::symbol_type (yy::parser::token::TOK_PLUS, loc);", "PLUS"),
    ("return yy::parser::symbol_type (yy::parser::token::TOK_NUMBER, f(1, 2), loc);", "NUMBER"),
    ("return yy::parser::symbol_type ((int) TOK_NUMBER, 1, loc);", "NUMBER"),
    ("return Calc::symbol_type (token::yytokentype::TOK_PLUS);", "PLUS"),
    ("return yy::parser::symbol_type (':', loc);", "':'"),
    # Without the class it may be any function, as that of calc++.
    ("return make_NUMBER (yytext, loc);", None, "NUMBER"),
    ("return make_PLUS (loc);", None, "PLUS"),
    ("return helper::make_PLUS (loc);", None, "PLUS"),
    ("return Other::make_PLUS (loc);", None, "PLUS"),
    ("return yy::make_PLUS (loc);", None, "PLUS"),
    ("return yy::parser::helper::make_PLUS (loc);", None, "PLUS"),
    ("return driver.make_PLUS (loc);", None, "PLUS"),
    ("return symbol_type (token::TOK_PLUS, loc);", None, "PLUS"),
    # Names with the prefix where there is none, without it where there is one, and what has other numbers.
    ("return yy::parser::make_TOK_PLUS (loc);", None, "PLUS"),
    ("return yy::parser::symbol_type (token::PLUS, loc);", None, None),
    ("return yy::parser::symbol_type (yy::parser::symbol_kind::S_PLUS, loc);", None, None),
    ("return yy::parser::symbol_type (yy::parser::symbol_kind::TOK_PLUS, loc);", None, "PLUS"),
    ("return yy::parser::symbol_type (lookup (yytext), loc);", None, None),
    ("return yy::parser::symbol_type (x ? token::TOK_PLUS : token::TOK_NUMBER, loc);", None, "NUMBER"),
    ("return yy::parser::symbol_type ((char) TOK_PLUS, loc);", None, "PLUS"),
    ("return yy::parser::symbol_type ();", None, None),
    # Macros of that name, and what isn't returned, or on some ways alone.
    ("return yy::parser::make_END (loc);", None, None),
    ("return f (yy::parser::make_PLUS (loc));", None, "PLUS"),
    ("return x ? yy::parser::make_PLUS (loc) : yy::parser::make_PLUS (loc);", None, "PLUS"),
    ("{ if (x) return yy::parser::make_PLUS (loc); }", None, "PLUS"),
    ("{ if (x) return yy::parser::make_NUMBER (1, loc); return yy::parser::make_PLUS (loc); }", None, "PLUS"),
    ("{ yyless (1); return yy::parser::make_PLUS (loc); }", None, "PLUS"),
    ("{ queue (yy::parser::make_PLUS (loc)); }", None, "PLUS"),
]
# Without the grammar: those that are read without its class, and what is advised of the others.
NO_GRAMMAR = ", or name the grammar too, which has the names of Bison's tokens: "
WITHOUT_GRAMMAR = [
    ("return yy::parser::make_PLUS (loc);", "PLUS", ""),
    ("return make_NUMBER (yytext, loc);", None, NO_GRAMMAR),
    ("return yy::parser::symbol_type (token::TOK_PLUS, loc);", None, NO_GRAMMAR),
    ("return make_pair (a, b);", None, "gives: "),
    ("{ if (x) return yy::parser::make_PLUS (loc); }", None, ", as /*@token PLUS*/: "),
    ("return yy::parser::symbol_type (*yytext, loc);", None, ", or write `return yytext[0];` where it gives its own byte: "),
]
# What a grammar calls its class, code of the scanner, and whether the action's class is that.
CLASSES = [
    ("%define api.parser.class {Calc}\n", "", "calc::Calc", True),
    ("%define api.parser.class {Calc}\n", "", "yy::parser", False),
    ('%define parser_class_name "Calc"\n', "", "yy::Calc", True),
    ("%define parser_class_name Calc\n", "", "yy::Calc", True),
    ("%define api.parser.class {Calc}\n", "using parser = calc::Calc;", "parser", True),
    ("", "using parser = calc::Calc;", "parser", False),
    ("", "namespace parser { int f(); }", "parser", False),
    ("", "// typedef yy::parser P;", "P", False),
    ("", "#define P yy::parser", "P", True),
    ("", "class Calc : yy::parser { };", "Calc", False),
]

FOLLOWED_GRAMMAR = "%define api.token.prefix {T_}\n%token A B NAME\n%%\ns : A B NAME ;\n"
# An action, code of the scanner, the token that is read with the grammar and else None, and the token that the line proposes.
FOLLOWED = [
    ("return f();", "int f() { count(); return T_A; }", "A"),
    ("return f(x);", "int f(int x) { if (x) { return (T_A); } else return T_A; }", "A"),
    ("return f();", "static int f(void)\n{\n#ifdef X\n  return T_A;\n#else\n  return T_A;\n#endif\n}", "A"),
    ("return f();", "int g() { return '{'; }\nint f() { return T_A; }", "A"),
    ("return make_NAME(yytext);", "P make_NAME(char *s) { if (!s) throw s; return yy::parser::make_NAME(s); }", "NAME"),
    ("return f(x);", "int f(int x) { if (x) return T_A; return T_B; }", None, "B"),
    ("return f(x);", "int f(int x) { if (x) return T_A; }", None, "A"),
    ("return f(x);", "int f(int x) { return T_A; }\nint f(char *x) { return T_B; }", None, "B"),
    ("return f();", "int f() { BEGIN(X); return T_A; }", None, "A"),
    ("return f(T_A);", "int f(int t) { return t; }", None, "A"),
    ("{ int T_A = f(); return T_A; }", "", None, "A"),
    ("return f();", "int f() { int T_A = g(); return T_A; }", None),
    ("return f(x);", "int f(int T_A) { return T_A; }", None),
    ("return f();", "int f() { return T_C; }", None),
    ("return f();", "int f() { return g(); }\nint g() { return T_A; }", None),
    ("return f();", "struct S { int f() { return T_A; } };", None),
    ("return f();", "int S::f() { return T_A; }", None),
    ("return x ? f() : f();", "int f() { return T_A; }", None),
    ("return f();", "int f();", None),
]
# The same without a grammar: the action, the code, and the token that the line proposes.
FOLLOWED_ALONE = [
    ("return f();", "int f() { return A; }", "A"),
    ("return f(x);", "int f(int x) { if (x) return TYPE; return NAME; }", "NAME"),
    ("return f();", "int f() { return result; }", None),
]


def rule_lines(folder, text):
    """What from_flex writes of a file, without its first comment."""
    written(folder, "l.l", text)
    status, out, said = tool(folder, "from_flex", "l.l")
    return status, out.partition(" */\n")[2], said.replace("from_flex: l.l:", "").splitlines()


def pattern_rows(folder):
    rules = "".join(f"{pattern} return A;\n" for pattern, *_ in PATTERNS)
    status, out, said = rule_lines(folder, f"{NAMES}%%\n{rules}")
    found = out.partition("%%\n")[2].splitlines()
    if status or said or len(found) != len(PATTERNS):
        yield f"the patterns: status {status}, {said}"
    for line, (pattern, wanted, *_) in zip(found, PATTERNS):
        if line != f"{wanted} return A;":
            yield f"{pattern}: {line}, not {wanted}"


PIECE = re.compile(r'\[\^?\]?(?:\[:\w+:\]|\\.|[^\]\\])*\]|\\([0-7]+|.)|"((?:\\.|[^"\\])*)"|\{([A-Za-z]\w*)\}', re.S)
WRITTEN_NAMES = {"LETTER": "[a-c]", "IF": "if", "LESS": "<", "MIDDLE": "a\\$b", "SPACED": "(ab)"}


def as_python(pattern):
    """A pattern of the profile as Python's regular expressions have it."""

    def piece(found):
        if found[1]:
            return "\\x%02x" % int(found[1], 8) if found[1].isdigit() else found[0]
        if found[2] is not None:
            return "(?:%s)" % re.escape(found[2].replace('\\"', '"'))
        return f"(?:{WRITTEN_NAMES[found[3]]})" if found[3] else found[0].replace("[:alpha:]", "A-Za-z")

    return re.compile(PIECE.sub(piece, pattern))


def match_rows(_):
    for pattern, plain, *texts in PATTERNS:
        for is_match, listed in zip((True, False), texts):
            wrong = [text for text in listed if bool(as_python(plain).fullmatch(text)) != is_match]
            if wrong:
                yield f"{plain} for {pattern}: {wrong} {'not matched' if is_match else 'matched'}"


MAIN = """%%
int main(int count, char **words) {
  char text[99]; size_t length = fread(text, 1, sizeof text, stdin);
  yy_scan_bytes(text, length); BEGIN(atoi(words[1])); return yylex() && yyleng == length ? 0 : 1;
}
"""


def flex_scanner(folder):
    """A scanner of flex's with a start condition for each of the patterns; none where flex or a C compiler isn't there."""
    if not (shutil.which("flex") and shutil.which("cc")):
        return None
    conditions = [f"P{number}" for number in range(1, len(PATTERNS) + 1)]
    pairs = zip(conditions, PATTERNS)
    rules = "".join(f"<{name}>{pattern} return 1;\n<{name}>(?s:.) return 0;\n" for name, (pattern, *_) in pairs)
    written(folder, "s.l", f"%option noyywrap 8bit\n%x {' '.join(conditions)}\n{NAMES}%%\n{rules}{MAIN}")
    for command in (["flex", "-o", "s.c", "s.l"], ["cc", "-w", "-o", "s", "s.c"]):
        subprocess.run(command, cwd=folder, check=True, stderr=subprocess.DEVNULL)
    return os.path.join(folder, "s")


def flex_rows(folder):
    scanner = flex_scanner(folder)
    if not scanner:
        print("flex_runs: flex or a C compiler isn't there: its scanner wasn't asked", file=sys.stderr)
    for number, (pattern, _, *texts) in enumerate(PATTERNS if scanner else [], 1):
        rows = [(text, is_match) for is_match, listed in zip((True, False), texts) for text in listed]
        asked = [subprocess.run([scanner, str(number)], input=text.encode("latin-1")).returncode == 0 for text, _ in rows]
        if asked != [is_match for _, is_match in rows]:
            yield f"flex's scanner of {pattern}: {[*zip(rows, asked)]}"


def file_rows(folder):
    for text, wanted, told in FILES:
        status, out, said = rule_lines(folder, text)
        if (status, out) != (0, wanted) or len(said) != len(told) or not all(map(str.startswith, said, told)):
            yield f"{text!r}: {status}, {out!r}, {said}"
    for text, wanted in REFUSED:
        raw, _, (line, column) = marked(text)
        status, out, said = rule_lines(folder, raw)
        if (status, out) != (1, "") or not said[0].startswith(f"{line}:{column}: {wanted}"):
            yield f"{text!r}: {status}, {said}, not {line}:{column}: {wanted}"


def action_rows(folder):
    """Actions that aren't understood are told; where the program is built, the others give their token a lexeme there."""
    written(folder, "g.y", "%token A\n%%\ns : A ;\n")
    for action, gives in ACTIONS:
        status, out, said = rule_lines(folder, f"%%\na {action}\n")
        if status or bool(said) != (gives == "foreign"):
            yield f"{action}: {status}, {said}"
        written(folder, "plain.l", out)
        words = [PROGRAM, "suite", "g.y", "plain.l", "--criteria=rule", "--mutate=none"]
        lexeme = 'lexeme A "a"' if gives == "token" else "lexeme A none"
        if BUILT and lexeme not in call(words, folder)[1].decode().splitlines():
            yield f"{action}: the program has another lexeme than {lexeme}"


def macro_rows(folder):
    for action, wanted, told in WITH_MACROS:
        status, out, said = rule_lines(folder, f"{MACROS}a {action}\n")
        found = out.rpartition("%%\na ")[2]
        if (status, found) != (0, wanted + "\n") or len(said) != bool(told) or told not in "".join(said):
            yield f"{action}: {status}, {found!r}, {said}"


def said_of(said, line):
    """What is said of a rule: that it isn't understood, or the names of what it calls."""
    kept = [told for told in said if told.startswith(f"{line}:1: {KEPT}")]
    note = next((told for told in said if told.startswith(" read as giving no token")), "")
    called = re.findall(r"(\w+), lines? ([\d, ]+)", note)
    return kept[0] if kept else [name for name, lines in called if str(line) in lines.split(", ")]


def header_rows(folder):
    """What isn't in sight is told, or isn't understood; a header brings it in sight."""
    written(folder, "l.h", HEADER)
    text = SEEN + "".join(f"a {action}\n" for action, *_ in WITH_HEADER) + BEHIND
    status, out, said = rule_lines(folder, text)
    for line, (action, told, _) in enumerate(WITH_HEADER, SEEN.count("\n") + 1):
        found, rule, is_read = said_of(said, line), out.splitlines()[line - 1], isinstance(told, list)
        is_right = found == told if is_read else told in found
        if status or not is_right or rule.startswith("a /*@token not.a.token*/") == is_read:
            yield f"{action}: {status}, {rule!r}, {found!r}"
    status, out, said = tool(folder, "from_flex", "--header", "l.h", "l.l")
    for action, _, token in WITH_HEADER:
        mark = f"/*@token {token}*/ " if token else ""
        if f"\na {mark}{action}\n" not in out:
            yield f"{action} with the header: {status}, not {token}: {out!r}"
    status, out, said = tool(folder, "from_flex", "-i", "--header", "l.h", "--header", "no.h", "l.l")
    if (status, out, said) != (3, "", "from_flex: no.h: No such file or directory\n"):
        yield f"a header that isn't there: {status}, {out!r}, {said}"


def function_rows(folder):
    """A call of a function of the file that reads on is as such a call itself."""
    status, _, said = rule_lines(folder, FUNCTIONS)
    if status or len(said) != len(OF_FUNCTIONS) or not all(map(str.startswith, said, OF_FUNCTIONS)):
        yield f"functions: {status}, {said}"


def grammar_rows(folder):
    """A grammar beside the scanner tells how its tokens are named there, and which of them no rule gives."""
    for grammar, rules, wanted, told in WITH_GRAMMAR:
        written(folder, "g.y", grammar)
        written(folder, "l.l", f"%%\n{rules}")
        status, out, said = tool(folder, "from_flex", "l.l", "g.y")
        if (status, out.partition("%%\n")[2], said) != (0, wanted, told):
            yield f"{grammar!r}: {status}, {out!r}, {said!r}"
    written(folder, "g.y", "%%\ns : ? ;\n")
    status, out, said = tool(folder, "from_flex", "l.l", "g.y")
    if (status, out) != (1, "") or not said.startswith("from_flex: g.y:2:5: "):
        yield f"a refused grammar: {status}, {out!r}, {said!r}"


def marked_so(action, token):
    return f"a /*@token {token}*/ {action}" if token else f"a {action}"


def symbol_rows(folder):
    """Symbols of Bison's C++ parsers are read where a grammar has their tokens; for others the line proposes one."""
    written(folder, "g.y", SYMBOLS_GRAMMAR)
    written(folder, "l.l", SYMBOLS_CODE + "%%\n" + "".join(f"a {action}\n" for action, *_ in SYMBOLS))
    status, out, said = tool(folder, "from_flex", "l.l", "g.y")
    lines, first = out.partition("%%\n")[2].splitlines(), SYMBOLS_CODE.count("\n") + 2
    for line, (found, (action, token, *proposed)) in enumerate(zip(lines, SYMBOLS), first):
        told = [text for text in said.splitlines() if text.startswith(f"from_flex: l.l:{line}:1: ")]
        advice = f", as /*@token {proposed[0]}*/" if any(proposed) else ""
        wanted = [] if token else [f"from_flex: l.l:{line}:1: {KEPT}{advice}: a {action}"]
        is_foreign = found in (marked_so(action, None), marked_so(action, "not.a.token"))
        if status or told != wanted or not (found == marked_so(action, token) if token else is_foreign):
            yield f"{action}: {status}, {found!r}, {told}"
    if len(lines) != len(SYMBOLS):
        yield f"symbols: {status}, {len(lines)} lines, {said}"


def plain_symbol_rows(folder):
    """What is said of such symbols without a grammar; and a symbol of the match's own byte."""
    for action, token, told in WITHOUT_GRAMMAR:
        status, out, said = rule_lines(folder, f"%%\na {action}\n")
        is_said = said == [] if token else len(said) == 1 and f"{told}a {action}" in said[0]
        if status or out != f"%%\n{marked_so(action, token)}\n" or not is_said:
            yield f"{action} without a grammar: {status}, {out!r}, {said}"
    written(folder, "g.y", SYMBOLS_GRAMMAR)
    written(folder, "l.l", "%%\n[:] return yy::parser::symbol_type (yytext[0], loc);\n")
    status, out, _ = tool(folder, "from_flex", "l.l", "g.y")
    if status or not re.fullmatch(r"\[:\] return yytext\[0\] *;\n", out.partition("%%\n")[2]):
        yield f"a symbol of a byte: {status}, {out!r}"


def class_rows(folder):
    """The class that a grammar names, and what the code calls it."""
    for declared, code, name, is_read in CLASSES:
        action = f"return {name}::make_A (loc);"
        written(folder, "g.y", f"{declared}%token A\n%%\ns : A ;\n")
        written(folder, "l.h", code)
        for words, text in ((["l.l"], f"%{{\n{code}\n%}}\n"), (["--header", "l.h", "l.l"], "")):
            written(folder, "l.l", f"{text}%%\na {action}\n")
            status, out, said = tool(folder, "from_flex", *words, "g.y")
            if status or out.partition("%%\n")[2] != marked_so(action, is_read and "A") + "\n":
                yield f"{declared!r}, {code!r}, {words}: {status}, {out!r}, {said}"


def followed_rows(folder):
    """A function of the file that returns one token of the grammar, and nothing else, gives that."""
    written(folder, "g.y", FOLLOWED_GRAMMAR)
    for files, (action, code, token, *proposed) in [
        *((("l.l", "g.y"), row) for row in FOLLOWED),
        *((("l.l",), (action, code, None, proposed)) for action, code, proposed in FOLLOWED_ALONE),
    ]:
        written(folder, "l.l", f"%%\na {action}\n%%\n{code}\n")
        status, out, said = tool(folder, "from_flex", *files)
        found, told = out.partition("%%\n")[2].partition("\n%%\n")[0], said.partition("\n")[0]
        advice = f", as /*@token {proposed[0]}*/" if any(proposed) else ""
        is_told = told == f"from_flex: l.l:2:1: {KEPT}{advice}: a {action}"
        if status or (found != marked_so(action, token) if token else not is_told):
            yield f"{action} with {code}: {status}, {found!r}, {said!r}"


def condition_rows(folder):
    """The rules of a start condition, which are those without any too where it is inclusive."""
    written(folder, "l.l", CONDITIONS)
    for name, wanted, told in OF_CONDITIONS:
        status, out, said = tool(folder, "from_flex", "--condition", name, "l.l")
        lines = said.replace("from_flex: l.l:", "").splitlines()
        if (status, out.partition("%%\n")[2]) != (0, wanted) or not all(map(str.startswith, lines, told)) or len(lines) != len(told):
            yield f"--condition {name}: {status}, {out!r}, {said}"
    status, out, said = tool(folder, "from_flex", "-i", "--condition", "NONE", "l.l")
    if (status, out) != (1, "") or not said.startswith("from_flex: l.l:3:1: no %x or %s line above declares"):
        yield f"a start condition that isn't declared: {status}, {out!r}, {said}"


def bad_calls(folder):
    written(folder, "l.l", "%%\na ;\n")
    for words, wanted in (([], 2), (["-i"], 2), (["--condition", "S"], 2), (["a", "b", "c"], 2), (["no.l"], 3), (["l.l", "no.y"], 3)):
        status, out, said = tool(folder, "from_flex", *words)
        if (status, out) != (wanted, "") or not said.startswith("from_flex: "):
            yield f"from_flex {words}: {status}, {said}"
    status, out, _ = tool(folder, "from_flex", "-i", "l.l")
    if status or not out.endswith("%%\n[Aa] ;\n"):
        yield f"from_flex -i: {status}, {out}"
    for name in ("from_flex", "from_bison", "start_lex"):
        for word in ("--help", "-h"):
            status, out, said = tool(folder, name, word)
            if (status, said) != (0, "") or not out.startswith(f"{name} "):
                yield f"{name} {word}: {status}, {out!r}, {said!r}"


def main():
    failed = []
    of_files = (file_rows, action_rows, macro_rows, header_rows, function_rows, grammar_rows)
    of_symbols = (symbol_rows, plain_symbol_rows, class_rows, followed_rows)
    for rows in (pattern_rows, match_rows, flex_rows, *of_files, *of_symbols, condition_rows, bad_calls):
        with tempfile.TemporaryDirectory() as folder:
            failed += rows(folder)
    if not BUILT:
        print("flex_runs: the program isn't built: it read nothing of what was written", file=sys.stderr)
    end(failed)


main()
