"""What a yacc file and a lex file mean by docs/FORMATS.md, once the program has taken them. tools/ has what they are parted into."""

import re

import plain
import plain_lex
from model.scanner import FOREIGN, OWN_BYTE, SKIP, Class, Either, Join, Many, Scanner, literal
from model.trees import Grammar

CODE = re.compile(rb"(/\*.*?\*/)|//[^\n]*|\"(?:\\.|[^\"\\\n])*\"|'(?:\\.|[^'\\\n])*'", re.S)
COMMENT = re.compile(rb"/\*.*?\*/|//[^\n]*", re.S)
MARK = re.compile(rb"/\*@(?:(skip)|token[ \t\r\n]+(\S+))\*/")
WORD = re.compile(rb"[A-Za-z0-9_]+")
RETURN = re.compile(
    rb"\breturn\b\s*((?:\(\s*)*)(?:(yytext\[0\]|\*yytext)|([A-Za-z_][A-Za-z0-9_]*|'(?:\\[^\n][0-9A-Fa-f]*|[^'\\\n])'))"
    rb"\s*((?:\)\s*)*);"
)
FOREIGN_WORDS = set(b"REJECT yymore yyless unput input BEGIN yyterminate".split())


def symbol_of(text):
    """The name of a symbol, as trees have it: a literal by its byte."""
    return literal(plain.literal_value(text)) if text.startswith(b"'") else text.decode()


def grammar_of(text):
    """The grammar of a yacc file."""
    items, _ = plain.read_items(text)
    kept = [(rule.left.text.decode(), rule) for rule in plain.rules(items) if not rule.has_error]
    rules = [(left, [symbol_of(item.text) for item in rule.body]) for left, rule in kept]
    lefts = [*dict.fromkeys(item.text.decode() for item in plain.lefts(items))]
    spelled = dict.fromkeys(symbol_of(item.text) for item in items if item.kind in plain.SYMBOLS)
    used = {symbol for _, body in rules for symbol in body}
    starts = [item.text.decode() for before, item in zip(items, items[1:]) if before.word == "%start"]
    return Grammar([symbol for symbol in spelled if symbol in used - {*lefts}], lefts, rules, [*starts, *lefts][0])


def pattern_of(read):
    """A pattern as the model has it."""
    if isinstance(read, plain_lex.Class):
        return Class(read.bytes)
    if isinstance(read, plain_lex.Many):
        return Many(pattern_of(read.part))
    return (Join if isinstance(read, plain_lex.Join) else Either)(tuple(map(pattern_of, read.parts)))


def words_of(action):
    return [word for word in WORD.findall(CODE.sub(b" ", action)) if not word[:1].isdigit()]


def given(action):
    """What an action gives: a token's name, in use or not, or one of the three other words."""
    marks = [MARK.fullmatch(found[1]) for found in CODE.finditer(action) if found[1]]
    mark = next((mark for mark in marks if mark), None)
    if mark:
        return SKIP if mark[1] else symbol_of(mark[2])
    words = words_of(action)
    if FOREIGN_WORDS.intersection(words):
        return FOREIGN
    if b"return" not in words:
        return SKIP
    found = RETURN.search(COMMENT.sub(b" ", action))
    if words.count(b"return") > 1 or not found or found[1].count(b"(") != found[4].count(b")"):
        return FOREIGN
    return OWN_BYTE if found[2] else symbol_of(found[3])


def scanner_of(text, tokens):
    """The scanner of a lex file beside tokens in use."""
    rules, behind = [], None
    for rule in reversed(plain_lex.rules(text)):
        is_bar = COMMENT.sub(b" ", rule.action).strip() == b"|"
        behind = behind if is_bar else given(rule.action)
        rules.append((pattern_of(rule.pattern), behind))
    return Scanner(rules[::-1], tokens)


def read(yacc, lex):
    """The grammar and the scanner of two files' bytes."""
    grammar = grammar_of(yacc)
    return grammar, scanner_of(lex, grammar.tokens)
