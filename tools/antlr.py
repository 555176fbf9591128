"""The grammar files of ANTLR 4, as its tool's scanner reads them: tokens, and where their code ends."""

import re
from typing import NamedTuple

from bison import Refusal

GAP = re.compile(r"(?:[ \t\r\n\f\ufeff]+|/\*.*?\*/|//[^\r\n]*)*", re.S)
TOKEN = re.compile(
    r"(?P<literal>'(?:\\[^\r\n]|[^'\\\r\n])*')|(?P<list>(?:options|tokens|channels)[ \t\r\n\f]*\{)|(?P<name>[^\W\d_]\w*)"
    r"|(?P<number>[0-9]+)|(?P<code>\{)|(?P<bracket>\[)|(?P<sign>->|::|\.\.|\+=|[:,;()<>=?*+|.@#~}])"
)
# The parts of code in which a brace or a bracket means nothing, and these marks.
CODE_PART = re.compile(r"\\.|/\*.*?\*/|//[^\r\n]*|\"(?:\\.|[^\"\\])*\"|'(?:\\.|[^'\\])*'|[{}]", re.S)
ARGUMENT_PART = re.compile(r"\"(?:\\.|[^\"\\])*\"|'(?:\\.|[^'\\])*'|[\[\]]", re.S)
MEMBERS = re.compile(r"\[(?:\\[^\r\n]|[^\r\n\\\]])*\]")
BAD = {
    "'": "this literal isn't closed on its line: write a single quote behind it",
    '"': "ANTLR 4 has no double quotes: write single ones",
    "/*": "this comment is never closed: write */ behind it",
    "=": "ANTLR 4 has no syntactic predicates: take this out",
    "!": "ANTLR 4 has no tree operators: take this out",
    "^": "ANTLR 4 has no tree operators: take this out",
}


class Source:
    """A file: its name, its bytes and its characters."""

    def __init__(self, name, raw):
        self.name, self.raw = name, raw
        self.text = raw.decode(errors="surrogateescape")
        found = re.search("[\udc80-\udcff]", self.text)
        if found:
            raise Refusal(Token("byte", found.start(), "", self), "the file isn't UTF-8 here: write it anew in UTF-8")

    def offset(self, at):
        """The offset in bytes of a place in characters."""
        return len(self.text[:at].encode(errors="surrogateescape"))


class Token(NamedTuple):
    """A token. Its kind is literal, list (a word and the brace behind it), name, number, code, predicate, argument, members,
    sign or end."""

    kind: str
    at: int
    text: str
    source: Source

    @property
    def is_token_name(self):
        """Whether a name is that of a token: it begins with a capital letter."""
        return self.kind == "name" and self.text[0].isupper()

    @property
    def is_rule_name(self):
        return self.kind == "name" and not self.text[0].isupper()


def nested_end(text, at, part):
    """Where the brace or bracket at a place is closed; None where it never is."""
    depth = 0
    for mark in part.finditer(text, at):
        depth += {"{": 1, "[": 1, "}": -1, "]": -1}.get(mark[0], 0)
        if depth == 0:
            return mark.end()
    return None


def is_in_lexer_rule(found, is_lexer):
    """Whether a colon behind these tokens begins the body of a lexer rule; within a block nothing changes."""
    place = len(found) - 1
    while place >= 0:
        token = found[place]
        if token.text == "}":
            while place > 0 and found[place].kind != "list":
                place -= 1
        elif token.text == "(":
            return is_lexer
        elif token.kind == "name" and token.text not in ("returns", "locals", "throws"):
            return token.is_token_name
        place -= 1
    return is_lexer


def whole(source, kind, at, is_lexer):
    """The kind and the end of a token that goes to its closing mark."""
    text = source.text
    if kind == "bracket" and is_lexer:
        members = MEMBERS.match(text, at)
        kind, end = "members", members.end() if members else None
    elif kind == "bracket":
        kind, end = "argument", nested_end(text, at, ARGUMENT_PART)
    else:
        end = nested_end(text, at, CODE_PART)
        if end and text.startswith("?", end):
            kind, end = "predicate", end + 1
    if end is None:
        raise Refusal(Token(kind, at, "", source), "this is never closed: close it, also where a quote in it is open")
    return kind, end


def no_token(source, at):
    text = source.text
    message = next((message for opening, message in BAD.items() if text.startswith(opening, at)), None)
    return Refusal(Token("byte", at, "", source), message or "nothing of a grammar file begins so: take it out, or quote it")


def tokens(source):
    """The tokens of a file; the last one is its end."""
    text, found, is_lexer = source.text, [], False
    at = GAP.match(text).end()
    while at < len(text):
        start = TOKEN.match(text, at)
        if not start:
            raise no_token(source, at)
        kind, end = start.lastgroup, start.end()
        if kind in ("code", "bracket"):
            kind, end = whole(source, kind, at, is_lexer)
        token = Token(kind, at, text[at:end], source)
        if token.text == ":":
            is_lexer = is_in_lexer_rule(found, is_lexer)
        is_lexer &= token.text != ";"
        found.append(token)
        at = GAP.match(text, end).end()
    return [*found, Token("end", len(text), "", source)]
