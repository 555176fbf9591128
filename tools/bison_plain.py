"""Grammar files of GNU Bison, written in the profile of docs/FORMATS.md line for line."""

import re
from collections import defaultdict

import plain
from bison import Refusal, end_tokens, tokens
from bison_walk import Grammar

NAME_BYTES = re.compile(rb"[A-Za-z0-9_.]")


class Lines:
    """The text of the plain file. Where a piece is longer than what it stands for, later blanks of its line give way."""

    def __init__(self):
        self.parts, self.ahead = [], 0

    def end(self):
        return self.parts[-1][-1:] if self.parts else b""

    def write(self, piece):
        if piece:
            self.parts.append(piece)

    def blanks(self, text):
        gone = max(0, min(self.ahead, len(text) - len(text.lstrip(b" ")) - 1))
        self.write(text[gone:])
        self.ahead = 0 if b"\n" in text else self.ahead - gone

    def token(self, token):
        if token.is_gone:
            self.blanks(re.sub(rb"[^ \t\n\r\f\v]", b" ", token.text))
            return
        self.write(token.plain)
        self.ahead += len(token.plain) - len(token.text)
        if self.ahead < 0:
            self.write(b" " * -self.ahead)
            self.ahead = 0

    def part(self, before, token):
        """Keeps two names apart that stood side by side as strings."""
        changed = token.plain != token.text or (before and before.plain != before.text)
        if changed and not token.is_gone and NAME_BYTES.match(self.end()) and NAME_BYTES.match(token.plain):
            self.write(b" ")
            self.ahead += 1
        self.token(token)


def walked(text):
    grammar = Grammar(text)
    grammar.declarations()
    grammar.rules()
    return grammar


def plain_text(grammar):
    lines, at, before = Lines(), 0, None
    for token in grammar.tokens:
        lines.blanks(grammar.text[at : token.at])
        lines.part(before, token)
        at, before = token.at + len(token.text), token
    return b"".join(lines.parts) + grammar.text[at:]


def kept_rules(grammar):
    """The rules of a grammar whose plain text is one, with the places that their symbols have in its own text."""
    kept = (token for token in grammar.tokens if not token.is_gone)
    items = [plain.Item("name" if token.kind == "string" else token.kind, token.at, token.plain) for token in kept]
    return [rule for rule in plain.rules(items) if not rule.has_error]


def inner_end(rules, names):
    """A place where more may stand behind the end of the text, as an item that holds it; None where there is none."""
    uses = defaultdict(list)
    for rule in rules:
        for place, item in enumerate(rule.body):
            uses[item.text].append((rule, place))
    found, waiting = {*names}, [*names]
    while waiting:
        for rule, place in uses[waiting.pop()]:
            if any(item.text not in names for item in rule.body[place + 1 :]):
                return rule.body[place]
            if rule.left.text not in found:
                found.add(rule.left.text)
                waiting.append(rule.left.text)
    return None


def take_out_ends(grammar):
    """Takes the tokens with the number 0 out of the rules, since a sentence ends where its text does; whether there were any."""
    names = end_tokens(grammar.tokens)
    rules = kept_rules(grammar) if names else []
    inner = inner_end(rules, names)
    if inner:
        name = b", ".join(sorted(names)).decode()
        raise Refusal(inner.at, f"the number 0 of {name} is the end of the text, and more may stand behind it here: take it out")
    places = {item.at for rule in rules for item in rule.body if item.text in names}
    for token in grammar.tokens:
        if token.at in places:
            token.take_out()
    return bool(places)


def checked(text):
    """The plain text, which the profile's items and table take."""
    grammar = walked(text)
    written = plain_text(grammar)
    fault = plain.fault(written)
    if fault:
        raise Refusal(min(fault.at, len(text)), "no grammar file has this here: look whether bison takes the file")
    return plain_text(grammar) if take_out_ends(grammar) else written


def has_ends(text):
    """Whether rules hold a token that is the end of the text."""
    try:
        grammar = walked(text)
    except Refusal:
        return False
    names = end_tokens(grammar.tokens)
    rules = kept_rules(grammar) if names and not plain.fault(plain_text(grammar)) else []
    return any(item.text in names for rule in rules for item in rule.body)


def in_use(text):
    """The tokens of the kept rules, each once, as the plain grammar spells them."""
    items = plain.read_items(checked(text))[0]
    lefts = {item.text for item in plain.lefts(items)}
    kept = (item for rule in plain.rules(items) if not rule.has_error for item in rule.body)
    found = {}
    for item in kept:
        if item.text not in lefts:
            found.setdefault(plain.literal_value(item.text) if item.kind == "literal" else item.text, item)
    return list(found.values())


def defined(text, *names):
    """What a grammar's `%define` says for one of these names, or None."""
    listed = tokens(text)
    for directive, name, value in zip(listed, listed[1:], listed[2:]):
        is_value = value.kind in ("block", "string", "name")
        if directive.word == "%define" and name.text in names and is_value:
            return value.text.strip(b'{}"').strip()
    return None


def prefix(text):
    """What stands before the names of tokens in the scanner, and not in the grammar."""
    return defined(text, b"api.token.prefix") or b""


def parser_class(text):
    """The name of the class that Bison writes in C++."""
    return defined(text, b"api.parser.class", b"parser_class_name") or b"parser"
