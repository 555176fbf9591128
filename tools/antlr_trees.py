"""The rules of ANTLR 4's grammar files as trees, and the grammar that has them."""

from typing import NamedTuple

from antlr import Token


class Name(NamedTuple):
    """A rule, a token or the end of the text; the name is the text of its place."""

    at: Token


class Literal(NamedTuple):
    """A text in single quotes, as it is spelled."""

    at: Token


class Range(NamedTuple):
    """The characters between two literals."""

    at: Token
    last: Token


class Members(NamedTuple):
    """A set of characters in brackets, as it is spelled."""

    at: Token


class Any(NamedTuple):
    """A dot."""

    at: Token


class Not(NamedTuple):
    """What is none of these."""

    at: Token
    parts: tuple


class Block(NamedTuple):
    """Alternatives in parentheses."""

    at: Token
    alternatives: tuple


class Repeat(NamedTuple):
    """A part with one of the signs `?`, `*` and `+` behind it."""

    at: Token
    part: object
    sign: str
    is_greedy: bool


class Code(NamedTuple):
    """An action or a predicate, by the kind of its place."""

    at: Token


class Command(NamedTuple):
    """What stands behind `->`: a name, and perhaps an argument."""

    at: Token
    argument: object


class Alternative(NamedTuple):
    at: Token
    elements: tuple
    commands: tuple


class Rule(NamedTuple):
    at: Token
    is_fragment: bool
    mode: object
    options: dict
    alternatives: tuple

    @property
    def name(self):
        return self.at.text


class Grammar:
    """A file's grammar. The kind is combined, parser or lexer."""

    def __init__(self, source):
        self.source, self.kind, self.at = source, "combined", None
        # The options by name, the tokens of imports and of lists, and named actions with their scopes.
        self.options, self.imports, self.tokens, self.codes = {}, [], [], []
        self.rules = []
