"""The symbols that Bison's C++ parsers make for a scanner, by "Complete Symbols" of its manual: `make_NAME` and `symbol_type`."""

import re
from typing import NamedTuple

from flex_macros import PIECE, WORD, arguments, blanked

SCOPE, NAME = rb"(?:::\s*)?(?:[A-Za-z_]\w*\s*::\s*)*", rb"[A-Za-z_]\w*"
CALLED = re.compile(rb"(" + SCOPE + rb")(" + NAME + rb")\s*(?=\()")
# Other names that code gives a class, and names of namespaces.
RENAMED = re.compile(
    rb"\busing\s+(?P<used>" + NAME + rb")\s*=\s*(?P<of_used>" + SCOPE + NAME + rb")\s*;"
    rb"|\btypedef\s+(?:class\s+)?(?P<of_typedef>" + SCOPE + NAME + rb")\s+(?P<typedef>" + NAME + rb")\s*;"
)
NAMESPACE = re.compile(rb"\bnamespace\s+(" + NAME + rb")\s*[{=]")
# What tokens' numbers belong to; `symbol_kind` has other numbers by the same names.
NUMBERED_BY = {b"token", b"yytokentype", b"token_type", b"token_kind_type"}


class Call(NamedTuple):
    """A call that is the whole of a value."""

    scope: list
    name: bytes
    arguments: list


def call_of(value):
    """The call that a value is, or None."""
    found = CALLED.match(value)
    pieces = PIECE.findall(value[found.end() :]) if found else []
    listed = arguments(pieces, 0) if pieces else None
    return Call(WORD.findall(found[1]), found[2], listed[0]) if listed and listed[1] == len(pieces) else None


class Symbols:
    """The tokens of a grammar as a scanner names them; without a grammar there are none."""

    def __init__(self, prefix=b"", names=(), parser=None):
        self.prefix = prefix
        # The grammar's names by those in the scanner, and the names of the parser class where a grammar is named.
        self.tokens = {prefix + name: name for name in names}
        self.parsers = None if parser is None else {parser}

    def see(self, code):
        """Takes in what names code gives the parser class; what is named so and is something else is none."""
        if self.parsers is None:
            return
        code = blanked(code)
        others = {*NAMESPACE.findall(code)}
        for found in RENAMED.finditer(code):
            old = WORD.findall(found["of_used"] or found["of_typedef"])[-1]
            (self.parsers if old in self.parsers else others).add(found["used"] or found["typedef"])
        self.parsers -= others

    def are_of(self, scope):
        """Whether what has this scope is a member of the parser class, as far as is known; without a scope nothing is."""
        return bool(scope) and (self.parsers is None or scope[-1] in self.parsers)

    def is_made(self, name):
        """Whether a `make_` may have this name: that has no prefix."""
        return name not in self.tokens or name in self.tokens.values()

    def numbered(self, scope, name):
        """The token whose number has this name, with the prefix; None where there is none."""
        return self.tokens.get(name) if not scope or scope[-1] in NUMBERED_BY else None

    def may_be(self, name):
        """Whether a name may be a token's: the grammar's tokens are, and without one what has no small letters."""
        return name in self.tokens.values() if self.parsers else name == name.upper()

    def named(self, word):
        """The token that a word of an action names, if it names one."""
        made = word.removeprefix(b"make_")
        is_made = made != word and made in self.tokens.values()
        return self.tokens.get(word) or (made if is_made else self.tokens.get(made))
