"""A parser of the lists of lists.y, written by hand: it takes the text on its standard input by status 0, or refuses it by 1."""

import re
import sys

TOKEN = re.compile(rb"(?P<NUMBER>[0-9]+)|(?P<NAME>[a-z]+)|(?P<sign>[][,])|[ \t\n]+")


class Refused(Exception):
    """The text isn't a value."""


def tokens_of(text):
    """The kinds of the tokens of a text: NUMBER, NAME, a sign, and behind them END."""
    at = 0
    while at < len(text):
        found = TOKEN.match(text, at)
        if not found:
            raise Refused
        if found.lastgroup:
            yield found[0].decode() if found.lastgroup == "sign" else found.lastgroup
        at = found.end()
    yield "END"


class Parser:
    def __init__(self, text):
        self.tokens = tokens_of(text)
        self.next = next(self.tokens)

    def take(self, *kinds):
        if self.next not in kinds:
            raise Refused
        self.next = next(self.tokens, None)

    def value(self):
        if self.next == "[":
            self.take("[")
            if self.next != "]":
                self.members()
            self.take("]")
        else:
            self.take("NUMBER", "NAME")

    def members(self):
        self.value()
        while self.next == ",":
            self.take(",")
            self.value()


def takes(text):
    try:
        parser = Parser(text)
        parser.value()
        parser.take("END")
    except Refused:
        return False
    return True


if __name__ == "__main__":
    sys.exit(0 if takes(sys.stdin.buffer.read()) else 1)
