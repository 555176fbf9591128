"""Lines of docs/FORMATS.md that several outputs have: names, derivations, lists of tokens and their texts."""

from dataclasses import dataclass
from functools import cached_property
from itertools import takewhile
from math import inf

from model.trees import BEGIN, END, PairGoal, Trees, neighbours, verdict, yield_of


@dataclass
class Choice:
    """What options say; of `rules` the scanner is None and the others are the defaults of that form."""

    criteria: list = ()
    operators: list = ()
    bases: int = 16
    separator: bytes = b" "
    weigh: str = "nodes"
    version: int = 1
    first: int | None = None


def name_of(mark):
    if not mark.startswith("'"):
        return mark
    byte = ord(mark[1])
    return f"'{mark[1]}'" if 0x21 <= byte <= 0x7E and mark[1] not in "'\\" else f"'\\x{byte:02x}'"


def quoted(text):
    return '"' + "".join(chr(byte) if 0x20 <= byte <= 0x7E and byte not in b'"\\' else f"\\x{byte:02x}" for byte in text) + '"'


def line(*words):
    return " ".join(str(word) for word in words)


def end_line(counts, *more):
    """The last line, of what is counted by name."""
    return line("end", *(word for count in counts.items() for word in count), *more)


def bytes_of(lines):
    return "".join(each + "\n" for each in lines).encode()


def in_common(some, others):
    """How many elements two lists have in common at their fronts."""
    return len([*takewhile(lambda pair: pair[0] == pair[1], zip(some, others))])


class Texts:
    """A grammar by a choice, and a scanner or none: its trees, and the lines of derivations, of tokens and of texts."""

    def __init__(self, grammar, scanner, choice):
        self.grammar, self.scanner, self.choice = grammar, scanner, choice
        self.lexemes = scanner.lexemes if scanner else {}
        self.most = 100000 if choice.weigh == "bytes" else 10000
        self.trees = Trees(grammar, {token: self.weight(token) for token in grammar.tokens})

    def weight(self, token):
        if self.choice.weigh == "nodes":
            return 1
        return min(1 + 16 * len(self.lexemes[token]), 1000000) if token in self.lexemes else 5000

    def judged(self, goals):
        """Each goal with its verdict, and the size and the chosen tree of those that are met."""
        for goal in goals:
            size, tree = verdict(self.trees, goal)
            yield goal, "infeasible" if size == inf else "large" if size > self.most else "feasible", size, tree

    def is_adjacent(self, pair):
        return verdict(self.trees, PairGoal(*pair))[0] < inf

    @cached_property
    def adjacent(self):
        """The pairs of marks that stand side by side in some framed sentence."""
        tokens = self.grammar.tokens
        pairs = ((left, right) for left in (BEGIN, *tokens) for right in (*tokens, END))
        return {pair for pair in pairs if self.is_adjacent(pair)}

    def poisons(self, tokens):
        """The pairs that no sentence has, with their places."""
        return [(pair, place) for place, pair in enumerate(neighbours(tokens)) if pair not in self.adjacent]

    def poison(self, tokens):
        """The first of them, or None."""
        return next(iter(self.poisons(tokens)), None)

    def symbols(self):
        """The lines of tokens, of rules and of lexemes."""
        for number, token in enumerate(self.grammar.tokens, 1):
            yield line("token", number, name_of(token))
        for number, (left, body) in enumerate(self.grammar.rules, 1):
            yield line("rule", number, left, ":", *map(name_of, body))
        for token in self.grammar.tokens if self.scanner else ():
            yield line("lexeme", name_of(token), quoted(self.lexemes[token]) if token in self.lexemes else "none")

    def derivation(self, tree):
        yield line("  derive", *(rule + 1 for rule in tree.code()))
        yield from self.sentence(yield_of(tree))

    def sentence(self, tokens):
        yield line("  tokens", *map(name_of, tokens))
        if self.scanner:
            yield "  " + self.rendering(tokens)

    def without_lexeme(self, tokens):
        """The text line of tokens of which one has no lexeme, else None."""
        token = next((token for token in tokens if token not in self.lexemes), None)
        return token and line("no text lexeme", name_of(token))

    def rendering(self, tokens):
        if told := self.without_lexeme(tokens):
            return told
        text = self.choice.separator.join(self.lexemes[token] for token in tokens)
        found, end = self.scanner.scan(text)
        if found == tokens and end == len(text):
            return line("text", quoted(text))
        return line("no text scan", in_common(found, tokens))
