"""Scanners: what patterns match, how a text is scanned, and the least text of each token, as docs/DEFINITIONS.md says it.

A pattern is a value of one of the four classes below. What a rule gives is a token's name or one of three other words.
"""

from dataclasses import dataclass
from functools import cached_property

SKIP, FOREIGN, OWN_BYTE = "<skip>", "<foreign>", "<own byte>"
LETTERS = b"abcdefghijklmnopqrstuvwxyz"
VISIBLE = [*LETTERS, *b"0123456789", *LETTERS.upper()]
VISIBLE += [byte for byte in range(0x21, 0x7F) if byte not in VISIBLE]
RANKED = [*VISIBLE, *b" \n\t"]
RANKED += [byte for byte in range(256) if byte not in RANKED]
MOST_SETS = 16384


@dataclass(frozen=True)
class Class:
    bytes: frozenset


@dataclass(frozen=True)
class Join:
    parts: tuple


@dataclass(frozen=True)
class Either:
    parts: tuple


@dataclass(frozen=True)
class Many:
    part: object


EMPTY = Join(())


def one_of(some):
    return Class(frozenset(some))


def joined(word):
    """These bytes in order."""
    return Join(tuple(one_of([byte]) for byte in word))


BLANKS = Join((one_of(b" \n"), Many(one_of(b" \n"))))


def literal(byte):
    return f"'{chr(byte)}'"


class Automaton:
    """Nodes with steps over sets of bytes, and free steps over nothing (Thompson 1968)."""

    def __init__(self):
        self.free, self.steps = [], []

    def node(self):
        self.free.append([])
        self.steps.append([])
        return len(self.free) - 1

    def lay(self, pattern, begin, end):
        """Adds ways from one node to another over what the pattern matches, and no others."""
        if isinstance(pattern, Class):
            # a node of its own: so sets of nodes differ where sets of places do
            place = self.node()
            self.steps[begin].append((pattern.bytes, place))
            self.free[place].append(end)
        elif isinstance(pattern, Either):
            for part in pattern.parts:
                self.lay(part, begin, end)
        elif isinstance(pattern, Many):
            middle = self.node()
            self.free[begin].append(middle)
            self.lay(pattern.part, middle, middle)
            self.free[middle].append(end)
        else:
            for part in pattern.parts:
                begin, before = self.node(), begin
                self.lay(part, before, begin)
            self.free[begin].append(end)

    def freely(self, nodes):
        """These nodes and all that free steps lead to."""
        found, waiting = set(nodes), list(nodes)
        while waiting:
            behind = [node for node in self.free[waiting.pop()] if node not in found]
            found.update(behind)
            waiting += behind
        return frozenset(found)

    def behind(self, nodes, byte):
        return self.freely({end for node in nodes for some, end in self.steps[node] if byte in some})


class Scanner:
    """Patterns with what each gives, and the tokens in use."""

    def __init__(self, rules, tokens):
        self.rules, self.tokens = rules, tokens
        self.automaton, self.known, self.winners = Automaton(), {}, {}
        begin, self.ends = self.automaton.node(), []
        for pattern, _ in rules:
            # a pattern has a node of its own to begin at: a loop there leads to no other pattern
            self.ends.append(self.automaton.node())
            own = self.automaton.node()
            self.automaton.free[begin].append(own)
            self.automaton.lay(pattern, own, self.ends[-1])
        self.begin = self.automaton.freely([begin])

    def behind(self, nodes, byte):
        if (nodes, byte) not in self.known:
            self.known[nodes, byte] = self.automaton.behind(nodes, byte)
        return self.known[nodes, byte]

    def winner(self, nodes):
        """The lowest rule whose pattern matches what led to these nodes, or None."""
        if nodes not in self.winners:
            self.winners[nodes] = next((rule for rule, end in enumerate(self.ends) if end in nodes), None)
        return self.winners[nodes]

    def own(self, byte):
        """What a rule gives that goes by the first byte of its match."""
        return literal(byte) if literal(byte) in self.tokens else FOREIGN

    def given(self, rule, first):
        """What a match of the rule gives that begins with this byte."""
        word = self.rules[rule][1]
        if word == OWN_BYTE:
            return self.own(first)
        return word if word == SKIP or word in self.tokens else FOREIGN

    def longest(self, text, begin):
        """Where the longest match at this place ends, and the rule that wins it; None where no rule matches a byte."""
        nodes, place, found = self.begin, begin, None
        while nodes and place < len(text):
            nodes, place = self.behind(nodes, text[place]), place + 1
            rule = self.winner(nodes)
            found = found if rule is None else (place, rule)
        return found

    def matches(self, text):
        """The matches of a scan in order: where each begins and ends, and the rule that wins it."""
        place = 0
        while place < len(text) and (match := self.longest(text, place)) and self.given(match[1], text[place]) != FOREIGN:
            yield place, *match
            place = match[0]

    def scan(self, text):
        """The tokens of the text up to where a scan ends or stops, and that place."""
        matches = [*self.matches(text)]
        given = [self.given(rule, text[begin]) for begin, _, rule in matches]
        return [token for token in given if token != SKIP], matches[-1][1] if matches else 0

    def different(self):
        """Of the bytes that are alike to all patterns, and by themselves, the first in the order of ranks."""
        sets = {some for steps in self.automaton.steps for some, _ in steps}
        found = {}
        for byte in RANKED:
            found.setdefault((self.own(byte), *(byte in some for some in sets)), byte)
        return found.values()

    @cached_property
    def has_many_sets(self):
        """Whether texts that aren't empty have more than 16,384 sets of places; the empty set isn't counted."""
        found, waiting, bytes_ = set(), [self.begin], self.different()
        while waiting and len(found) <= MOST_SETS:
            behind = {self.behind(waiting[-1], byte) for byte in bytes_} - found - {frozenset()}
            waiting[-1:] = behind
            found |= behind
        return len(found) > MOST_SETS

    def least_texts(self, kept=lambda first: None):
        """Least texts in order, with the nodes that they lead to: of those with equal nodes, and of whose first bytes the
        same is kept, the first one."""
        seen, texts, bytes_ = set(), [(b"", self.begin)], self.different()
        while texts:
            longer = []
            for text, nodes in texts:
                for byte in bytes_:
                    longer_text, behind = text + bytes([byte]), self.behind(nodes, byte)
                    place = behind, kept(longer_text[0])
                    if behind and place not in seen:
                        seen.add(place)
                        longer.append((longer_text, behind))
                        yield longer_text, behind
            texts = longer

    @cached_property
    def lexemes(self):
        """The least text of each token that has one."""
        found = {}
        for text, nodes in self.least_texts(self.own):
            rule = self.winner(nodes)
            token = SKIP if rule is None else self.given(rule, text[0])
            if token in self.tokens:
                found.setdefault(token, text)
        return found
