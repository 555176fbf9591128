"""The closed lines of a manifest: sets of a grammar's symbols, whether they are closed under its rules, and the goals that they
exclude then.
"""

from model.texts import name_of
from model.trees import BEGIN, END


class Sets:
    """The closed lines of a grammar: which one is due, whose names it may have, and what all of them exclude."""

    def __init__(self, grammar):
        self.grammar = grammar
        self.named = {name_of(token): token for token in grammar.tokens}
        self.lefts = {left: left for left in grammar.nonterminals}
        self.marks = {**self.named, END: END}
        # the lines by their kinds and the names before `:`, each with what it names
        rows = [(kind, left) for kind in ("first", "last") for left in grammar.nonterminals]
        self.due = [("productive", None), ("reachable", None), ("empty", None), *rows]
        self.due += [("next", name_of(mark)) for mark in (BEGIN, *grammar.tokens)]
        self.lines = {}

    def known(self, kind):
        """The names that may stand in a line of this kind, with what they name."""
        return self.lefts if kind in ("productive", "reachable", "empty") else self.marks if kind == "next" else self.named

    def add(self, found):
        """Keeps the line that is due; whether it has the name and names of things that are there."""
        kind, name = self.due[len(self.lines)]
        known, names = self.known(kind), found[found.re.groups].split()
        self.lines[kind, name] = {known[each] for each in names if each in known}
        return (name is None or name == found[1]) and all(each in known for each in names)

    def has(self, kind, symbol):
        """Whether a symbol is in the set of nonterminals of this kind: each token is but for the empty ones."""
        return symbol in self.lines[kind, None] if symbol in self.lefts else kind != "empty"

    def ends(self, kind, symbol):
        """The first or last tokens of a symbol."""
        return self.lines[kind, symbol] if symbol in self.lefts else {symbol}

    def behind(self, mark):
        return self.lines["next", name_of(mark)]

    def is_live(self, rule):
        return all(self.has("productive", symbol) for symbol in rule[1])

    def is_used(self, rule):
        return self.is_live(rule) and self.has("reachable", rule[0])

    def ends_of(self, kind, symbols):
        """The tokens that the first of these symbols begins or ends with, and each behind empty ones."""
        found = set()
        for symbol in symbols:
            found |= self.ends(kind, symbol)
            if not self.has("empty", symbol):
                break
        return found

    def are_closed(self):
        start = self.grammar.start
        begins, ends = self.ends("first", start), self.ends("last", start)
        at_ends = begins <= self.behind(BEGIN) and all(END in self.behind(token) for token in ends)
        bare = END in self.behind(BEGIN) or not self.has("empty", start)
        return at_ends and bare and self.has("reachable", start) and all(map(self.closed_under, self.grammar.rules))

    def closed_under(self, rule):
        left, body = rule
        if all(self.has("empty", symbol) for symbol in body) and not self.has("empty", left):
            return False
        if not self.is_live(rule):
            return True
        ends = {"first": self.ends_of("first", body), "last": self.ends_of("last", body[::-1])}
        if not self.has("productive", left) or any(ends[kind] - self.ends(kind, left) for kind in ends):
            return False
        return not self.is_used(rule) or self.closed_within(body)

    def closed_within(self, body):
        """Whether what may stand side by side in a body may do so by the sets, and all of it is reachable."""
        for place, symbol in enumerate(body):
            begins = self.ends_of("first", body[place + 1 :])
            if not self.has("reachable", symbol) or any(begins - self.behind(token) for token in self.ends("last", symbol)):
                return False
        return True

    def exclude(self, words):
        """Whether no tree meets the goal, by the sets; without them nothing is known of any."""
        if not self.lines:
            return False
        if words[0] == "pair":
            left = self.named.get(words[1], BEGIN)
            return self.marks[words[2]] not in self.behind(left)
        rules = [self.grammar.rules[int(number) - 1] for number in (words[1], words[-1])]
        return not (self.is_used(rules[0]) and self.is_live(rules[1]))
