"""Lists of tokens that slips of rules make: the output of `wrong`, as docs/FORMATS.md has it."""

from math import inf

from model.members import MOST_TOKENS, is_sentence
from model.texts import Texts, bytes_of, end_line, line, name_of
from model.trees import ANY, Node, yield_of

SLIPS = ["drop", "double", "swap"]
CLASSES = ["none", "large", "again", "long", "sentences", "wrong"]


def slips(body, words):
    """The words of each slip of a right side with the symbols that it makes, in order."""
    for place in range(len(body)) if "drop" in words else ():
        yield ["drop", place + 1], body[:place] + body[place + 1 :]
    for place in range(len(body)) if "double" in words else ():
        yield ["double", place + 1], body[: place + 1] + body[place:]
    for place, (first, second) in enumerate(zip(body, body[1:])) if "swap" in words else ():
        if first != second:
            yield ["swap", place + 1], body[:place] + [second, first] + body[place + 2 :]


class Wrong(Texts):
    """What `wrong` writes of a grammar and a scanner, by some of the words of slips."""

    def __init__(self, grammar, scanner, choice, words):
        super().__init__(grammar, scanner, choice)
        self.words, self.found = words, set()
        self.counts = dict.fromkeys(["slips", *CLASSES], 0)

    def text(self):
        return bytes_of(["conform wrong", *self.slip_lines(), end_line(self.counts)])

    def slip_lines(self):
        yield from self.told(["empty"], 0, [])
        for rule, (left, body) in enumerate(self.grammar.rules):
            for slip, symbols in slips(body, self.words):
                yield from self.told(["rule", rule + 1, *slip], *self.list_of(rule, left, symbols))

    def list_of(self, rule, left, symbols):
        """What a context of the left side around trees of these symbols costs, and the tokens of the chosen one where
        it is no more than may be."""
        cost = self.trees.contexts[left] + 1 + self.trees.list_cost(ANY, symbols)
        if cost > self.most:
            return cost, None
        return cost, yield_of(self.trees.around(left, Node(rule, [self.trees.chosen(ANY, symbol) for symbol in symbols])))

    def told(self, words, cost, tokens):
        """The lines of a slip, which is counted; its list is remembered."""
        name, more = self.kind(cost, tokens)
        self.counts["slips"] += 1
        self.counts[name] += 1
        if tokens is not None:
            self.found.add(tuple(tokens))
        if name == "wrong":
            yield line("wrong", self.counts["wrong"], *words, *more)
            yield from self.sentence(tokens)

    def kind(self, cost, tokens):
        """What a slip is counted as, and the words of a wrong one."""
        if tokens is None:
            return "none" if cost == inf else "large", ()
        if tuple(tokens) in self.found:
            return "again", ()
        if poison := self.poison(tokens):
            pair, place = poison
            return "wrong", ["pair", *map(name_of, pair), "at", place]
        if len(tokens) > MOST_TOKENS:
            return "long", ()
        return ("sentences", ()) if is_sentence(self.grammar, tokens) else ("wrong", ["outside"])
