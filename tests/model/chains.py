"""The goals of three rules one below the other, and the output of `chains`, as docs/FORMATS.md has it."""

from dataclasses import astuple, dataclass

from model.texts import Texts, bytes_of, end_line, line
from model.trees import Node, node_around, picks


@dataclass(frozen=True)
class ChainGoal:
    """A rule, a place of its body, a rule of the symbol there, a place of that rule's body, and a rule of that symbol."""

    outer: int
    place: int
    middle: int
    spot: int
    inner: int

    def words(self):
        return ["chain", *(number + 1 for number in astuple(self))]

    def parts(self, grammar):
        inner = Node(self.inner, picks(grammar.rules[self.inner][1]))
        middle = node_around(grammar, self.middle, self.spot, inner)
        yield grammar.rules[self.outer][0], node_around(grammar, self.outer, self.place, middle)


def chains(grammar):
    """All chains, in ascending order of their five numbers."""
    below = [(rule, place, inner) for rule, place, symbol in grammar.places() for inner in grammar.rules_of(symbol)]
    return [ChainGoal(*outer, *inner[1:]) for outer in below for inner in below if inner[0] == outer[2]]


class Chains(Texts):
    """What `chains` writes of a grammar; with texts where there is a scanner."""

    def text(self):
        counts = dict.fromkeys(("goals", "feasible", "infeasible", "large"), 0)
        return bytes_of(["conform chains", *self.symbols(), *self.goal_lines(counts), end_line(counts)])

    def goal_lines(self, counts):
        for number, (goal, told, size, tree) in enumerate(self.judged(chains(self.grammar)), 1):
            counts["goals"] += 1
            counts[told] += 1
            if told == "feasible":
                yield line("goal", number, *goal.words(), "size", size)
                yield from self.derivation(tree)
            else:
                yield line("goal", number, *goal.words(), told)
