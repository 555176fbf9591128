"""Least derivation trees and the goals that they meet, as docs/DEFINITIONS.md says it.

Costs are lowered rule by rule until none changes any more. A tree is a token's name, or a node.
"""

from dataclasses import dataclass
from math import inf

BEGIN, END = "<begin>", "<end>"
ANY, EMPTY = ("any", None), ("empty", None)
# where the first tree of a list is of the kind, what the others are; and where the others are, what the first tree is
BEHIND = {"first": ANY, "last": EMPTY}
BEFORE = {"first": EMPTY, "last": ANY}


@dataclass
class Grammar:
    """The names of tokens and nonterminals by number, the rules as pairs of a left side and a body, and the start symbol."""

    tokens: list
    nonterminals: list
    rules: list
    start: str

    def rules_of(self, left):
        return [number for number, rule in enumerate(self.rules) if rule[0] == left]

    def places(self):
        """Each rule with each place of its body, and the symbol there; both count from 0."""
        for number, (_, body) in enumerate(self.rules):
            for place, symbol in enumerate(body):
                yield number, place, symbol


@dataclass
class Node:
    """A rule, from 0, and what stands below it: trees, or picks and nodes of these, of which a tree is still to be made."""

    rule: int
    children: list

    def code(self):
        return [self.rule, *(rule for child in self.children if isinstance(child, Node) for rule in child.code())]

    def nodes(self):
        yield self
        for child in self.children:
            if isinstance(child, Node):
                yield from child.nodes()


@dataclass
class Pick:
    """The chosen tree of a kind and a symbol."""

    kind: tuple
    symbol: str


def picks(symbols, kind=ANY):
    return [Pick(kind, symbol) for symbol in symbols]


def node_around(grammar, rule, place, child):
    """A node of the rule with this child at the place, from 0, and any other children."""
    body = grammar.rules[rule][1]
    return Node(rule, [*picks(body[:place]), child, *picks(body[place + 1 :])])


def yield_of(tree):
    return [token for child in tree.children for token in yield_of(child)] if isinstance(tree, Node) else [tree]


def framed(tokens):
    return [BEGIN, *tokens, END]


def neighbours(tokens):
    """The pairs of neighbours of a framed list, from its begin on."""
    marks = framed(tokens)
    return list(zip(marks, marks[1:]))


def settled(costs, renewed):
    """The costs of these keys, lowered to what `renewed` says of a key until that is no less for any."""
    changed = True
    while changed:
        changed = False
        for key in costs:
            cost = renewed(key)
            if cost < costs[key]:
                costs[key], changed = cost, True
    return costs


class Trees:
    """What trees of each kind and symbol cost at least, and contexts of each nonterminal; infinite where there is none."""

    def __init__(self, grammar, weights):
        self.grammar, self.weights = grammar, weights
        ends = [(kind, token) for kind in ("first", "last") for token in grammar.tokens]
        self.costs = {(kind, left): inf for kind in (ANY, EMPTY, *ends) for left in grammar.nonterminals}
        settled(self.costs, lambda key: min(self.node_costs(*key), default=inf))
        self.contexts = {left: 0 if left == grammar.start else inf for left in grammar.nonterminals}
        settled(self.contexts, lambda left: min((cost for cost, _, _ in self.holes(left)), default=inf))

    def node_costs(self, kind, left):
        return [1 + self.list_cost(kind, self.grammar.rules[rule][1]) for rule in self.grammar.rules_of(left)]

    def cost(self, kind, symbol):
        if symbol in self.weights:
            return self.weights[symbol] if kind == ANY or kind in (("first", symbol), ("last", symbol)) else inf
        return self.costs[kind, symbol]

    def list_cost(self, kind, symbols):
        """What a list of trees of these symbols costs at least that is of the kind."""
        if kind in (ANY, EMPTY):
            return sum(self.cost(kind, symbol) for symbol in symbols)
        return min((self.cost_of(parts) for parts in self.ways(kind, symbols)), default=inf)

    def ways(self, kind, symbols):
        """The lists that begin or end with a token, by the place of the tree that does."""
        for place, symbol in enumerate(symbols):
            before, behind = picks(symbols[:place], BEFORE[kind[0]]), picks(symbols[place + 1 :], BEHIND[kind[0]])
            yield [*before, Pick(kind, symbol), *behind]

    def chosen(self, kind, symbol):
        """The chosen tree: of the least ones that with the lowest rule, and then with the lowest place."""
        if symbol in self.weights:
            return symbol
        costs = self.node_costs(kind, symbol)
        rule = self.grammar.rules_of(symbol)[costs.index(min(costs))]
        body = self.grammar.rules[rule][1]
        parts = picks(body, kind) if kind in (ANY, EMPTY) else min(self.ways(kind, body), key=self.cost_of)
        return Node(rule, [self.made(part) for part in parts])

    def cost_of(self, part):
        """What a tree of this part costs at least; of a list of parts, all of them."""
        if isinstance(part, list):
            return sum(self.cost_of(each) for each in part)
        return 1 + self.cost_of(part.children) if isinstance(part, Node) else self.cost(part.kind, part.symbol)

    def made(self, part):
        """The tree of this part, each pick of it chosen."""
        if isinstance(part, Node):
            return Node(part.rule, [self.made(child) for child in part.children])
        return self.chosen(part.kind, part.symbol)

    def size(self, tree):
        return 1 + sum(self.size(child) for child in tree.children) if isinstance(tree, Node) else self.weights[tree]

    def holes(self, left):
        """What a context costs with its hole at each place where the nonterminal stands, with the rule and the place."""
        for rule, place, symbol in self.grammar.places():
            if symbol == left:
                outer, body = self.grammar.rules[rule]
                yield self.contexts[outer] + 1 + self.list_cost(ANY, body[:place] + body[place + 1 :]), rule, place

    def around(self, left, tree):
        """The chosen context of the nonterminal with the tree in its hole."""
        while left != self.grammar.start:
            _, rule, place = min(self.holes(left))
            left, body = self.grammar.rules[rule]
            before, behind = ([self.chosen(ANY, symbol) for symbol in part] for part in (body[:place], body[place + 1 :]))
            tree = Node(rule, [*before, tree, *behind])
        return tree


@dataclass(frozen=True)
class RuleGoal:
    rule: int

    def words(self):
        return ["rule", self.rule + 1]

    def parts(self, grammar):
        left, body = grammar.rules[self.rule]
        yield left, Node(self.rule, picks(body))

    def is_met(self, tree):
        return any(node.rule == self.rule for node in tree.nodes())


@dataclass(frozen=True)
class ContextGoal:
    rule: int
    place: int
    inner: int

    def words(self):
        return ["context", self.rule + 1, self.place + 1, self.inner + 1]

    def parts(self, grammar):
        inner = Node(self.inner, picks(grammar.rules[self.inner][1]))
        yield grammar.rules[self.rule][0], node_around(grammar, self.rule, self.place, inner)

    def is_met(self, tree):
        return any(node.rule == self.rule and node.children[self.place].rule == self.inner for node in tree.nodes())


@dataclass(frozen=True)
class PairGoal:
    left: str
    right: str

    def words(self):
        return ["pair", self.left, self.right]

    def parts(self, grammar):
        if self.left == BEGIN or self.right == END:
            first = ("first", self.right) if self.right != END else EMPTY
            yield grammar.start, Pick(first if self.left == BEGIN else ("last", self.left), grammar.start)
            return
        for number, (left, body) in enumerate(grammar.rules):
            for begin in range(len(body)):
                for end in range(begin + 1, len(body)):
                    between = picks(body[begin + 1 : end], EMPTY)
                    seam = [Pick(("last", self.left), body[begin]), *between, Pick(("first", self.right), body[end])]
                    yield left, Node(number, [*picks(body[:begin]), *seam, *picks(body[end + 1 :])])

    def is_met(self, tree):
        return (self.left, self.right) in neighbours(yield_of(tree))


def goals(grammar, criteria):
    """The goals of the chosen criteria, in order."""
    rules = [RuleGoal(rule) for rule in range(len(grammar.rules))]
    contexts = [ContextGoal(rule, place, inner) for rule, place, symbol in grammar.places() for inner in grammar.rules_of(symbol)]
    pairs = [PairGoal(left, right) for left in (BEGIN, *grammar.tokens) for right in (*grammar.tokens, END)]
    return [goal for name, some in (("rule", rules), ("cdrc", contexts), ("pair", pairs)) if name in criteria for goal in some]


def verdict(trees, goal):
    """What the least trees of the start symbol that meet the goal cost, and the chosen one; where none does, infinite and None."""
    costs = [(trees.contexts[left] + trees.cost_of(part), left, part) for left, part in goal.parts(trees.grammar)]
    cost, left, part = min(costs, key=lambda row: row[0], default=(inf, None, None))
    return (cost, trees.around(left, trees.made(part))) if cost < inf else (inf, None)
