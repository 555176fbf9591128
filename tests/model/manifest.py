"""The lines of a manifest, as docs/FORMATS.md has them, made from trees and a scanner alone."""

from collections import Counter
from itertools import islice
from math import inf

from model.texts import Choice, Texts, bytes_of, end_line, line, name_of
from model.trees import ANY, BEGIN, EMPTY, END, goals, yield_of

__all__ = ["Choice", "Manifest", "edits"]


def edits(base, operators, tokens):
    """The words of each edit of a base with the list that it makes, in order."""
    if "delete" in operators:
        for place in range(len(base)):
            if base[place] not in base[max(place - 1, 0) : place]:
                yield ["delete", place], base[:place] + base[place + 1 :]
    if "insert" in operators:
        for place in range(len(base) + 1):
            for token in tokens:
                if token not in base[max(place - 1, 0) : place]:
                    yield ["insert", place, name_of(token)], base[:place] + [token] + base[place:]
    if "replace" in operators:
        for place in range(len(base)):
            for token in tokens:
                if token != base[place]:
                    yield ["replace", place, name_of(token)], base[:place] + [token] + base[place + 1 :]
    if "swap" in operators:
        for place, (first, second) in enumerate(zip(base, base[1:])):
            if first != second:
                yield ["swap", place], base[:place] + [second, first] + base[place + 2 :]


class Manifest(Texts):
    """The manifest of a grammar by a choice, with texts where there is a scanner."""

    def __init__(self, grammar, scanner, choice):
        super().__init__(grammar, scanner, choice)
        self.judged_goals = [*self.judged(goals(grammar, choice.criteria))]
        self.counts = dict.fromkeys(("goals", "feasible", "infeasible", "large", "negatives"), 0)
        # the trees of derivations, each once
        self.cases = []
        # how many negatives with one poisoned pair were kept, by operator and left mark
        self.kept = Counter()

    def text(self):
        """The whole manifest as bytes."""
        shared = self.choice.version == 2
        lines = [*self.head(), *(self.closed() if shared else ()), *self.goal_lines(shared), *self.base_lines()]
        cases = ["cases", len(self.cases)] if shared else []
        return bytes_of([*lines, end_line(self.counts, *cases)])

    def head(self):
        yield line("conform", self.choice.version, "suite" if self.scanner else "rules")
        if self.choice.version == 2:
            yield line("weigh", self.choice.weigh)
        yield from self.symbols()

    def closed(self):
        lefts, costs, tokens = self.grammar.nonterminals, self.trees.costs, self.grammar.tokens
        yield line("closed productive", *(left for left in lefts if costs[ANY, left] < inf))
        yield line("closed reachable", *(left for left in lefts if self.trees.contexts[left] < inf))
        yield line("closed empty", *(left for left in lefts if costs[EMPTY, left] < inf))
        for kind in ("first", "last"):
            for left in lefts:
                found = [name_of(token) for token in tokens if costs[(kind, token), left] < inf]
                yield line("closed", kind, left, ":", *found)
        for left in (BEGIN, *tokens):
            found = [name_of(right) for right in (*tokens, END) if (left, right) in self.adjacent]
            yield line("closed next", name_of(left), ":", *found)

    def goal_lines(self, shared):
        for number, (goal, told, size, tree) in enumerate(self.judged_goals, 1):
            self.counts["goals"] += 1
            self.counts[told] += 1
            words = ["goal", number, *(name_of(word) if isinstance(word, str) else word for word in goal.words())]
            if told != "feasible":
                yield line(*words, told)
                continue
            yield from (self.shared_lines if shared else self.own_lines)(line(*words, "size", size), goal, tree)

    def own_lines(self, told, _, tree):
        yield told
        yield from self.derivation(tree)

    def shared_lines(self, told, goal, tree):
        if tree not in self.cases:
            self.cases.append(tree)
            yield line("case", len(self.cases), "size", self.trees.size(tree))
            yield from self.derivation(tree)
        first = next(number for number, case in enumerate(self.cases, 1) if goal.is_met(case))
        yield line(told, "case", self.cases.index(tree) + 1, "first", first)

    def bases(self):
        """The tokens of feasible goals, each list once, with the number of the first goal that has them."""
        found = {}
        for number, (_, told, _, tree) in enumerate(self.judged_goals, 1):
            if told == "feasible":
                found.setdefault(tuple(yield_of(tree)), number)
        return islice(found.items(), self.choice.bases if self.choice.operators else 0)

    def base_lines(self):
        for number, (base, goal) in enumerate(self.bases(), 1):
            yield line("base", number, "goal", goal)
            for words, tokens in edits(list(base), self.choice.operators, self.grammar.tokens):
                yield from self.edit_lines(number, words, tokens)

    def is_kept(self, operator, poisons):
        """Whether a negative is kept: all are, or of those with one such pair the first of each operator and left mark."""
        if self.choice.first is None:
            return True
        if len(poisons) > 1:
            return False
        kind = operator, poisons[0][0][0]
        self.kept[kind] += 1
        return self.kept[kind] <= self.choice.first

    def edit_lines(self, base, words, tokens):
        poisons = self.poisons(tokens)
        if poisons and self.is_kept(words[0], poisons):
            self.counts["negatives"] += 1
            pair, place = poisons[0]
            yield line("negative", self.counts["negatives"], "base", base, *words, "pair", *map(name_of, pair), "at", place)
            yield from self.sentence(tokens)
