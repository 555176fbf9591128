"""Causes of failed cases: what those have in common that no case has that went well."""

import heapq
from collections import Counter, defaultdict
from dataclasses import dataclass
from itertools import chain

import parts
from sides import BEGIN, END, merged_contexts, products

# A rule tells more than a rule in context, this more than two neighbours, and these more than the ends of two symbols.
FEATURES = ("rule", "context", "pair", "sides")
# So many negatives that begin with a sentence, all of them taken, say that what stands behind a sentence isn't looked
# at.
LEAST_WITH_MORE = 3


@dataclass
class Cause:
    """What failed cases have in common: how the parser departed, the words of what it departs at, the cases, and those
    of them that hold no other one's list."""

    outcome: str
    words: tuple
    trials: list
    roots: list
    # what the parser wrote of the shortest text, where it is known
    wrote: str = ""

    @property
    def shortest(self):
        return min(self.trials, key=lambda trial: len(trial.text))

    @property
    def kinds(self):
        """How many cases of each kind there are, the most first."""
        return Counter(trial.kind for trial in self.trials).most_common()


def framed(trial):
    return (BEGIN, *trial.tokens, END)


def part_and_whole(trial):
    """What another list has to hold to belong to this one, and what this one holds. The part has the ends of the text
    where the pair has them. No other list has a text with the spelling that is tried."""
    whole = framed(trial)
    if trial.kind == "spelling":
        return (*whole, trial.name), (*whole, trial.name)
    first, last = trial.pair or (None, None)
    part = (BEGIN,) * (first == BEGIN) + tuple(trial.tokens) + (END,) * (last == END)
    return part if trial.tokens else whole, whole


def by_root(trials):
    """The trials that come down to each of the lists that hold no other one."""
    found = defaultdict(list)
    for trial, root in zip(trials, parts.roots(list(map(part_and_whole, trials)))):
        found[trials[root]].append(trial)
    return found


def place_of_edit(trial):
    """What a negative without a pair has in common with others: its slip, or the token put in, or the tokens at its
    place."""
    if trial.kind == "wrong":
        return ("slip", *trial.edit)
    edit, place, *token = trial.edit
    first = int(place) + (edit == "swap")
    return (edit, *(token or framed(trial)[first : first + 2]))


class Features:
    """The rules, the rules in context and the pairs of positives, by the rules of a grammar."""

    def __init__(self, rules):
        self.rules = rules
        self.lefts = {left for left, _ in rules}

    def of(self, trial):
        """Each once, in order."""
        marks = framed(trial)
        pairs = (("pair", *pair) for pair in zip(marks, marks[1:]))
        return dict.fromkeys(chain(self.of_derivation(trial.derivation) if self.rules else (), pairs))

    def of_derivation(self, derivation):
        """Rules and rules in context, from the left. What waits is each symbol's place: the rule around it, and its
        number there."""
        waiting = [(0, 0)]
        for rule in derivation:
            outer, place = waiting.pop()
            yield "rule", rule
            if outer:
                yield "context", outer, place, rule
            right = self.rules[rule - 1][1]
            waiting += [(rule, place) for place in range(len(right), 0, -1) if right[place - 1] in self.lefts]


def places_of(trials, features):
    """For each feature of some trials the places of those that have it."""
    found = defaultdict(set)
    for place, trial in enumerate(trials):
        for feature in features.of(trial):
            found[feature].add(place)
    return found


def telling(failed, taken, features):
    """For each feature that stands in failed trials and in no taken one the places of these failed trials."""
    usual = set(chain.from_iterable(map(features.of, taken)))
    return {feature: places for feature, places in places_of(failed, features).items() if feature not in usual}


def cover(places):
    """Features and the places that each of them explains, the one with most first, then with most of the rest: a greedy
    choice."""
    order = {feature: number for number, feature in enumerate(places)}
    heap = [(-len(found), FEATURES.index(feature[0]), order[feature], feature) for feature, found in places.items()]
    heapq.heapify(heap)
    explained = set()
    while heap:
        count, kind, number, feature = heapq.heappop(heap)
        new = places[feature] - explained
        if len(new) == -count:
            explained |= new
            yield feature, sorted(new)
        elif new:
            heapq.heappush(heap, (-len(new), kind, number, feature))


def explained(trials, taken, features):
    """The words of trials by the features that stand in no taken positive, or else by their own names."""
    features_of = {place: found for found, places in cover(telling(trials, taken, features)) for place in places}
    words = [features_of.get(place) or tuple(trial.name.split()) for place, trial in enumerate(trials)]
    merged = merged_contexts([found[1:] for found in words if found[0] == "context"])
    return [("context", *merged[found[1:]]) if found[0] == "context" else found for found in words]


class Pairs:
    """How the failed negatives of a run are told: as more behind a sentence, by their pairs, or by their edits."""

    def __init__(self, trials, taken, rules):
        self.trials, self.rules = [trial for trial in trials if not trial.positive and trial.outcome], rules
        self.sentences = {tuple(trial.tokens) for trial in taken}

    def is_sentence(self, tokens):
        """Whether these are a sentence that the parser takes, as far as was tried."""
        return tuple(tokens) in self.sentences

    def with_more(self, roots):
        """The failed ones that begin with a sentence, where the parser takes each one that was tried and has a sentence
        up to its pair."""
        tried = [trial for trial in self.trials if trial.pair and self.is_sentence(trial.tokens[: trial.at])]
        is_many = len(tried) >= LEAST_WITH_MORE and len({trial.pair for trial in tried}) > 1
        if not is_many or any(trial.outcome.kind != "taken" for trial in tried):
            return set()
        return {root for root in roots if self.begins_with_sentence(root)}

    def begins_with_sentence(self, trial):
        return any(self.is_sentence(trial.tokens[:end]) for end in range(1, len(trial.tokens)))

    def words(self, roots):
        more = self.with_more(roots)
        failed = {root.pair for root in roots if root.pair and root not in more}
        passed = {trial.pair for trial in self.trials if trial.pair and trial.outcome.kind == "refused"}
        words = {pair: feature for feature, pairs in cover(products(self.rules, failed, passed)) for pair in pairs}
        return [("more",) if root in more else words[root.pair] if root.pair else place_of_edit(root) for root in roots]


class Causes:
    """The causes of a run's failed trials, by the rules of the grammar where they are known."""

    def __init__(self, trials, rules):
        self.trials = trials
        self.features = Features(rules)
        self.taken = [trial for trial in trials if trial.is_taken_positive]
        self.pairs = Pairs(trials, self.taken, rules)

    def found(self):
        """All causes, those of most cases first."""
        failed = defaultdict(list)
        for trial in self.trials:
            if trial.failed:
                failed[trial.outcome.group].append(trial)
        causes = [cause for outcome, group in failed.items() for cause in self.of_outcome(outcome, group)]
        return sorted(causes, key=lambda cause: -len(cause.trials))

    def of_outcome(self, outcome, failed):
        found = by_root(failed)
        groups = {}
        for (root, trials), words in zip(found.items(), self.words(outcome, list(found))):
            cause = groups.setdefault(words, Cause(outcome, words, [], []))
            cause.roots.append(root)
            cause.trials += trials
        return list(groups.values())

    def words(self, outcome, roots):
        """What each root's failure is laid to. Where a parser neither takes nor refuses, any part of a text may be
        why."""
        return self.pairs.words(roots) if outcome == "taken" else explained(roots, self.taken, self.features)
