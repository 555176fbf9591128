"""Trials: texts for a parser, each with what it comes from; which of them are tried, and in which order."""

from collections import defaultdict
from collections.abc import Callable
from dataclasses import dataclass, field
from random import Random

from running import Outcome

POSITIVE_KINDS = ("rule", "context", "pair", "spelling", "chain")
# Edits in the order of their rounds.
EDITS = ("delete", "swap", "replace", "insert")
KINDS = ("rule", "context", "pair", "delete", "insert", "replace", "swap", "wrong", "deep", "spelling", "chain")


@dataclass(eq=False)
class Trial:
    """A case of an output: its name there, its tokens and text, and what a parser did with it."""

    name: str
    kind: str
    tokens: list
    text: bytes
    # why there is no text: the words of the output behind `no text`
    why: str = None
    # the output that it stands in, from 0
    output: int = 0
    # of a positive: its rules from the left, and where these stand
    derivation: list = field(default_factory=list)
    # of a negative: the pair that no sentence has, the place of its left one in the framed list, and the words of the
    # edit or slip
    pair: tuple = None
    at: int = None
    edit: list = None
    # a function that says of a pair whether it stands side by side in no sentence
    is_forbidden: Callable = None
    outcome: Outcome = None
    # the reason in a file of known departures
    known: str = None

    @property
    def positive(self):
        return self.kind in POSITIVE_KINDS

    @property
    def wanted(self):
        return "taken" if self.positive else "refused"

    @property
    def departs(self):
        """Whether the parser did something else with it than is wanted."""
        return self.outcome is not None and self.outcome.kind not in (self.wanted, "skipped")

    @property
    def failed(self):
        return self.departs and self.known is None

    @property
    def is_taken_positive(self):
        return self.positive and self.outcome is not None and self.outcome.kind == "taken"

    @property
    def has_one_forbidden_pair(self):
        return sum(map(self.is_forbidden, zip(["<begin>", *self.tokens], [*self.tokens, "<end>"]))) == 1


def by_text(trials):
    """The trials of each different text."""
    texts = defaultdict(list)
    for trial in trials:
        texts[trial.text].append(trial)
    return texts


def rank(trial):
    """The place of a trial's kind in the order of trials."""
    if trial.kind == "wrong":
        return 1 if "drop" in trial.edit else 3
    if trial.kind == "deep":
        return 6 if trial.edit[0] == "delete" else 9
    if trial.kind in POSITIVE_KINDS:
        return {"rule": 0, "context": 2, "spelling": 4, "pair": 7, "chain": 8}[trial.kind]
    return 5 if trial.has_one_forbidden_pair else 10


def in_rounds(trials, marks):
    """Negatives in rounds: in each round the next one of each kind of edit and left mark of the pair."""
    queues = defaultdict(list)
    for trial in trials:
        queues[EDITS.index(trial.kind), marks.get(trial.pair[0], len(marks))].append(trial)
    rounds = [(place, key, trial) for key, queue in queues.items() for place, trial in enumerate(queue)]
    return [trial for _, _, trial in sorted(rounds, key=lambda row: row[:2])]


def in_order(trials, tokens):
    """Trials with those first that tell most: the order of trials in docs/GUIDE.md."""
    marks = {mark: place for place, mark in enumerate(["<begin>", *tokens])}
    ranks = defaultdict(list)
    for trial in trials:
        ranks[rank(trial)].append(trial)
    ranks[5] = in_rounds(ranks[5], marks)
    return [trial for place in sorted(ranks) for trial in ranks[place]]


def of_kinds(trials, only, kinds):
    """Those that are positive or negative, as `only` says, and of one of the kinds; None chooses all."""
    wanted = {"positive": True, "negative": False}.get(only)
    return [trial for trial in trials if wanted in (None, trial.positive) and (not kinds or trial.kind in kinds)]


def of_texts(trials, texts):
    return [trial for trial in trials if trial.text in texts]


def sample(trials, count, seed):
    """The trials of so many texts, drawn by a number, in the order in which they stand."""
    texts = list(by_text(trials))
    return of_texts(trials, set(Random(seed).sample(texts, min(count, len(texts)))))


def first_that_tell(trials, tokens, count):
    """The trials of the first texts in the order of trials, in that order."""
    ordered = in_order(trials, tokens)
    return of_texts(ordered, set(list(by_text(ordered))[:count]))
