"""Files of known departures: each line names failed cases by a regular expression over their tokens, and says why they
are so.

A line is `pos PATTERN # REASON` for positives that are refused, `neg PATTERN # REASON` for negatives that are taken, or
`other PATTERN # REASON` for cases of both kinds with which a parser does neither. The pattern is searched in the names
of the tokens with one space between them. Empty lines and those that begin with # say nothing.
"""

import re
from dataclasses import dataclass


class BadLine(Exception):
    """A line that isn't one of a known departure."""


def sign_of(trial):
    """The word for how a case departs, or would if it were refused or taken."""
    if trial.outcome and trial.outcome.kind == "other":
        return "other"
    return "pos" if trial.positive else "neg"


@dataclass
class Line:
    number: int
    text: str
    sign: str
    pattern: re.Pattern
    reason: str

    def matches(self, trial):
        """Whether it names this case; of one that wasn't tried nobody knows how it departs."""
        is_meant = self.sign == sign_of(trial) or (self.sign == "other" and trial.outcome is None)
        return is_meant and self.pattern.search(" ".join(trial.tokens)) is not None


class Known:
    """The lines of a file, and which of them a failed case has matched."""

    def __init__(self, lines=()):
        self.lines, self.used = list(lines), set()

    def reason(self, trial):
        """The reason of the first line that matches a case, or None. Each line that does is noted."""
        if not trial.departs:
            return None
        found = [line for line in self.lines if line.matches(trial)]
        self.used.update(line.number for line in found)
        return found[0].reason if found else None

    def stale(self, untried):
        """The lines that match no failed case, and none of those that weren't tried either."""
        unused = [line for line in self.lines if line.number not in self.used]
        return [line for line in unused if not any(line.matches(trial) for trial in untried)]


def line_of(number, text):
    """A line as it says it."""
    found = re.fullmatch(r"(pos|neg|other) (.*?) # (.*\S)\s*", text)
    if not found:
        raise BadLine(f"line {number} isn't `pos PATTERN # REASON`, `neg PATTERN # REASON` or `other PATTERN # REASON`")
    try:
        return Line(number, text.strip(), found[1], re.compile(found[2]), found[3])
    except re.error as error:
        raise BadLine(f"line {number}: its pattern isn't a regular expression: {error}") from None


def read(path):
    with open(path, encoding="utf-8") as file:
        rows = enumerate(file.read().splitlines(), 1)
    return Known(line_of(number, text) for number, text in rows if text.strip() and not text.startswith("#"))


def escaped(tokens):
    """A pattern of these tokens side by side. Only a name may stand within another name."""
    words = " ".join(re.sub(r"[.^$*+?{}\[\]\\|()]", r"\\\g<0>", token) for token in tokens)
    return r"\b" * bool(re.match(r"\w", words)) + words + r"\b" * bool(re.search(r"\w$", words))


def pattern_of_pair(left, right):
    """A pattern of two neighbours, which may be the ends of the text."""
    if left == "<begin>":
        return "^$" if right == "<end>" else "^" + escaped([right])
    return escaped([left]) + "$" if right == "<end>" else escaped([left, right])


def pattern_of_root(trial):
    """A pattern of what a case departs at: its pair, or its whole list within another one."""
    if trial.pair:
        return pattern_of_pair(*trial.pair)
    return escaped(trial.tokens) if trial.tokens else "^$"


def parts_of(trial, size):
    return {tuple(trial.tokens[place : place + size]) for place in range(len(trial.tokens) - size + 1)}


def shared_part(trials, taken):
    """A token or two neighbours that all of some cases have and none of those that were taken, or None."""
    for size in (1, 2):
        shared = set.intersection(*(parts_of(trial, size) for trial in trials))
        shared.difference_update(*(parts_of(trial, size) for trial in taken))
        if shared:
            return min(shared)
    return None


def pattern_of(cause, taken):
    """A pattern that finds each case of a cause, and as few others as a short one can."""
    part = None if all(root.pair for root in cause.roots) else shared_part(cause.trials, taken)
    return escaped(part) if part else "|".join(dict.fromkeys(map(pattern_of_root, cause.roots)))


def lines_of(causes, taken, told):
    """A line for each cause, with what `told` says of it as the reason. All cases of a cause depart in the same way."""
    for cause in causes:
        yield f"{sign_of(cause.trials[0])} {pattern_of(cause, taken)} # {told(cause)}"
