"""Which manifests of the second format pass beside two files, and which line of another is the first with a fault.

A manifest is read line by line, each by the lines above alone. What it says of all trees is taken from its own closed lines, once
these are seen to be closed under the rules: no tree is looked for, and no table of trees is made. The end of the text counts as one
more line. A line has one of these faults, of several the first:

Form: it is none that may come there, or hasn't the number that is due. The closed lines are all there or all left out.
Head: it isn't the grammar's line, or a closed line names what isn't there.
Unclosed: it is the last closed line, and the sets aren't closed.
Derive: the rules derive no sentence from the start symbol.
Size: the case above hasn't the size of its tree, by the texts of the lexeme lines where bytes are weighed.
Yield: the tokens aren't those of the derivation, or of the edited base.
Scan: the text doesn't scan to the tokens.
Goal: it isn't the next goal of its criterion, a criterion is left or a base or the end comes before all its goals are there, or a
    case that is named isn't above, doesn't meet the goal or has another size.
Infeasible: the sets don't exclude the goal; without closed lines nothing is excluded.
Base: the base's goal isn't a feasible one above, or the negative's base isn't the last one.
Edit: the edit doesn't fit the base.
Pair: the pair doesn't stand at that place, or the sets don't exclude it.
Totals: a number isn't the count of the lines above.
"""

import re
from dataclasses import dataclass
from math import inf

from model.closed_sets import Sets
from model.texts import bytes_of, line, name_of
from model.trees import framed, goals, neighbours

MOST_BYTES = 67108864
CRITERIA = {"rule": "rule", "context": "cdrc", "pair": "pair"}
COUNTS = ("goals", "feasible", "infeasible", "large", "negatives", "cases")

N, NAME, NAMES = "(?:0|[1-9][0-9]*)", "[!-~]+", "((?: [!-~]+)*)"
# a byte is escaped where it has to be, and nowhere else
TEXT = r'"((?:[ !#-\[\]-~]|\\x(?:[01][0-9a-f]|22|5c|7f|[89a-f][0-9a-f]))*)"'
GOAL = f"(rule {N}|context {N} {N} {N}|pair {NAME} {NAME})"
EDIT = f"(delete {N}|insert {N} {NAME}|replace {N} {NAME}|swap {N})"
FORMS = {
    "opening": "conform 2 suite",
    "weigh": "weigh (nodes|bytes)",
    "token": f"token (?P<number>{N}) (?P<told>{NAME})",
    "rule": f"rule (?P<number>{N}) (?P<told>{NAME} :{NAMES})",
    "lexeme": f"lexeme (?P<told>{NAME}) (?:none|{TEXT})",
    **{kind: f"closed {kind}{NAMES}" for kind in ("productive", "reachable", "empty")},
    **{kind: f"closed {kind} ({NAME}) :{NAMES}" for kind in ("first", "last", "next")},
    "case": f"case ({N}) size ({N})",
    "derive": f"  derive((?: {N})*)",
    "tokens": f"  tokens{NAMES}",
    "text": f"  (?:text {TEXT}|no text lexeme {NAME}|no text scan {N})",
    "goal": f"goal ({N}) {GOAL} (?:(infeasible|large)|size ({N}) case ({N}) first ({N}))",
    "base": f"base ({N}) goal ({N})",
    "negative": f"negative ({N}) base ({N}) {EDIT} pair ({NAME}) ({NAME}) at ({N})",
    "end": "end " + " ".join(f"{name} ({N})" for name in COUNTS),
}
FORMS = {kind: re.compile(form) for kind, form in FORMS.items()}
# What may come behind a line that isn't of the head. The tokens and the text are those of a case or of a negative.
BEHIND_GOALS = {"case": "case", "goal": "goal", "base": "base", "end": "end"}
BEHIND_BASES = {"negative": "negative", "base": "base", "end": "end"}
PARTS = {
    "head": BEHIND_GOALS,
    "case": {"derive": "derivation"},
    "derivation": {"tokens": "case tokens"},
    "case tokens": {"text": "case text"},
    "case text": {"goal": "goal"},
    "goal": BEHIND_GOALS,
    "base": BEHIND_BASES,
    "negative": {"tokens": "negative tokens"},
    "negative tokens": {"text": "negative text"},
    "negative text": BEHIND_BASES,
    "end": {},
}
ESCAPE = re.compile(r"\\x(..)")


def value(numeral):
    """The number that digits tell; of very many it is enough that nothing is as large."""
    return int(numeral) if len(numeral) < 20 else inf


def unquoted(text):
    return ESCAPE.sub(lambda found: chr(int(found[1], 16)), text).encode("latin-1")


@dataclass
class Derived:
    """What rule numbers derive from the start symbol: how many nodes have rules, the tokens, and the goals that are met."""

    nodes: int
    tokens: list
    met: set


def derived(grammar, numerals):
    """The leftmost derivation by rules of these numbers, or None where they aren't one."""
    waiting, tokens, met = [(grammar.start, None)], [], set()
    numbers, lefts = iter(numerals), {*grammar.nonterminals}
    while waiting:
        symbol, above = waiting.pop()
        if symbol not in lefts:
            tokens.append(symbol)
            continue
        number = value(next(numbers, "0"))
        if not 0 < number <= len(grammar.rules) or grammar.rules[number - 1][0] != symbol:
            return None
        met.update({f"rule {number}", above and f"{above} {number}"} - {None})
        body = grammar.rules[number - 1][1]
        waiting += reversed([(each, f"context {number} {place}") for place, each in enumerate(body, 1)])
    if next(numbers, None) is not None:
        return None
    met.update(line("pair", *map(name_of, pair)) for pair in neighbours(tokens))
    return Derived(len(numerals), tokens, met)


def edited(tokens, words, named):
    """The list that the words of an edit make, or None where it doesn't fit; `named` has the tokens by their names."""
    kind, place, token = words[0], value(words[1]), named.get(words[-1])
    if kind == "insert":
        return tokens[:place] + [token] + tokens[place:] if place <= len(tokens) and token else None
    if place + (kind == "swap") >= len(tokens):
        return None
    if kind == "replace":
        return tokens[:place] + [token] + tokens[place + 1 :] if token else None
    if kind == "delete":
        return tokens[:place] + tokens[place + 1 :]
    return tokens[:place] + [tokens[place + 1], tokens[place]] + tokens[place + 2 :]


class Check:
    """A manifest beside a grammar and a scanner, as far as it is read: what its lines say that others lean on."""

    def __init__(self, grammar, scanner):
        self.grammar, self.scanner, self.sets = grammar, scanner, Sets(grammar)
        self.tables = [*tables(grammar)]
        chosen = {kind: goals(grammar, [name]) for kind, name in CRITERIA.items()}
        self.lists = {kind: [line(*map(word_of, goal.words())) for goal in some] for kind, some in chosen.items()}
        self.read, self.part, self.weigh, self.lexemes = 0, "head", "nodes", []
        # the sizes of cases and what they derive; the criterion of each goal, and the cases of feasible ones by their numbers
        self.sizes, self.cases, self.criteria, self.cases_of = [], [], [], {}
        # the tokens of the last case or negative, and of the last base
        self.told, self.base = None, None
        self.counts, self.bases = dict.fromkeys((*COUNTS, *CRITERIA), 0), 0

    def fault(self, text):
        """The lowest fault of the next line, or None."""
        place, self.read = self.read, self.read + 1
        if place < len(self.tables):
            return self.table_fault(*self.tables[place], text)
        if self.is_claim(place - len(self.tables), text):
            return self.claim_fault(text)
        for kind, part in PARTS[self.part].items():
            if found := FORMS[kind].fullmatch(text):
                self.part = part
                return getattr(self, f"{kind}_fault")(*found.groups())
        return "Form"

    # The head

    def table_fault(self, kind, number, told, text):
        found = FORMS[kind].fullmatch(text)
        parts = found.groupdict() if found else {}
        if not found or parts.get("number") != number:
            return "Form"
        if kind == "weigh":
            self.weigh = found[1]
        if kind == "lexeme":
            self.lexemes.append(None if found[2] is None else unquoted(found[2]))
        return "Head" if parts.get("told") != told else None

    def is_claim(self, place, text):
        """Whether a closed line is due at this place behind the tables: all or none of them are there."""
        is_next = place == len(self.sets.lines) < len(self.sets.due)
        return is_next and (place > 0 or FORMS["productive"].fullmatch(text))

    def claim_fault(self, text):
        found = FORMS[self.sets.due[len(self.sets.lines)][0]].fullmatch(text)
        if not found:
            return "Form"
        if not self.sets.add(found):
            return "Head"
        return None if len(self.sets.lines) < len(self.sets.due) or self.sets.are_closed() else "Unclosed"

    # Cases and goals

    def case_fault(self, number, size):
        self.sizes.append(size)
        return None if number == str(len(self.sizes)) else "Form"

    def derive_fault(self, numerals):
        found = derived(self.grammar, numerals.split())
        if not found:
            return "Derive"
        self.cases.append(found)
        self.told = found.tokens
        weights = {token: self.weight(text) for token, text in zip(self.grammar.tokens, self.lexemes)}
        return None if self.sizes[-1] == str(found.nodes + sum(weights[token] for token in found.tokens)) else "Size"

    def weight(self, text):
        if self.weigh == "nodes":
            return 1
        return 5000 if text is None else min(1 + 16 * len(text), 1000000)

    def tokens_fault(self, names):
        return None if names.split() == [*map(name_of, self.told)] else "Yield"

    def text_fault(self, text):
        if text is None:
            return None
        text = unquoted(text)
        return None if self.scanner.scan(text) == (self.told, len(text)) else "Scan"

    def goal_fault(self, number, words, verdict, size, case, first):
        if number != str(len(self.criteria) + 1):
            return "Form"
        kind = words.split()[0]
        if not self.is_due(kind, words) or not (verdict or self.is_shown(words, size, case, first)):
            return "Goal"
        if verdict == "infeasible" and not self.sets.exclude(words.split()):
            return "Infeasible"
        self.criteria.append(kind)
        if not verdict:
            self.cases_of[number] = self.cases[int(case) - 1]
        for counted in ("goals", verdict or "feasible", kind):
            self.counts[counted] += 1
        return None

    def is_finished(self):
        """Whether the list of the last goal is at its end."""
        return not self.criteria or self.counts[self.criteria[-1]] == len(self.lists[self.criteria[-1]])

    def is_due(self, kind, words):
        last, kinds = self.criteria[-1:], [*CRITERIA]
        if last and kind != last[0] and not (self.is_finished() and kinds.index(kind) > kinds.index(last[0])):
            return False
        return words in self.lists[kind][self.counts[kind] : self.counts[kind] + 1]

    def is_shown(self, words, size, case, first):
        places = [value(number) - 1 for number in (case, first)]
        are_there = all(0 <= place < len(self.cases) for place in places)
        return are_there and self.sizes[places[0]] == size and all(words in self.cases[place].met for place in places)

    # Bases, negatives and the end

    def base_fault(self, number, goal):
        self.bases += 1
        if number != str(self.bases):
            return "Form"
        if not self.is_finished():
            return "Goal"
        self.base = self.cases_of[goal].tokens if goal in self.cases_of else None
        return "Base" if self.base is None else None

    def negative_fault(self, number, base, edit, left, right, at):
        self.counts["negatives"] += 1
        if number != str(self.counts["negatives"]):
            return "Form"
        if base != str(self.bases):
            return "Base"
        self.told = edited(self.base, edit.split(), self.sets.named)
        if self.told is None:
            return "Edit"
        marks, place = [*map(word_of, framed(self.told))], value(at)
        stands = place + 1 < len(marks) and marks[place : place + 2] == [left, right]
        return None if stands and self.sets.exclude(["pair", left, right]) else "Pair"

    def end_fault(self, *numbers):
        self.counts["cases"] = len(self.cases)
        if not self.is_finished():
            return "Goal"
        return None if [*numbers] == [str(self.counts[name]) for name in COUNTS] else "Totals"


def word_of(word):
    """A word of a goal as it is written: a mark by its name."""
    return name_of(word) if isinstance(word, str) else word


def tables(grammar):
    """The lines of the head before the closed ones: the kind of each, its running number and what it names, where it has these."""
    yield from (("opening", None, None), ("weigh", None, None))
    for number, token in enumerate(grammar.tokens, 1):
        yield "token", str(number), name_of(token)
    for number, (left, body) in enumerate(grammar.rules, 1):
        yield "rule", str(number), line(left, ":", *map(name_of, body))
    for token in grammar.tokens:
        yield "lexeme", None, name_of(token)


def checked(grammar, scanner, manifest):
    """The status, the output and the error output of `check` on the bytes of a manifest."""
    if len(manifest) > MOST_BYTES:
        return 1, b"", bytes_of([f"conform: manifest: Length above {MOST_BYTES}"])
    check = Check(grammar, scanner)
    *lines, behind = manifest.decode("latin-1").split("\n")
    for number, text in enumerate(lines, 1):
        if fault := check.fault(text):
            return 6, bytes_of([f"no line {number}: {fault}"]), b""
    if behind or check.part != "end":
        return 6, bytes_of([f"no line {len(lines) + 1}: Form"]), b""
    return 0, bytes_of([line("yes goals", check.counts["goals"], "negatives", check.counts["negatives"])]), b""
