"""Manifests of conform, read whole: goals with their derivations, bases and negatives, in both formats."""

import re
from dataclasses import dataclass, field

ESCAPE = re.compile(r"\\x([0-9a-f]{2})")
GOAL = r"(rule (?:\d+)|context (?:\d+) (?:\d+) (?:\d+)|pair (?:\S+) (?:\S+))"
EDIT = r"(delete (?:\d+)|insert (?:\d+) (?:\S+)|replace (?:\d+) (?:\S+)|swap (?:\d+))"


class Damaged(Exception):
    """A line that a manifest can't have at its place."""


class CutShort(Damaged):
    """The manifest has no last line: the run that wrote it ended early."""


@dataclass
class Sentence:
    """A list of tokens with its text, or why it has none: the words of the line behind `no text`."""

    tokens: list
    text: bytes = None
    why: str = None


@dataclass
class Case:
    """A derivation, as the numbers of its rules, and the sentence that it yields."""

    number: int
    size: int
    derivation: list
    sentence: Sentence


@dataclass
class Goal:
    """What is asked for, in the manifest's words. The verdict is feasible, infeasible or large; a feasible goal has a case."""

    number: int
    words: list
    verdict: str
    size: int = None
    case: Case = None

    @property
    def kind(self):
        return self.words[0]


@dataclass
class Negative:
    """An edit of a base, the pair of neighbours that no sentence has, and its place from 0 in the list with both its ends."""

    number: int
    base: int
    edit: list
    pair: tuple
    at: int
    sentence: Sentence

    @property
    def kind(self):
        return self.edit[0]


@dataclass
class Manifest:
    version: int
    form: str
    tokens: list = field(default_factory=list)
    rules: list = field(default_factory=list)
    lexemes: dict = field(default_factory=dict)
    cases: list = field(default_factory=list)
    goals: list = field(default_factory=list)
    bases: list = field(default_factory=list)
    negatives: list = field(default_factory=list)
    # of the second format: the marks that may stand behind each mark
    behind: dict = field(default_factory=dict)


def unquoted(word):
    """The bytes of a text between double quotes."""
    return ESCAPE.sub(lambda found: chr(int(found[1], 16)), word).encode("latin-1")


class Lines:
    """The lines of a manifest, one after another."""

    def __init__(self, text):
        self.lines = text.split("\n")
        self.whole = self.lines.pop() == "" and bool(self.lines) and self.lines[-1].startswith("end ")
        self.at = 0

    def next(self, pattern):
        """The groups of the next line, where it is of this form; else nothing, and it comes again."""
        found = re.fullmatch(pattern, self.lines[self.at]) if self.at < len(self.lines) else None
        self.at += found is not None
        return found

    def need(self, pattern):
        return self.next(pattern) or self.refuse()

    def refuse(self):
        raise Damaged(f"line {self.at + 1} isn't one that a manifest has there")


def read(path):
    """The manifest in a file. A manifest without its last line is cut short, and not read in part."""
    with open(path, encoding="latin-1", newline="") as file:
        return of_text(file.read())


def of_text(text):
    """The manifest that these characters are, one for each byte."""
    lines = Lines(text)
    found = lines.need(r"conform ([12]) (suite|rules)")
    if not lines.whole:
        raise CutShort("the manifest has no last line: the run that wrote it ended early")
    manifest = Manifest(int(found[1]), found[2])
    read_head(lines, manifest)
    read_goals(lines, manifest)
    read_bases(lines, manifest)
    read_end(lines, manifest)
    return manifest


def read_head(lines, manifest):
    if manifest.version == 2:
        lines.need(r"weigh (?:nodes|bytes)")
    while found := lines.next(r"token (\d+) (\S+)"):
        manifest.tokens.append(found[2])
    while found := lines.next(r"rule (\d+) (\S+) :((?: \S+)*)"):
        manifest.rules.append((found[2], found[3].split()))
    while found := lines.next(r'lexeme (\S+) (none|"(.*)")'):
        manifest.lexemes[found[1]] = None if found[2] == "none" else unquoted(found[3])
    while found := lines.next(r"closed (?:next (\S+) :)?(.*)"):
        if found[1]:
            manifest.behind[found[1]] = set(found[2].split())


def read_goals(lines, manifest):
    while True:
        case = read_case(lines, manifest) if manifest.version == 2 else None
        found = lines.next(rf"goal (\d+) {GOAL} (infeasible|large|size (\d+)(?: case (\d+) first \d+)?)")
        if not found:
            return lines.refuse() if case else None
        goal = Goal(int(found[1]), found[2].split(), "feasible" if found[4] else found[3])
        if found[4]:
            goal.size = int(found[4])
            goal.case = named_case(lines, manifest, int(found[5])) if found[5] else read_derivation(lines, manifest, goal)
        manifest.goals.append(goal)


def read_case(lines, manifest):
    found = lines.next(r"case (\d+) size (\d+)")
    if found:
        manifest.cases.append(Case(int(found[1]), int(found[2]), read_rules(lines), read_sentence(lines, manifest)))
    return found


def named_case(lines, manifest, number):
    return manifest.cases[number - 1] if 0 < number <= len(manifest.cases) else lines.refuse()


def read_derivation(lines, manifest, goal):
    """A goal of the first format has a case of its own."""
    case = Case(goal.number, goal.size, read_rules(lines), read_sentence(lines, manifest))
    manifest.cases.append(case)
    return case


def read_rules(lines):
    return [int(number) for number in lines.need(r"  derive((?: \d+)*)")[1].split()]


def read_sentence(lines, manifest):
    sentence = Sentence(lines.need(r"  tokens((?: \S+)*)")[1].split())
    if manifest.form == "suite":
        found = lines.need(r'  (?:text "(.*)"|no text (.*))')
        sentence.text = None if found[1] is None else unquoted(found[1])
        sentence.why = found[2]
    return sentence


def read_bases(lines, manifest):
    while True:
        if found := lines.next(r"base (\d+) goal (\d+)"):
            manifest.bases.append(int(found[2]))
        elif found := lines.next(rf"negative (\d+) base (\d+) {EDIT} pair (\S+) (\S+) at (\d+)"):
            number, base, at = int(found[1]), int(found[2]), int(found[6])
            sentence = read_sentence(lines, manifest)
            manifest.negatives.append(Negative(number, base, found[3].split(), (found[4], found[5]), at, sentence))
        else:
            return


def read_end(lines, manifest):
    found = lines.need(r"end goals (\d+) feasible (\d+) infeasible (\d+) large (\d+) negatives (\d+)(?: cases \d+)?")
    verdicts = [goal.verdict for goal in manifest.goals]
    counts = [len(verdicts), *(verdicts.count(verdict) for verdict in ("feasible", "infeasible", "large"))]
    if [int(number) for number in found.groups()] != [*counts, len(manifest.negatives)]:
        raise Damaged("the last line doesn't count the lines before it")
