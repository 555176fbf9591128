"""What parsers did, as tables: known departures with their shortest texts, and a language's page of results."""

import datetime
import functools
import html
import os
import platform
from dataclasses import dataclass, field, replace

import known
import outputs as written
import results
from running import Outcome

# How bytes are shown in a cell, and marks that mean something there.
ESCAPES = {10: "\\n", 9: "\\t"}
MARKS = {ord(mark): f"&#{ord(mark)};" for mark in "|*`"}
KINDS = ("departure", "extension", "narrowing", "version", "unsure")


class Unread(Exception):
    """A reason in a file of known departures that isn't `KIND; WHERE; WHAT`."""


@dataclass
class Cause:
    """Why some cases depart: its kind, the place in the standard, what the parser does, and the trials."""

    kind: str
    where: str
    what: str
    trials: list = field(default_factory=list)

    @property
    def shortest(self):
        return min(self.trials, key=lambda trial: (len(trial.text), len(trial.tokens), trial.text))

    def rank(self):
        return KINDS.index(self.kind), len(self.shortest.text), self.shortest.text


@dataclass
class Row:
    """A parser that was tried: its version, how many goals and negatives it got, its causes, how many cases have none,
    and the known departures that it hasn't.
    """

    name: str
    version: str
    goals: int
    negatives: int
    causes: list
    strangers: int
    stale: list

    def count(self, kind):
        return sum(cause.kind == kind for cause in self.causes)

    def told(self):
        parts = [f"{self.count(kind)} {kind}" for kind in KINDS if self.count(kind)]
        parts += [f"{self.strangers} cases without a cause"] if self.strangers else []
        parts += [f"no case for `{line}`" for line in self.stale]
        tried = f"{self.name} {self.version}: {self.goals} goals, {self.negatives} negatives"
        return f"{tried}; causes: {', '.join(parts) or 'none'}"


def cause_of(reason):
    parts = [part.strip() for part in reason.split(";", 2)]
    if len(parts) != 3 or parts[0] not in KINDS:
        raise Unread(f"a reason isn't `KIND; WHERE; WHAT`: {reason}")
    return Cause(*parts)


@functools.cache
def trials_in(path):
    return {trial.name: trial for trial in written.read(path).trials}


def cases_of(parser, output):
    """The trials of an output with a parser's outcomes and why these are known, and the known lines that are stale."""
    path = parser.known_of(output.suite)
    lines = known.read(path) if os.path.exists(path) else known.Known()
    trials, cases = trials_in(output.path), []
    for case in results.read(output.results_of(parser))["cases"]:
        trial = replace(trials[case["name"]], outcome=Outcome(case["outcome"], case["told"]))
        trial.known = lines.reason(trial)
        cases.append(trial)
    return cases, lines.stale([])


def has_results(parser, outputs):
    """Whether there are results of these very outputs."""
    try:
        return all(results.of_output(results.read(output.results_of(parser)), output.path) == 0 for output in outputs)
    except (OSError, results.Strange):
        return False


def row_of(parser, version, outputs):
    """The row of a parser, read from its files of results and of known departures."""
    cases, stale, causes = [], [], {}
    for output in outputs:
        found, lines = cases_of(parser, output)
        cases += found
        stale += lines
    for trial in cases:
        if trial.known:
            causes.setdefault(trial.known, cause_of(trial.known)).trials.append(trial)
    goals, strangers = sum(trial.positive for trial in cases), sum(trial.failed for trial in cases)
    ordered = sorted(causes.values(), key=Cause.rank)
    return Row(parser.name, version, goals, len(cases) - goals, ordered, strangers, [line.text for line in stale])


def printed(text):
    """A text as a cell of a table may have it."""
    plain = "".join(chr(byte) if 0x20 <= byte < 0x7F else ESCAPES.get(byte, f"\\x{byte:02x}") for byte in text)
    return f"<code>{escaped(plain)}</code>"


def escaped(words):
    return html.escape(words, quote=False).translate(MARKS)


def table(head, rows):
    yield "| " + " | ".join(head) + " |"
    yield "|" + "---|" * len(head)
    for row in rows:
        yield "| " + " | ".join(str(cell) for cell in row) + " |"
    yield ""


def suite_rows(outputs):
    for output in outputs:
        with open(output.path, encoding="latin-1") as file:
            last = file.read().splitlines()[-1].split()
        counts = dict(zip(last[1::2], last[2::2]))
        yield output.suite.name, counts["goals"], counts["feasible"], counts["negatives"]


def cells_of(cause):
    text, told = cause.shortest.text, cause.shortest.outcome.told
    return cause.kind, printed(text), *map(escaped, (told, cause.where, cause.what)), len(cause.trials)


def parser_lines(row):
    yield f"## {row.name}"
    yield ""
    if not row.causes:
        yield "It took each sentence and refused each negative."
        yield ""
        return
    head = ("Kind", "Shortest text", "It was", "Standard", "What the parser does", "Cases")
    yield from table(head, map(cells_of, row.causes))


def page(language, outputs, rows):
    """A language's page of results."""
    day = datetime.date.today().isoformat()
    lines = [f"# {language.title}", ""]
    lines += [f"The standard is {language.standard}. `gallery/README.md` says what the kinds mean.", language.note]
    lines += [f"Written by `gallery/run` on {day}, of runs on one machine ({platform.machine()}).", ""]
    lines += table(("Suite", "Goals", "With a sentence", "Negatives"), suite_rows(outputs))
    head = ("Parser", "Version", "Goals", "Negatives", *(f"{kind.capitalize()}s" for kind in KINDS[:4]), "Unsure")
    lines += table(head, ((row.name, row.version, row.goals, row.negatives, *map(row.count, KINDS)) for row in rows))
    for row in rows:
        lines += parser_lines(row)
    return "\n".join(lines)
