"""Tries the trials of some outputs on a parser and tells of it, as try_parser and try_grammar do."""

import os
import random
import signal
import sys
import tempfile
from collections import Counter
from itertools import chain

import known
import options
import outputs as written
import reports
import results
from batch import NoAnswers, last_line
from causes import Causes
from options import BadCall
from progress import Line
from running import TAKEN, too_slow
from wording import cause_words, missing_words
from workers import Run

PASSED, FAILED, NOT_TRIED = 0, 1, 2
INTERRUPTED = 130
MOST_ASKED_AGAIN = 20
NAME = "try_parser"


def warn(told):
    print(f"{NAME}: {told}", file=sys.stderr)


def write_lines(lines):
    """Writes lines for a reader that may stop reading."""
    sys.stdout.reconfigure(errors="backslashreplace")
    try:
        for line in lines:
            print(line)
        sys.stdout.flush()
    except BrokenPipeError:
        os.dup2(os.open(os.devnull, os.O_WRONLY), sys.stdout.fileno())


def interrupt(*_):
    raise KeyboardInterrupt


class Session:
    """The outputs, what is asked for, and what is found: the trials with their outcomes, the causes, the lines that are
    stale."""

    def __init__(self, outputs, asked):
        self.outputs, self.asked = outputs, asked
        self.known = read_known(asked)
        self.make = options.parser_maker(asked)
        self.rules = next((output.rules for output in outputs if output.rules), [])
        self.tokens = next((output.tokens for output in outputs if output.tokens), [])
        self.every = [found for output in outputs for found in output.trials]
        self.without_text = [found for output in outputs for found in output.without_text]
        # those that are tried, in the order in which they are, and in that of the outputs
        self.ordered = options.chosen(self.every, self.tokens, asked)
        chosen = set(self.ordered)
        self.trials = [found for found in self.every if found in chosen]
        self.causes, self.warnings, self.interrupted = [], [], False
        self.line = Line(NAME)

    def told(self, cause):
        return cause_words(cause, self.rules)

    def run(self):
        run = Run(self.ordered, self.make, self.known.reason, self.asked)
        signal.signal(signal.SIGTERM, interrupt)
        with self.line:
            try:
                run.run(self.line)
                self.warnings = [*sorted(run.notes), *self.told_nothing()]
            except KeyboardInterrupt:
                self.interrupted = True
            except (OSError, NoAnswers) as error:
                raise BadCall(f"{self.asked.command[0]}: {getattr(error, 'strerror', None) or error}") from None

    def find_causes(self):
        """Finds the causes, and what the parser writes of the shortest texts of the first of them."""
        if self.warnings:
            return
        with self.line:
            try:
                self.line.tell("finding the causes of what failed")
                self.causes = Causes(self.trials, self.rules).found()
                for number, cause in enumerate([] if self.interrupted else self.causes[:MOST_ASKED_AGAIN], 1):
                    self.line.tell(f"asking the parser what it writes of cause {number}")
                    cause.wrote = self.wrote(cause)
            except KeyboardInterrupt:
                self.interrupted = True

    def told_nothing(self):
        """The warning where texts were tried that have to be taken and such that have to be refused, and the parser did
        the same with all of them; or where it skipped all."""
        ran = [found for found in self.trials if found.outcome]
        if self.without_text and not any(found.tokens for found in self.every):
            yield "no text holds a token: the scanner isn't the grammar's, or its actions aren't understood"
            return
        kinds = {found.outcome.kind for found in ran}
        if kinds != {"skipped"} and (len(kinds) != 1 or len({found.positive for found in ran}) != 2):
            return
        outcome = ran[0].outcome
        same = outcome.told if len({found.outcome for found in ran}) == 1 else "neither taken nor refused"
        said = self.error_line(self.trials[0])
        wrote = f" It wrote: {said}" if said else ""
        yield f"each text, to be taken or not: {same}. Is the parser there, and does it say what it did?{wrote}"

    def error_line(self, trial):
        """The last line of the error output of a parser that is started for the text again."""
        if self.asked.batch:
            return ""
        with tempfile.TemporaryFile() as errors:
            self.make().ask(trial.text, errors)
            errors.seek(0)
            return last_line(errors.read())

    def wrote(self, cause):
        """What the parser wrote of the shortest text of a cause, where that tells more than the cause does."""
        trial = cause.shortest
        if trial.outcome.told != cause.outcome:
            return trial.outcome.told
        # One that was too slow would take as long again.
        is_asked = trial.outcome not in (TAKEN, too_slow(self.asked.seconds))
        return self.error_line(trial) if is_asked else ""

    def stale(self):
        """The known departures that are none any more."""
        return [] if self.interrupted else self.known.stale([found for found in self.every if found.outcome is None])

    def status(self):
        if self.interrupted:
            return INTERRUPTED
        if self.warnings:
            return NOT_TRIED
        passed = all(found.outcome is not None and not found.failed for found in self.trials)
        return PASSED if passed and not self.stale() else FAILED

    def lines(self):
        yield from reports.case_lines(self.trials) if self.asked.all else ()
        yield from reports.table_lines(self.trials)
        yield from reports.cause_lines(self.causes, self.told)
        yield from reports.known_lines(self.trials)
        yield reports.end_line(self.trials, self.every, self.without_text, len(self.causes))

    def tell(self):
        write_lines(reports.tap_lines(self.trials) if self.asked.tap else self.lines())
        told = "matches no failed case any more"
        stale = (f"{self.asked.known}: line {line.number} {told}: {line.text}" for line in self.stale())
        interrupted = ["interrupted: what was found up to then is told"] if self.interrupted else []
        for warning in chain(interrupted, self.warnings, stale, self.told_missing()):
            warn(warning)

    def told_missing(self):
        """The tokens of which no text is known, where cases have none for that."""
        lacking = {found.why for found in self.without_text}
        names = [name for output in self.outputs for name, text in output.lexemes.items() if text is None]
        missing = [name for name in dict.fromkeys(names) if f"lexeme {name}" in lacking]
        if missing:
            yield missing_words(missing)

    def write(self):
        """Writes the files that are asked for."""
        if self.asked.junit:
            reports.write_junit(self.trials, self.asked.junit)
        if self.asked.write_known:
            taken = [found for found in self.trials if found.is_taken_positive]
            with open(self.asked.write_known, "x", encoding="utf-8") as file:
                file.writelines(line + "\n" for line in known.lines_of(self.causes, taken, self.told))
        if self.asked.results:
            results.write(self.asked.results, self.outputs, self.trials, self.causes, self.told, self.asked.command)


def read_known(asked):
    if asked.write_known and os.path.exists(asked.write_known):
        raise BadCall(f"{asked.write_known} is there already, and may hold what people wrote")
    if not asked.known:
        return known.Known()
    try:
        return known.read(asked.known)
    except (OSError, UnicodeDecodeError, known.BadLine) as error:
        raise BadCall(f"{asked.known}: {error}") from None


def name_apart(outputs):
    """Gives each trial its output, and a name with the output's path where another output has the form too."""
    forms = Counter(output.form for output in outputs)
    for number, found in ((number, found) for number, output in enumerate(outputs) for found in output.trials):
        found.output, output = number, outputs[number]
        if forms[output.form] > 1:
            found.name = f"{output.path}: {found.name}"


def try_outputs(outputs, asked):
    """Tries what the options choose, tells of it, and answers the status."""
    if asked.sample and asked.seed is None:
        asked.seed = random.randrange(1_000_000)
        warn(f"the sample is that of --seed {asked.seed}")
    written.lend_texts(outputs)
    name_apart(outputs)
    session = Session(outputs, asked)
    if not session.trials:
        raise BadCall(f"there is no case to try; {reports.textless(session.without_text)}")
    session.run()
    session.find_causes()
    session.tell()
    try:
        session.write()
    except OSError as error:
        raise BadCall(error) from None
    return session.status()
