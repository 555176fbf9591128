"""Parsers as commands: one is started for each text, in a process group of its own, with a time limit; and what its
status means."""

import os
import signal
import subprocess
import tempfile
from dataclasses import dataclass

# A shell's own statuses begin behind this one: 126 and 127 for a command that it can't run, 128 and a number for a
# signal.
LAST_PLAIN_STATUS = 125
CANT_RUN = (126, 127)
SHELL_SIGNALS = 128


@dataclass(frozen=True)
class Outcome:
    """What a parser did with a text: taken, refused, skipped or other. `told` says it in words, and `sort` without what
    may differ from one text to the next, as the bytes of an answer do."""

    kind: str
    told: str
    sort: str = ""

    @property
    def group(self):
        return self.sort or self.told


TAKEN, REFUSED, SKIPPED = (Outcome(word, word) for word in ("taken", "refused", "skipped"))


def other(told, sort=""):
    return Outcome("other", told, sort)


def too_slow(seconds):
    return other(f"too slow: above {seconds:g} seconds")


def signal_name(number):
    """The signal's number and name, or nothing where no signal has it."""
    return f"{number}, {signal.Signals(number).name}" if number in set(signal.Signals) else ""


def meanings(statuses):
    """The outcome of each status, by the statuses of each outcome; the last one counts."""
    return {status: outcome for outcome, found in statuses.items() for status in found}


class Statuses:
    """What the statuses of a parser mean. Each argument is a collection of statuses, or None for what is usual: 0 is
    taken, 77 is skipped, and every other one up to 125 is refused. A status that is named stands before a usual one."""

    def __init__(self, taken=None, refused=None, skipped=None):
        named = {REFUSED: refused, SKIPPED: skipped, TAKEN: taken}
        usual = {REFUSED: range(LAST_PLAIN_STATUS + 1), SKIPPED: [77], TAKEN: [0]}
        self.meanings = meanings({outcome: usual[outcome] for outcome in usual if named[outcome] is None})
        chosen = meanings({outcome: statuses for outcome, statuses in named.items() if statuses is not None})
        if len(chosen) < sum(len(statuses or ()) for statuses in named.values()):
            raise ValueError("a status has two meanings")
        self.meanings.update(chosen)

    def outcome(self, status):
        """The outcome of a status; one below 0 is a signal's, as subprocess tells it."""
        if status < 0:
            return other(f"died of signal {signal_name(-status) or -status}")
        if status in self.meanings:
            return self.meanings[status]
        died = signal_name(status - SHELL_SIGNALS)
        told = "a command that it can't run" if status in CANT_RUN else died and f"signal {died}"
        return other(f"ended with status {status}" + (f", as a shell tells {told}" if told else ""))


class Group:
    """A process with all that it starts, which are ended together. It has no terminal, so that it can't ask there."""

    running, is_over = set(), False

    def __init__(self, words, **streams):
        self.process = subprocess.Popen(words, start_new_session=True, **streams)
        Group.running.add(self)
        if Group.is_over:
            self.end()

    def wait(self, seconds):
        """The status of the process, or None where it takes longer. Then, as afterwards, nothing of the group is
        left."""
        try:
            return self.process.wait(seconds)
        except subprocess.TimeoutExpired:
            return None
        finally:
            self.end()

    def end(self):
        try:
            os.killpg(self.process.pid, signal.SIGKILL)
        except (ProcessLookupError, PermissionError):
            pass
        self.process.wait()
        Group.running.discard(self)

    @classmethod
    def end_all(cls):
        """Ends all groups, and those that begin from now on."""
        cls.is_over = True
        for group in list(cls.running):
            group.end()


class Alone:
    """A parser that is started for each text, which it gets on its standard input or in a file whose name stands for a
    word {}."""

    def __init__(self, command, seconds, statuses):
        self.command, self.seconds, self.statuses, self.notes = command, seconds, statuses, ()

    def ask(self, text, errors=subprocess.DEVNULL):
        """The outcome of a text. What the parser prints is thrown away, unless `errors` is a file for its error
        output."""
        with tempfile.TemporaryDirectory(ignore_cleanup_errors=True) as folder:
            path = os.path.join(folder, "text")
            with open(path, "wb") as file:
                file.write(text)
            words = [path if word == "{}" else word for word in self.command]
            with open(os.devnull if "{}" in self.command else path, "rb") as given:
                group = Group(words, stdin=given, stdout=subprocess.DEVNULL, stderr=errors)
            status = group.wait(self.seconds)
        return too_slow(self.seconds) if status is None else self.statuses.outcome(status)

    def close(self):
        """Nothing is left running behind a text."""
