"""Makes the outputs that are tried, by the program's commands: those that the program has, with the options that it
knows."""

import os
import re
import signal
import subprocess
import sys
from concurrent.futures import ThreadPoolExecutor

import bison_plain
import hints

HERE = os.path.dirname(os.path.abspath(__file__))
USAGE = 2
# What `suite` needs has no limit; without one of the other outputs there is less to try.
SECONDS_BESIDE = 10
# So many texts or fewer are chosen from fewer negatives.
FEW_TEXTS = 2_000


class NotMade(Exception):
    """The files are refused, or an output can't be made."""


def commands(limit):
    """The commands, and for each the lists of options that are tried until the program knows one."""
    few = limit <= FEW_TEXTS
    return {
        "suite": [["--bases=1000", "--first=10" if few else "--first=20"], []],
        "wrong": [[]],
        "deep": [["--mutate=delete", "--bases=1000"] if few else []],
        "spell": [[]],
    }


def ran(words, path=os.devnull, seconds=None):
    """The status and the error output of a command whose output goes to a file. The status is None where it takes too
    long."""
    with open(path, "wb") as file:
        try:
            done = subprocess.run(words, stdin=subprocess.DEVNULL, stdout=file, stderr=subprocess.PIPE, timeout=seconds)
        except subprocess.TimeoutExpired:
            return None, ""
    if done.returncode == -signal.SIGINT:
        raise KeyboardInterrupt
    return done.returncode, done.stderr.decode("utf-8", "replace").strip()


def text_of(path):
    with open(path, "rb") as file:
        return file.read()


class Maker:
    """Makes the outputs of a grammar and a scanner in a folder. `tell` gets each line for people."""

    def __init__(self, program, grammar, scanner, folder, tell):
        self.program, self.grammar, self.scanner, self.folder, self.tell = program, grammar, scanner, folder, tell
        self.given = grammar

    def path(self, name):
        return os.path.join(self.folder, name)

    def make_plain(self):
        """Writes a grammar that isn't in the profile anew, or that has a token for the end of the text, where
        tools/from_bison can; a refused scanner is told later."""
        status, said = ran([self.program, "rules", self.grammar])
        has_ends = status == 0 and bison_plain.has_ends(text_of(self.grammar))
        if status != 1 and not has_ends:
            return
        if hints.is_antlr(text_of(self.grammar)):
            self.refuse(["rules", self.grammar])
        plain = self.path("grammar.y")
        converted, why = ran([sys.executable, os.path.join(HERE, "from_bison"), self.grammar], plain)
        if converted and has_ends:
            raise NotMade(why)
        if converted:
            self.refuse(["rules", self.grammar], why)
        reason = "has a token with the number 0, the end of the text" if has_ends else f"isn't read as it is ({said})"
        self.tell(f"{self.grammar} {reason}: what is tried is what tools/from_bison makes of it")
        self.grammar = plain

    def refuse(self, words, more=""):
        """Ends with the program's own line, what it means, and what else is known. What is said of a grammar that was
        written anew is said of the given one, whose lines it has."""
        status, said = ran([sys.executable, os.path.join(HERE, "explain"), self.program, *words])
        said = said.replace(self.grammar, self.given)
        raise NotMade("\n".join(filter(None, [said, more])) or f"{self.program} {words[0]} ended with status {status}")

    def make(self, name, choices, more):
        """The path of an output; None where the program hasn't the command, or takes too long for one that can be
        missed."""
        path, seconds = self.path(name), None if name == "suite" else SECONDS_BESIDE
        for options in choices:
            words = [name, self.grammar, self.scanner, *options, *more]
            status, said = ran([self.program, *words], path, seconds)
            if status == 0:
                return path
            os.remove(path)
            if status is None:
                self.tell(f"without `{' '.join(words)}`, which takes more than {SECONDS_BESIDE} seconds")
                return None
            if status != USAGE:
                break
        if name != "suite" and re.fullmatch(r"conform: usage: word 0", said):
            return None
        return self.refuse(words)

    def outputs(self, limit, more):
        """The paths of the outputs of which so many texts are to be tried, all made with some more options."""
        self.make_plain()
        with ThreadPoolExecutor() as pool:
            made = [pool.submit(self.make, name, choices, more) for name, choices in commands(limit).items()]
        return [path for path in (output.result() for output in made) if path]
