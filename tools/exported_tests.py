"""Gives each text of this folder to a parser, by index.tsv: `pytest FOLDER`, or `python3 -m unittest discover FOLDER`.

In the command {} stands for the file with a text, which without that comes on standard input.
"""

import csv
import os
import signal
import subprocess
import unittest

COMMAND = []
# Statuses: what takes a text, and what says that it can't be tried; every other one up to the last of a program refuses it.
TAKEN, SKIPPED, LAST = 0, 77, 125
SECONDS = 10
FOLDER = os.path.dirname(os.path.abspath(__file__))


def status_of(path):
    """The status of the parser on a text; None where it took too long, and then all that it started is ended."""
    words = [path if word == "{}" else word for word in COMMAND]
    with open(os.devnull if "{}" in COMMAND else path, "rb") as given:
        quiet = {"stdout": subprocess.DEVNULL, "stderr": subprocess.DEVNULL}
        child = subprocess.Popen(words, stdin=given, **quiet, start_new_session=True)
    try:
        return child.wait(SECONDS)
    except subprocess.TimeoutExpired:
        os.killpg(child.pid, signal.SIGKILL)
        child.wait()
        return None


def outcome_of(status):
    if status == TAKEN:
        return "taken"
    return "refused" if status is not None and 0 < status <= LAST else f"neither, by its status {status}"


def trial_of(path, cases):
    """A test's method. Its failure tells what stands in the text, and pytest leaves these lines out of it."""
    wanted = cases[0]["wanted"]
    told = "".join(f"\n{case['name']}\n  tokens: {case['tokens']}" for case in cases)

    def trial(self):
        __tracebackhide__ = True
        status = status_of(path)
        if status == SKIPPED:
            self.skipTest("the parser can't try it")
        outcome = outcome_of(status)
        if outcome != wanted:
            raise self.failureException(f"wanted: {wanted}; the parser: {outcome}{told}")

    return trial


def trials_by_file():
    found = {}
    with open(os.path.join(FOLDER, "index.tsv"), encoding="utf-8", newline="") as file:
        for case in csv.DictReader(file, delimiter="\t", quoting=csv.QUOTE_NONE):
            found.setdefault(case["file"], []).append(case)
    names = {name: f"test_{os.path.splitext(name)[0]}" for name in found}
    return {names[name]: trial_of(os.path.join(FOLDER, name), cases) for name, cases in found.items()}


TestTexts = type("TestTexts", (unittest.TestCase,), trials_by_file())

if __name__ == "__main__":
    unittest.main()
