#!/usr/bin/env python3
"""Runs the program on the gallery's files, and JSON's suites on Python's json: gallery_runs.py [PROGRAM]. It prints the
rows that fail, and ends with status 1 where one did.

Each grammar and scanner of the gallery has to be accepted, and each token to have a text. Python's json has to take
each sentence and to refuse each negative, but for what its manual and RFC 8259 (section 8.1) let it take: NaN, Infinity, a
byte order mark.
"""

import os
import re
import subprocess
import sys
import tempfile

sys.dont_write_bytecode = True

TOP = os.path.dirname(os.path.dirname(os.path.abspath(__file__)))
sys.path.insert(0, os.path.join(TOP, "gallery"))
sys.path.insert(0, os.path.join(TOP, "tools"))

import known
import languages
import tables

PROGRAM = os.path.abspath(sys.argv[1]) if len(sys.argv) > 1 else os.path.join(TOP, "crates", "cs_cli", "out", "cs_cli")
TRY_PARSER = os.path.join(TOP, "tools", "try_parser")
FRAME = ["--", sys.executable, os.path.join(languages.FRAMES, "json_python.py"), "json"]
END = r"end goals \d+ feasible \d+ infeasible \d+ large 0 negatives \d+ cases \d+"


def made(language, suite, folder):
    """An output of the program in a file, and what it said where it failed."""
    path = os.path.join(folder, f"{language.key}.{suite.name}")
    with open(path, "wb") as file:
        words, folder = [PROGRAM, *suite.words], language.folder
        ran = subprocess.run(words, cwd=folder, stdout=file, stderr=subprocess.PIPE, timeout=300)
    return path, ran.stderr.decode() if ran.returncode else None


def suites(language, folder):
    """What is wrong with a language's suites: one is refused, a token or a case has no text, a goal is large."""
    for suite in language.suites:
        path, fault = made(language, suite, folder)
        if fault is not None:
            yield f"{language.key} {suite.name}: {fault}"
            continue
        with open(path, encoding="latin-1") as file:
            lines = file.read().splitlines()
        bad = [line for line in lines if re.fullmatch(r"lexeme \S+ none|  no text .*", line)]
        if bad or not re.fullmatch(END, lines[-1]):
            yield f"{language.key} {suite.name}: {lines[-1]}; {len(bad)} without a text: {bad[:3]}"


def departures(language):
    """What is wrong with the files of known departures: one can't be read, or is of no parser and suite."""
    named = {parser.known_of(suite) for parser in language.parsers for suite in language.suites}
    folder = os.path.join(language.folder, "known")
    for name in sorted(os.listdir(folder)):
        path = os.path.join(folder, name)
        if path not in named:
            yield f"{path}: no parser and suite of {language.key} have this name"
        try:
            for line in known.read(path).lines:
                tables.cause_of(line.reason)
        except (known.BadLine, tables.Unread) as error:
            yield f"{path}: {error}"


def python(language, folder):
    """What Python's json does otherwise than its file of known departures says."""
    parser = next(parser for parser in language.parsers if parser.key == "python")
    for suite in language.suites:
        path = os.path.join(folder, f"{language.key}.{suite.name}")
        expected = ["--known", parser.known_of(suite)] if os.path.exists(parser.known_of(suite)) else []
        ran = subprocess.run([TRY_PARSER, "--batch", *expected, path, *FRAME], capture_output=True, timeout=300)
        if ran.returncode:
            yield f"json {suite.name} on Python's json: {ran.returncode} {ran.stdout.decode()} {ran.stderr.decode()}"


def main():
    failed = []
    with tempfile.TemporaryDirectory() as folder:
        for key in languages.keys():
            language = languages.read(key)
            failed += [*suites(language, folder), *departures(language)]
        failed += python(languages.read("json"), folder)
    print("\n".join(failed), file=sys.stderr, end="\n" if failed else "")
    sys.exit(1 if failed else 0)


main()
