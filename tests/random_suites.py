#!/usr/bin/env python3
"""Compares what the program writes of random small files with what a model writes:
random_suites.py [PROGRAM [COUNT [COMMANDS]]].

The model, below tests/model, was made from docs/FORMATS.md and docs/DEFINITIONS.md alone, and nothing in it is fast. Each number
from 1 to COUNT (200) tells a yacc file, a lex file, a text and options: the status of each command on them and what it writes have
to be the model's, byte for byte. So has what `gen` writes of the first numbers. A derivation of `member` may be any that is right.
COMMANDS are words with commas between them; without them those of COMPARED are compared. Of each run that differs it prints the
files, both statuses and the first line that does, and it ends with status 1 where there is one.
"""

import os
import subprocess
import sys
import tempfile
from dataclasses import replace
from functools import partial
from itertools import zip_longest
from random import Random

sys.dont_write_bytecode = True

from model.chains import Chains
from model.check import checked
from model.files import LexFile, YaccFile, damaged, options, text_of
from model.generated import summary
from model.lexical import Spellings, lexical
from model.manifest import Manifest
from model.members import Deep, member
from model.scanner import Scanner
from model.texts import Choice, Texts
from model.wrong import SLIPS, Wrong

TOP = os.path.dirname(os.path.dirname(os.path.abspath(__file__)))
PROGRAM = os.path.abspath(sys.argv[1]) if len(sys.argv) > 1 else os.path.join(TOP, "crates", "cs_cli", "out", "cs_cli")
COUNT = int(sys.argv[2]) if len(sys.argv) > 2 else 200
# The model also has commands that the program hasn't. One that the program gets is put in here.
COMPARED = ["rules", "suite", "gen", "lexical", "spell", "member", "deep", "chains", "wrong", "check"]
COMMANDS = sys.argv[3].split(",") if len(sys.argv) > 3 else COMPARED
SUMMARIES = 2
TEXT_OPTIONS = ("separator", "weigh")
MANY = (1, b"", b"conform: lex: States above 16384\n")


def good(output):
    return 0, output, b""


class Pair:
    """The files of a number, what they mean, and options."""

    def __init__(self, number):
        random = Random(number)
        yacc = YaccFile(random)
        lex = LexFile(random, yacc.tokens)
        self.number, (self.words, self.choice) = number, options(random)
        self.grammar = yacc.grammar()
        self.scanner = Scanner(lex.rules, self.grammar.tokens)
        self.files = {"y": yacc.text().encode("latin-1"), "l": lex.text().encode("latin-1")}
        self.slips = random.sample(SLIPS, random.randint(1, len(SLIPS)))
        self.random = random

    def some_texts(self, count):
        texts = Texts(self.grammar, self.scanner, self.choice)
        return [text_of(self.random, texts) for _ in range(count)]

    def of(self, *kinds):
        """The words of the options of these kinds."""
        return [word for word in self.words if word[2:].partition("=")[0] in kinds]


# The rows of each command: words, files, and a function from what the program wrote to the status, the output and the error
# output that are right.


def fixed(words, files, make, scanner=None):
    """A row of which one output is right; files are refused where the scanner has many sets."""
    right = MANY if scanner and scanner.has_many_sets else good(make())
    return words, files, lambda _: right


def rules(pair):
    yield fixed(["rules", "y"], pair.files, Manifest(pair.grammar, None, Choice(["rule"])).text)


def suite(pair):
    made = Manifest(pair.grammar, pair.scanner, pair.choice)
    yield fixed(["suite", "y", "l", *pair.words], pair.files, made.text, pair.scanner)


def gen(pair):
    if pair.number <= SUMMARIES:
        yield fixed(["gen", str(pair.number)], {}, lambda: summary(pair.number))


def lexical_rows(pair):
    yield fixed(["lexical", "y", "l"], pair.files, lambda: lexical(pair.scanner), pair.scanner)


def spell(pair):
    made = Spellings(pair.grammar, pair.scanner, pair.choice)
    yield fixed(["spell", "y", "l", *pair.of(*TEXT_OPTIONS)], pair.files, made.text, pair.scanner)


def members(pair):
    for text in () if pair.scanner.has_many_sets else pair.some_texts(4):
        right = partial(member, pair.grammar, pair.scanner, text)
        yield ["member", "y", "l", "t"], {**pair.files, "t": text}, right


def deep(pair):
    made = Deep(pair.grammar, pair.scanner, pair.choice)
    words = pair.of("criteria", "mutate", "bases", *TEXT_OPTIONS)
    yield fixed(["deep", "y", "l", *words], pair.files, made.text, pair.scanner)


def chains(pair):
    yield fixed(["chains", "y"], pair.files, Chains(pair.grammar, None, Choice()).text)
    made = Chains(pair.grammar, pair.scanner, pair.choice)
    yield fixed(["chains", "y", "l", *pair.of(*TEXT_OPTIONS)], pair.files, made.text, pair.scanner)


def wrong(pair):
    made = Wrong(pair.grammar, pair.scanner, pair.choice, pair.slips)
    words = [f"--slips={','.join(pair.slips)}", *pair.of(*TEXT_OPTIONS)]
    yield fixed(["wrong", "y", "l", *words], pair.files, made.text, pair.scanner)


def check(pair):
    """The manifest of a pair passes; of four like it, each with another change, the model says what is wrong."""
    text = b"" if pair.scanner.has_many_sets else Manifest(pair.grammar, pair.scanner, replace(pair.choice, version=2)).text()
    for manifest in [text, *(damaged(pair.random, text) for _ in range(4))] if text else ():
        right = checked(pair.grammar, pair.scanner, manifest)
        yield ["check", "y", "l", "m"], {**pair.files, "m": manifest}, lambda _, right=right: right


ROWS = {
    "rules": rules,
    "suite": suite,
    "gen": gen,
    "lexical": lexical_rows,
    "spell": spell,
    "member": members,
    "deep": deep,
    "chains": chains,
    "wrong": wrong,
    "check": check,
}


def run(words, files):
    with tempfile.TemporaryDirectory() as folder:
        for name, text in files.items():
            with open(os.path.join(folder, name), "wb") as file:
                file.write(text)
        done = subprocess.run([PROGRAM, *words], cwd=folder, capture_output=True, timeout=60)
    return done.returncode, done.stdout, done.stderr


def first_difference(found, wanted):
    """Both statuses, and the first line that differs of what was written."""
    lines = zip_longest(*((output + said).decode("latin-1").split("\n") for _, output, said in (found, wanted)))
    one, other = next((pair for pair in lines if pair[0] != pair[1]), ("", ""))
    return f"the program: {found[0]}, {one}\nthe model:   {wanted[0]}, {other}"


def failures():
    for number in range(1, COUNT + 1):
        pair = Pair(number)
        for words, files, right in (row for command in COMMANDS for row in ROWS[command](pair)):
            found = run(words, files)
            wanted = right(found[1])
            if found != wanted:
                texts = b"".join(files.values()).decode("latin-1")
                yield f"{number}: {' '.join(words)}\n{texts}\n{first_difference(found, wanted)}\n"


def main():
    if not os.path.exists(PROGRAM):
        sys.exit(f"{PROGRAM} isn't there: rt ci or ./conform builds it")
    failed = [*failures()]
    print("\n".join(failed), file=sys.stderr, end="\n" if failed else "")
    sys.exit(1 if failed else 0)


main()
