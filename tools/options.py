"""The options that try_parser and try_grammar share: how a parser is run, which cases are tried, and what is told of
them."""

import argparse

import trials as trial
from batch import Batch
from running import Alone, Statuses

LAST_STATUS = 255


class BadCall(Exception):
    """Options or a command that can't be followed."""


def statuses(word):
    """The statuses that a word such as 1,3-5 names."""
    found = set()
    for part in word.split(","):
        first, _, last = part.partition("-")
        if not (first.isdigit() and (last or first).isdigit() and int(first) <= int(last or first) <= LAST_STATUS):
            raise ValueError(word)
        found.update(range(int(first), int(last or first) + 1))
    return found


def above_zero(word):
    number = float(word) if "." in word else int(word)
    if number <= 0:
        raise ValueError(word)
    return number


def count(word):
    if int(word) < 1:
        raise ValueError(word)
    return int(word)


def kinds(word):
    found = word.split(",")
    if not set(found) <= set(trial.KINDS):
        raise ValueError(word)
    return found


# In groups: the options, and the arguments of argparse that each of them has.
OPTIONS = {
    "how the parser is run": {
        "--batch": {"action": "store_true", "help": "start it once: it answers a line of base64 by taken or refused"},
        "--seconds": {"type": above_zero, "default": 10, "metavar": "S", "help": "the time that a text may take (10)"},
        "--jobs": {"type": count, "metavar": "N", "help": "how many run at once (one a processor; with --batch 1)"},
        "--stop-after": {"type": count, "metavar": "N", "help": "stop once N cases have failed"},
        "--taken-status": {"type": statuses, "metavar": "LIST", "help": "by which it takes a text, as 0,3-5 (0)"},
        "--refused-status": {"type": statuses, "metavar": "LIST", "help": "by which it refuses one (others to 125)"},
        "--skip-status": {"type": statuses, "metavar": "LIST", "help": "by which it says that it can't tell (77)"},
    },
    "which cases are tried": {
        "--only": {"choices": ("positive", "negative"), "help": "those that have to be taken, or refused"},
        "--kinds": {"type": kinds, "metavar": "LIST", "help": f"those of some kinds: {','.join(trial.KINDS)}"},
        "--sample": {"type": count, "metavar": "N", "help": "those of N texts, drawn by the number --seed"},
        "--seed": {"type": int, "metavar": "S", "help": "without it one is made up and told"},
        "--limit": {"type": count, "metavar": "N", "help": "the N texts that tell most, by docs/GUIDE.md"},
    },
    "what is told": {
        "--all": {"action": "store_true", "help": "list each failed case too"},
        "--known": {"metavar": "FILE", "help": "cases that may fail: lines `pos|neg|other PATTERN # REASON`"},
        "--write-known": {"metavar": "FILE", "help": "write such a line for each cause to a new file"},
        "--results": {"metavar": "FILE", "help": "write what became of each case, for tools/page"},
        "--tap": {"action": "store_true", "help": "write the Test Anything Protocol in place of the table"},
        "--junit": {"metavar": "FILE", "help": "write a report in JUnit's XML to the file too"},
    },
}


def parser_of(**about):
    """A parser of words with these options; `about` has what argparse is told of it."""
    parser = argparse.ArgumentParser(formatter_class=argparse.RawDescriptionHelpFormatter, **about)
    for title, group in OPTIONS.items():
        add_group(parser.add_argument_group(title), group)
    return parser


def add_group(part, group):
    for name, words in group.items():
        part.add_argument(name, **words)


def parsed(parser, words):
    """What the words before the first -- ask for, and as `command` those behind it."""
    before, command = (words[: words.index("--")], words[words.index("--") + 1 :]) if "--" in words else (words, [])
    asked = parser.parse_args(before)
    asked.command = command
    return asked


def parser_maker(asked):
    """A function that makes the parser of a worker."""
    try:
        meanings = Statuses(asked.taken_status, asked.refused_status, asked.skip_status)
    except ValueError as error:
        raise BadCall(error) from None
    if asked.batch and "{}" in asked.command:
        raise BadCall("with --batch texts come on standard input, and no word is {}")
    return lambda: (Batch if asked.batch else Alone)(asked.command, asked.seconds, meanings)


def chosen(trials, tokens, asked):
    """The trials that the options choose."""
    found = trial.of_kinds(trials, asked.only, asked.kinds)
    if asked.sample:
        found = trial.sample(found, asked.sample, asked.seed)
    return trial.first_that_tell(found, tokens, asked.limit) if asked.limit else found
