"""Languages of the gallery: what stands in a folder's language.ini, and the suites and frames that are made of it."""

import configparser
import os
import re
import shlex
import shutil
import subprocess
from dataclasses import dataclass

TOP = os.path.dirname(os.path.dirname(os.path.abspath(__file__)))
GALLERY = os.path.join(TOP, "gallery")
FRAMES = os.path.join(GALLERY, "frames")
OUT = os.path.join(TOP, "out", "gallery")


class Fault(Exception):
    """What ends a run of the gallery, in words for whoever called it."""


@dataclass
class Suite:
    """An output of the program that is tried: its name, and the program's words."""

    name: str
    words: list


@dataclass
class Parser:
    """A parser: its name, its package, commands for its version and its frame, and where its known departures stand.

    A frame that is compiled has the command that does it. {built} stands for the file that is made, in both commands.
    """

    key: str
    name: str
    package: str
    version: list
    frame: list
    build: list
    known: str

    def known_of(self, suite):
        """The file of known departures of a suite, which need not be there."""
        return f"{self.known}.{suite.name}"

    def command(self, words):
        return [word.replace("{built}", os.path.join(OUT, self.key)) for word in words]


@dataclass
class Language:
    key: str
    title: str
    standard: str
    note: str
    suites: list
    parsers: list

    @property
    def folder(self):
        return os.path.join(GALLERY, self.key)


def keys():
    return sorted(name for name in os.listdir(GALLERY) if os.path.exists(os.path.join(GALLERY, name, "language.ini")))


def read(key):
    """The language of a folder."""
    path = os.path.join(GALLERY, key, "language.ini")
    found = configparser.ConfigParser(interpolation=None)
    if not found.read(path, encoding="utf-8"):
        raise Fault(f"{key}: no language of the gallery has this name")
    head = found["language"]
    suites = [Suite(name, shlex.split(words)) for name, words in found["suites"].items()]
    parsers = [parser_of(key, name, found[name]) for name in found.sections() if name not in ("language", "suites")]
    return Language(key, head["title"], head["standard"], " ".join(head.get("note", "").split()), suites, parsers)


def parser_of(language, key, section):
    commands = {name: shlex.split(section.get(name, "")) for name in ("version", "frame", "build")}
    known = os.path.join(GALLERY, language, "known", key)
    return Parser(key, section["name"], section["package"], known=known, **commands)


@dataclass
class Output:
    """A suite that was made, in a file below out/."""

    language: str
    suite: Suite

    @property
    def path(self):
        return os.path.join(OUT, f"{self.language}.{self.suite.name}")

    def results_of(self, parser):
        return f"{self.path}.{parser.key}.results"


def write_suite(program, language, suite):
    """Makes an output by the program."""
    output = Output(language.key, suite)
    os.makedirs(OUT, exist_ok=True)
    with open(output.path, "wb") as file:
        ran = subprocess.run([program, *suite.words], cwd=language.folder, stdout=file, stderr=subprocess.PIPE)
    if ran.returncode:
        raise Fault(f"{language.key}: {' '.join(suite.words)}: {ran.stderr.decode().strip()}")
    return output


def prepare(parser):
    """Makes a frame that is compiled, and says whether the parser is there and its frame answers."""
    if version_of(parser) is None:
        return False
    if parser.build and run(parser.command(parser.build)).returncode:
        return False
    # a frame that gets no text ends with its input; one that lacks its library ends with a status
    return run(parser.command(parser.frame)).returncode == 0


def run(words):
    """What a command does in the frames' folder, without input; one that isn't there ends as a shell has it."""
    if not shutil.which(words[0]):
        return subprocess.CompletedProcess(words, 127, b"")
    options = {"stdin": subprocess.DEVNULL, "stdout": subprocess.PIPE, "stderr": subprocess.STDOUT}
    return subprocess.run(words, cwd=FRAMES, **options)


def version_of(parser):
    """The first number with a point in it that the version's command writes, or else its first word with a digit. None
    where the command fails, as it does where the parser isn't installed."""
    ran = run(parser.command(parser.version))
    told = ran.stdout.decode("latin-1")
    found = re.search(r"\d+(?:\.\d+)+\S*", told) or re.search(r"\b\d\S*", told)
    return found[0].rstrip(",;)") if found and ran.returncode == 0 else None
