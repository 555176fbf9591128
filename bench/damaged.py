#!/usr/bin/env python3
"""Runs `conform` on damaged files: bench/damaged.py NUMBER SEED [PROGRAM].

Each run takes a pair of files, of examples/ or small ones of its own, damages one or both (a byte, a cut, a repetition, two pieces
exchanged, a piece of another file), and asks for `rules` or `suite`. It prints what shouldn't be: a status other than 0, 1 and 5, a
line on the error output that docs/FORMATS.md doesn't have, output on a refusal, a good run without a last line, and more than a
second of processor time. The files of such a run are kept in the system's temporary folder, below damaged/. It prints figures as it
goes, at the end how often something was wrong and the most processor time of a run beside their bounds, and ends with status 1 where
one is passed. A run depends on its number and the seed alone. Nothing here is part of the gate.
"""

import collections
import multiprocessing
import os
import random
import re
import resource
import sys
import tempfile
import time

sys.dont_write_bytecode = True

from measure import TOP, Bounds

sys.path.insert(0, os.path.join(TOP, "tools"))

from refusals import SENTENCES

SECONDS = 1
LAST_SECOND = 20  # of processor time, at which a run is ended
BLOCK = 100  # runs that a worker makes before it tells of them
PERIOD = 30  # seconds between two lines of figures
TAIL = 200  # bytes of the output that are looked at
PIECES = [
    b"%%", b"%{", b"%}", b"{", b"}", b"/*", b"*/", b"//", b"'", b'"', b"\\", b"[", b"]", b"(", b")", b"|", b";", b":", b"%token", b"%prec",
    b"%start", b"%union", b"%s X", b"%x", b"%option", b"error", b"{1000}", b"{2,1}", b"[:alpha:]", b"[z-a]", b"^", b"$", b"/", b"<X>", b"*",
    b"+", b"?", b"\0", b"\xff", b"\r\n", b"\n", b" ", b"\t", b"return", b"yymore();", b"/*@skip*/", b"/*@token NUM*/", b"{D}", b"{NAME}", b".",
]
SMALL = [
    (b"%%\ns : 'x' ;\n", b"%%\nx return 'x';\n[ ]+ ;\n"),
    (b"%token A B\n%%\ns : s A | B ; t : ;\n", b"D [a-c]\n%%\n{D}+ return A;\nb { return(B); }\n\"x y\" ;\n"),
    (b"%token <t> A 258, B\n%left '+' '-'\n%start s\n%%\ns : s '+' s { $$ = $1; } %prec '-' | A | B | error ';' ;\n%%\ncode\n",
     b"%{\n#include <x>\n%}\n%option noyywrap\n%%\n[0-9]{1,3} |\n[a-f]? return A;\n\\+|- return *yytext;\nB { BEGIN(0); }\n%%\nint x;\n"),
]


def pairs():
    """The pairs of files: the small ones, and each yacc file of examples/ with each lex file there."""
    folder = os.path.join(TOP, "examples")
    read = {name: open(os.path.join(folder, name), "rb").read() for name in os.listdir(folder)}
    grammars = [read[name] for name in sorted(read) if name.endswith(".y")]
    scanners = [read[name] for name in sorted(read) if name.endswith(".l")]
    return SMALL + [(grammar, scanner) for grammar in grammars for scanner in scanners]


def damaged(draw, text, other):
    """The text with one to four pieces of damage."""
    for _ in range(draw.randint(1, 4)):
        at, end = sorted((draw.randint(0, len(text)), draw.randint(0, len(text))))
        end = min(end, at + draw.choice((1, 3, 20, 400)))
        kind = draw.randrange(6)
        if kind == 0:
            text = text[:at] + bytes([draw.randrange(256)]) + text[at + 1 :]
        elif kind == 1:
            text = text[:at] + draw.choice(PIECES) * draw.choice((1, 1, 1, 2, 200)) + text[at:]
        elif kind == 2:
            text = text[:at] + text[end:]
        elif kind == 3:
            text = text[:end] + text[at:end] * draw.choice((1, 2, 50)) + text[end:]
        elif kind == 4:
            text = text[:at]
        else:
            start = draw.randint(0, len(other))
            text = text[:at] + other[start : start + draw.choice((5, 40, 300))] + text[at:]
        text = text[:60000]
    return text


def key(line):
    """A line of the error output without its numbers."""
    told = re.sub(r"^conform: ", "", line)
    return re.sub(r"(?: (?:at|of|above|word))? \d+:?", "", told).rstrip(":")


def faults(status, size, end, err, seconds):
    """What shouldn't be: of the output its size and its end are given."""
    lines = err.decode(errors="replace").splitlines()
    if status not in (0, 1, 5):
        yield f"status {status}"
    if status == 0 and (lines or not re.search(rb"\nend goals \d+ feasible \d+ infeasible \d+ large \d+ negatives \d+( cases \d+)?\n\Z", end)):
        yield "a good run without a last line, or with a line on the error output"
    if status == 1 and size:
        yield "output on a refusal"
    if status and (len(lines) != 1 or not lines[0].startswith("conform: ") or key(lines[0]) not in SENTENCES):
        yield f"the line {lines}"
    if seconds > SECONDS:
        yield f"{seconds:.2f} seconds"


class Place:
    """A folder in memory with the two files and both outputs, in which one worker makes its runs."""

    def __init__(self, path, folder):
        self.path = path
        os.chdir(folder)
        self.out, self.err = (os.open(name, os.O_RDWR | os.O_CREAT, 0o600) for name in ("out", "err"))
        self.actions = [(os.POSIX_SPAWN_DUP2, self.out, 1), (os.POSIX_SPAWN_DUP2, self.err, 2)]

    def run(self, words, files):
        """One run on these files: its status, the output's size and end, the error output, and the processor time."""
        for name, text in files.items():
            with open(name, "wb", buffering=0) as file:
                file.write(text)
        for output in (self.out, self.err):
            os.ftruncate(output, 0)
            os.lseek(output, 0, os.SEEK_SET)
        child = os.posix_spawn(self.path, [self.path, *words], os.environ, file_actions=self.actions)
        resource.prlimit(child, resource.RLIMIT_CPU, (LAST_SECOND, LAST_SECOND))
        _, status, used = os.wait4(child, 0)
        size = os.fstat(self.out).st_size
        end, err = os.pread(self.out, TAIL, max(0, size - TAIL)), os.pread(self.err, 4096, 0)
        return os.waitstatus_to_exitcode(status), size, end, err, used.ru_utime + used.ru_stime


def task(seed, number):
    """The words and the files of a run."""
    draw = random.Random(seed * 1_000_003 + number)
    grammar, scanner = draw.choice(PAIRS)
    which = draw.randrange(3)
    grammar, scanner = (damaged(draw, grammar, scanner) if which != 1 else grammar), (damaged(draw, scanner, grammar) if which else scanner)
    words = ["rules", "g.y"] if draw.random() < 0.25 else ["suite", "g.y", "g.l", "--bases=2", *draw.choice(OPTIONS)]
    return words, {"g.y": grammar, "g.l": scanner}


def keep(kept, number, files):
    """Keeps the files of a run."""
    folder = os.path.join(kept, str(number))
    os.makedirs(folder, exist_ok=True)
    for name, text in files.items():
        with open(os.path.join(folder, name), "wb") as file:
            file.write(text)


def block(work):
    """Some runs one after another: how many there were of each status, what was wrong, and the processor time of all and the most."""
    seed, kept, numbers = work
    statuses, wrong, seconds, most = collections.Counter(), [], 0, 0
    for number in numbers:
        words, files = task(seed, number)
        status, *told, used = PLACE.run(words, files)
        statuses[status] += 1
        seconds += used
        most = max(most, used)
        found = list(faults(status, *told, used))
        if found:
            keep(kept, number, files)
            wrong += [f"run {number}, {' '.join(words)}: {fault}" for fault in found]
    return statuses, wrong, seconds, most


def begin(path, folder):
    global PLACE
    PLACE = Place(path, tempfile.mkdtemp(dir=folder))


PAIRS = pairs()
OPTIONS = ([], ["--format=1"], ["--weigh=bytes"])
PLACE = None


class Figures:
    """What came of the runs so far, printed now and then."""

    def __init__(self, number):
        self.number, self.statuses, self.wrong, self.seconds, self.most = number, collections.Counter(), 0, 0, 0
        self.began = self.told = time.monotonic()

    def add(self, statuses, wrong, seconds, most):
        self.statuses += statuses
        self.wrong += len(wrong)
        self.seconds += seconds
        self.most = max(self.most, most)
        for line in wrong:
            print(line, flush=True)
        if time.monotonic() - self.told >= PERIOD:
            self.told = time.monotonic()
            self.tell()

    def tell(self):
        made, passed = sum(self.statuses.values()), time.monotonic() - self.began
        counts = ", ".join(f"{count} of status {status}" for status, count in sorted(self.statuses.items()))
        rate = f"{passed:.0f} s, {made / passed:.0f} runs a second, {1000 * self.seconds / max(made, 1):.1f} ms of processor time each"
        print(f"{made} of {self.number} runs: {counts}; {self.wrong} wrong, at most 0; {rate}", flush=True)


def main():
    if len(sys.argv) not in (3, 4):
        sys.exit("usage: damaged.py NUMBER SEED [PROGRAM]")
    number, seed = int(sys.argv[1]), int(sys.argv[2])
    path = os.path.abspath(sys.argv[3]) if len(sys.argv) > 3 else os.path.join(TOP, "crates", "cs_cli", "out", "cs_cli")
    figures, kept = Figures(number), os.path.join(tempfile.gettempdir(), "damaged")
    memory = "/dev/shm" if os.path.isdir("/dev/shm") else None
    blocks = ((seed, kept, range(first, min(first + BLOCK, number))) for first in range(0, number, BLOCK))
    with tempfile.TemporaryDirectory(dir=memory) as folder, multiprocessing.Pool(initializer=begin, initargs=(path, folder)) as pool:
        for answer in pool.imap_unordered(block, blocks):
            figures.add(*answer)
    figures.tell()
    bounds = Bounds()
    bounds.row("what was wrong", figures.wrong, 0, "times")
    bounds.row("most processor time of a run", figures.most, SECONDS, "s")
    bounds.end()


if __name__ == "__main__":
    main()
