"""What the runs of the tools stand on: manifests, calls of tools, and the end of a script of runs.

The manifests of `s : 'x' ;` are worked by hand from docs/FORMATS.md, by both formats. That of examples/lists.y and
lists.l is the model's, which was made from the documents alone, and so are the chains of that grammar.
"""

import fcntl
import os
import pty
import signal
import struct
import subprocess
import sys
import tempfile
import termios

from model.chains import Chains
from model.manifest import Manifest
from model.scanner import BLANKS, OWN_BYTE, SKIP, Join, Many, Scanner, one_of
from model.texts import Choice
from model.trees import Grammar

TOP = os.path.dirname(os.path.dirname(os.path.abspath(__file__)))
PARSERS = os.path.join(TOP, "tests", "parsers")
HEAD = "token 1 'x'\nrule 1 s : 'x'\nlexeme 'x' \"x\"\n"
CASE = "  derive 1\n  tokens 'x'\n  text \"x\"\n"
MUTANTS = (
    "base 1 goal 1\nnegative 1 base 1 delete 0 pair <begin> <end> at 0\n  tokens\n  text \"\"\n"
    "negative 2 base 1 insert 0 'x' pair 'x' 'x' at 1\n  tokens 'x' 'x'\n  text \"x x\"\n"
)
END = "end goals 5 feasible 3 infeasible 2 large 0 negatives 2"
INFEASIBLE = "goal 3 pair <begin> <end> infeasible\ngoal 4 pair 'x' 'x' infeasible\n"
FIRST = (
    f"conform 1 suite\n{HEAD}goal 1 rule 1 size 2\n{CASE}goal 2 pair <begin> 'x' size 2\n{CASE}"
    f"{INFEASIBLE}goal 5 pair 'x' <end> size 2\n{CASE}{MUTANTS}{END}\n"
)
CLOSED = (
    "closed productive s\nclosed reachable s\nclosed empty\nclosed first s : 'x'\nclosed last s : 'x'\n"
    "closed next <begin> : 'x'\nclosed next 'x' : <end>\n"
)
SECOND = (
    f"conform 2 suite\nweigh nodes\n{HEAD}{CLOSED}case 1 size 2\n{CASE}goal 1 rule 1 size 2 case 1 first 1\n"
    f"goal 2 pair <begin> 'x' size 2 case 1 first 1\n{INFEASIBLE}goal 5 pair 'x' <end> size 2 case 1 first 1\n"
    f"{MUTANTS}{END} cases 1\n"
)
LISTS_RULES = [
    ("value", ["NUMBER"]),
    ("value", ["NAME"]),
    ("value", ["'['", "items", "']'"]),
    ("items", []),
    ("items", ["members"]),
    ("members", ["value"]),
    ("members", ["members", "','", "value"]),
]
# What takes a line off a terminal.
CLEARED = "\r\033[K"
EDITS = ["delete", "insert", "replace", "swap"]


def many(some):
    return Join((one_of(some), Many(one_of(some))))


def lists():
    """What examples/lists.y and lists.l mean."""
    grammar = Grammar(["NAME", "NUMBER", "'['", "']'", "','"], ["value", "items", "members"], LISTS_RULES, "value")
    letters, digits = range(0x61, 0x7B), range(0x30, 0x3A)
    rules = [(many(digits), "NUMBER"), (many(letters), "NAME"), (one_of(b"[],"), OWN_BYTE), (BLANKS, SKIP)]
    return grammar, Scanner(rules, grammar.tokens)


def lists_suite(**choice):
    """The text of the suite of examples/lists.y."""
    chosen = {"criteria": ["rule", "cdrc", "pair"], "operators": EDITS, "version": 2, **choice}
    return Manifest(*lists(), Choice(**chosen)).text().decode()


def lists_chains(with_texts):
    """The chains of examples/lists.y, beside lists.l or without it."""
    grammar, scanner = lists()
    return Chains(grammar, scanner if with_texts else None, Choice()).text().decode()


def call(tool, *words, **more):
    """The status, the output and the error output of a tool."""
    ran = subprocess.run([os.path.join(TOP, "tools", tool), *words], capture_output=True, timeout=300, **more)
    return ran.returncode, ran.stdout.decode(), ran.stderr.decode()


def heed_interrupts():
    """In a child before it begins: an interrupt ends it, though tests that run in the background ignore theirs."""
    signal.signal(signal.SIGINT, signal.SIG_DFL)


def on_terminal(words, columns, **environment):
    """What a run writes to a terminal that is its standard error, and to its standard output."""
    ours, theirs = pty.openpty()
    fcntl.ioctl(theirs, termios.TIOCSWINSZ, struct.pack("4H", 24, columns, 0, 0))
    kept = {name: value for name, value in os.environ.items() if name not in ("CI", "TERM")}
    run = subprocess.Popen(words, stdout=subprocess.PIPE, stderr=theirs, env={**kept, **environment})
    os.close(theirs)
    shown = b""
    try:
        while piece := os.read(ours, 4096):
            shown += piece
    except OSError:  # the terminal's end
        pass
    os.close(ours)
    return shown.decode(), run.communicate(timeout=300)[0].decode()


def written(folder, name, text):
    """The path of a new file."""
    path = os.path.join(folder, name)
    with open(path, "w") as file:
        file.write(text)
    return path


def frame(name, *words):
    """The words of a call with --batch, behind the outputs."""
    return ["--batch", "--", sys.executable, os.path.join(PARSERS, name), *words]


def end(*tables):
    """Runs tables of runs in a folder of their own, prints the failures that they give, and ends the script."""
    failed = []
    with tempfile.TemporaryDirectory() as folder:
        for table in tables:
            failed += table(folder)
    print("\n".join(failed), file=sys.stderr, end="\n" if failed else "")
    sys.exit(1 if failed else 0)
