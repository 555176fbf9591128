"""A made-up repository for the runs of the script conform and of tests/release, and what can become of it.

It has three crates, a test of one, and a release. Beside it stand the commands that the scripts call, without the kit
and Python. The programs are made up too: they say which of them it is. CONTRIBUTING.md says how sources are digested.
"""

import hashlib
import os
import re
import shutil
import subprocess
import tempfile

from rows import end, in_order

TOP = os.path.dirname(os.path.dirname(os.path.abspath(__file__)))
SCRIPTS = "conform", "tools/program.bash", "tools/build.bash", "tools/usage.txt", "tests/release"
COMMANDS = "bash sh find sort xargs sha256sum cut uname mkdir rm mv cp cat touch readlink sed grep nproc dirname chmod"
PROGRAM = """#!/bin/sh
[ "${1-bad}" != bad ] || { echo 'conform: usage: word 0' >&2; exit 2; }
[ "$1" != where ] || pwd
echo NAME "$@"
exit 3
"""
# Builds what stands in the file of $BUILDS, and changes the file of $CHANGES meanwhile.
KIT = """#!/bin/sh
case $1 in
version) echo 'kit of tests' ;;
all) printf '%s\\n' '== low' '== high' 'rt: more' '== cs_cli' '== summary' ;;
run) cp "$BUILDS" out/cs_cli && echo 'conform: usage: word 0' && echo >>"$CHANGES" ;;
esac
"""
FILES = {
    "crates.txt": "# kit is no crate\ncs_cli: high low\ntest_low: low\nhigh: low kit # more\nlow: kit",
    "crates/cs_cli/src/main.rt": "main",
    "crates/high/src/lib.rt": "high",
    "crates/high/specs/Meaning.antt": "meaning",
    "crates/low/src/lib.rt": "low",
    "crates/low/src/parts/part.rt": "part",
    "crates/low/proofs/parts/part/Answers.antt": "answers",
    "crates/low/must-fail/a.edit": "edit",
    "crates/test_low/src/lib.rt": "test",
}
NEEDS = ["cs_cli: high low\n", "high: low kit \n", "low: kit\n"]
RELEASED, SOURCES = "release/conform-x86_64-linux", "release/SOURCES"
OUT, BUILT, LIB = "crates/cs_cli/out", "crates/cs_cli/out/cs_cli", "crates/low/src/lib.rt"

# What the script says before it builds, while it does, and where it can't.
OTHER = f"conform: the sources aren't those of {SOURCES}, which the commit has that git log -1 release names\n"
NO_KIT = "conform: the command rt isn't there"
BUILDING = "conform: building; "
STATES = [
    "conform: 0 of 3 crates are done; under way: low\n",
    "conform: 1 of 3 crates are done; under way: high\n",
    "conform: 2 of 3 crates are done; under way: cs_cli\n",
    "conform: 3 of 3 crates are done\n",
    "conform: compiling the program\n",
]


def program(name):
    return PROGRAM.replace("NAME", name)


def digest(text):
    return hashlib.sha256(text.encode()).hexdigest()


def digest_of_sources():
    sources = [name for name in FILES if re.match(r"crates/(cs_cli|high|low)/(src|specs)/", name)]
    return digest("".join(sorted(NEEDS + [f"{digest(FILES[name])}  {name}\n" for name in sources])))


def lines(name, kit="kit of tests"):
    """Those of release/SOURCES behind the release's number, where it is this program's."""
    return f"program {digest(program(name))}\nsources {digest_of_sources()}\nkit {kit}\n"


class Tree:
    def __init__(self, folder):
        self.top, self.commands, self.made = (os.path.join(folder, name) for name in ("top", "commands", "made"))
        os.makedirs(self.commands)
        for name in COMMANDS.split():
            os.symlink(shutil.which(name), os.path.join(self.commands, name))
        for name in SCRIPTS:
            os.makedirs(os.path.dirname(self.path(name)), exist_ok=True)
            shutil.copy(os.path.join(TOP, name), self.path(name))
        for name, text in FILES.items():
            self.write(name, text)
        self.write(self.made, program("built"))
        self.release()

    def path(self, name):
        return os.path.join(self.top, name)

    def read(self, name):
        with open(self.path(name)) as file:
            return file.read()

    def write(self, name, text, mode=0o755):
        os.makedirs(os.path.dirname(self.path(name)), exist_ok=True)
        with open(self.path(name), "w") as file:
            file.write(text)
        os.chmod(self.path(name), mode)

    def drop(self, *names):
        for path in map(self.path, names):
            if os.path.isdir(path):
                shutil.rmtree(path)
            elif os.path.lexists(path):
                os.remove(path)

    def release(self, name="released"):
        self.write(RELEASED, program(name))
        self.write(SOURCES, "release 7\n" + lines(name))

    def command(self, name, text=None):
        """Puts a command in front of the scripts, or takes it away."""
        path = os.path.join(self.commands, name)
        self.drop(path)
        if text is not None:
            self.write(path, text)

    def environment(self, **more):
        return {"PATH": self.commands, "BUILDS": self.made, "CHANGES": "/dev/null", "CDPATH": self.top, **more}

    def run(self, *command, folder=None, **more):
        """The status, the output and the error output of a command, or of the script conform on words."""
        command = command if os.path.isabs(command[0]) else [self.path("conform"), *command]
        folder, environment = folder or self.top, self.environment(**more)
        done = subprocess.run(command, cwd=folder, capture_output=True, text=True, env=environment, timeout=60)
        return done.returncode, done.stdout, done.stderr


def same(tree):
    pass


def all_of(*changes):
    return lambda tree: [change(tree) for change in changes]


def source(text):
    return lambda tree: tree.write(LIB, text)


def file(name, text=""):
    return lambda tree: tree.write(name, text)


def none(name):
    return lambda tree: tree.drop(name)


def command(name, text):
    return lambda tree: tree.command(name, text)


def no_command(name):
    return lambda tree: tree.command(name)


def system(name):
    """Puts the command of the system back."""
    return lambda tree: (tree.command(name), os.symlink(shutil.which(name), os.path.join(tree.commands, name)))


def damage(tree):
    with open(tree.path(RELEASED), "r+b") as file:
        file.seek(-2, os.SEEK_END)
        file.write(b"4")


def fits(found, status, out, said):
    """Whether a run has this status and output, and says these parts in order, or nothing where there are none."""
    return found[:2] == (status, out) and (in_order(said, found[2]) if said else not found[2])


def run_groups(*groups):
    """Runs each group of rows on a tree of its own."""
    failed = []
    for rows in groups:
        with tempfile.TemporaryDirectory() as folder:
            failed += rows(Tree(os.path.realpath(folder)))
    end(failed)
