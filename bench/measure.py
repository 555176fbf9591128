"""Runs of a program beside their bounds: what the scripts beside this one share.

The greatest memory of a run is what the system tells of it, and that is never less than this script's own, some 15 MB.
"""

import os
import shutil
import subprocess
import sys
import tempfile

TOP = os.path.dirname(os.path.dirname(os.path.abspath(__file__)))
# Starts a program and leaves the greatest memory of it alone in a file.
TIMED = ["/usr/bin/time", "-q", "-f", "%M", "-o", "memory"]


def program():
    """The program that is named by the first word, or the one that `./conform` builds."""
    return named() or found(os.path.join(TOP, "crates", "cs_cli", "out", "cs_cli"), ": ./conform builds it")


def named():
    """The program that is named by the first word, if there is one."""
    return found(sys.argv[1]) if len(sys.argv) > 1 else None


def found(path, hint=""):
    if not os.path.exists(path):
        sys.exit(f"{path} isn't there{hint}")
    return os.path.abspath(path)


def program_of(name, text, libraries, proofs=None):
    """The program that is named by the first word, or one of this text, which stays in bench/out/ under this name."""
    if path := named():
        return path
    kept = os.path.join(TOP, "bench", "out", name)
    os.makedirs(os.path.dirname(kept), exist_ok=True)
    with tempfile.TemporaryDirectory() as folder:
        shutil.copy(build(os.path.join(folder, "copy"), text, libraries, proofs or {}), kept)
    return kept


class Run:
    """One run of `rules` on a text: its status, processor seconds, greatest memory in MB, and bytes written."""

    def __init__(self, path, text):
        self.measure([path, "rules", "g.y"], {"g.y": text})

    def measure(self, words, files):
        with tempfile.TemporaryDirectory() as folder:
            for name, text in files.items():
                with open(os.path.join(folder, name), "wb") as file:
                    file.write(text if isinstance(text, bytes) else text.encode())
            with open(os.path.join(folder, "out"), "wb") as out, open(os.path.join(folder, "err"), "wb") as err:
                child = subprocess.Popen(words, cwd=folder, stdout=out, stderr=err)
                _, status, used = os.wait4(child.pid, 0)
                child.returncode = self.status = os.waitstatus_to_exitcode(status)
            self.seconds = used.ru_utime + used.ru_stime
            self.megabytes = told_memory(folder, used.ru_maxrss) / 1024
            self.written = os.path.getsize(os.path.join(folder, "out"))
            with open(os.path.join(folder, "err"), "rb") as file:
                self.said = file.read().decode().strip()
            self.begin, self.last_line = ends_of(os.path.join(folder, "out"))


def told_memory(folder, kilobytes):
    """What GNU time left in the folder; else what the system tells."""
    path = os.path.join(folder, "memory")
    if not os.path.exists(path):
        return kilobytes
    with open(path) as file:
        return int(file.read())


def ends_of(path):
    """The first bytes of a file, and its last line."""
    with open(path, "rb") as file:
        begin = file.read(20).decode("latin-1")
        file.seek(max(os.path.getsize(path) - 200, 0))
        return begin, file.read().decode("latin-1").rstrip("\n").rpartition("\n")[2]


class SuiteRun(Run):
    """One run of `suite` on a yacc file and a lex file, with these options."""

    def __init__(self, path, grammar, lex, options):
        self.measure([path, "suite", "g.y", "g.l", *options], {"g.y": grammar, "g.l": lex})


class CommandRun(Run):
    """One run of any words on files with these names. Its memory is the program's own where GNU time is there."""

    def __init__(self, path, words, files):
        self.measure([*(TIMED if os.path.exists(TIMED[0]) else ()), path, *words], files)


class Bounds:
    """Prints each figure beside its bound and each status beside the wanted one, and remembers where one was passed or another."""

    def __init__(self):
        self.passed = []

    def row(self, name, figure, most, unit):
        over = figure > most
        if over:
            self.passed.append(name)
        print(f"{name}: {figure:.3g} {unit}, at most {most:g} {unit}{'  PASSED' if over else ''}", flush=True)

    def status(self, name, run, wanted=0):
        other = run.status != wanted
        if other:
            self.passed.append(name)
        wrong = f", not {wanted}  PASSED" if other else ", as wanted"
        print(f"{name}: status {run.status}{wrong}, {run.written} bytes out {run.said}".rstrip(), flush=True)

    def last_line(self, name, run, wanted):
        """Whether the output ends with this line."""
        if run.last_line != wanted:
            self.passed.append(name)
            print(f"{name}: it ends with {run.last_line!r}, not {wanted!r}  PASSED", flush=True)

    def end(self):
        sys.exit(1 if self.passed else 0)


def left_out(folder, names):
    """What a copy goes without: the history and what was built, but for the libraries, so that these aren't proved again."""
    return [name for name in names if name == ".git" or os.path.basename(folder) == "out" and name != "rlib"]


def build(copy, text, libraries, proofs):
    """The program of this text, with these files of proofs, proved and built in a copy of the repository; its path."""
    shutil.copytree(TOP, copy, ignore=left_out)
    subprocess.run(["rt", "new", "crates/bench_program", "start_io"], cwd=copy, check=True, stdout=subprocess.DEVNULL)
    crate = os.path.join(copy, "crates", "bench_program")
    shutil.rmtree(os.path.join(crate, "src"))
    for name, part in {"src/main.rt": text, **proofs}.items():
        path = os.path.join(crate, name)
        os.makedirs(os.path.dirname(path), exist_ok=True)
        with open(path, "w") as file:
            file.write(part)
    with open(os.path.join(copy, "crates.txt"), "a") as file:
        file.write(f"bench_program: {libraries}\n")
    built = subprocess.run(["rt", "run"], cwd=crate, capture_output=True, text=True)
    path = os.path.join(crate, "out", "bench_program")
    if not os.path.exists(path):
        sys.exit(built.stdout + built.stderr)
    return path


def ran(path, folder, words):
    """What the program writes on these words in the folder, its processor seconds and its greatest memory in MB."""
    with open(os.path.join(folder, "told"), "w") as out:
        child = subprocess.Popen([path, *words], cwd=folder, stdout=out)
        _, status, used = os.wait4(child.pid, 0)
        child.returncode = os.waitstatus_to_exitcode(status)
    if child.returncode:
        sys.exit(f"{path} ended with status {child.returncode}")
    with open(os.path.join(folder, "told")) as file:
        return file.read(), used.ru_utime + used.ru_stime, used.ru_maxrss / 1024


def least(path, folder, words, runs):
    """The same, with the least seconds of so many runs."""
    made = [ran(path, folder, words) for _ in range(runs)]
    return made[0][0], min(seconds for _, seconds, _ in made), made[0][2]
