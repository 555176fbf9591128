#!/usr/bin/env python3
"""Runs tools/try_parser on parsers that take too much, take too little, die, hang, leave children, close their input,
print much, and answer nonsense: try_parser_runs.py. It prints the rows that fail, and ends with status 1 where one did.

The counts are those of the manifest of `s : 'x' ;`, three goals of one text and two negatives, and of examples/lists.y.
"""

import os
import re
import signal
import subprocess
import sys
import time

sys.dont_write_bytecode = True

from rows import in_order
from suites import CLEARED, FIRST, SECOND, TOP, call, end, frame, heed_interrupts, lists_suite, on_terminal, written

PYTHON = [sys.executable, "-c"]
# A sleep that no other run of this script has begun; frame.py takes its seconds from here.
os.environ["LONG_SLEEP"] = f"43{os.getpid()}"
SLEEP = f"sleep {os.environ['LONG_SLEEP']}"
READ = "import sys, os, time; t = sys.stdin.buffer.read(); "
# Two kinds of texts, of `s : 'x' ;`: the goals' three cases, and the negatives' two.
ALL_TAKEN, ALL_REFUSED, GOOD = (3, 0, 0, 2, 0, 0), (0, 3, 0, 0, 2, 0), (3, 0, 0, 0, 2, 0)
NEITHER = (0, 0, 3, 0, 0, 2)

# A parser's words, options, the status, how many positives and negatives it took, refused, and did neither with, and
# what is said.
ALONE = [
    ([*PYTHON, READ + "sys.exit(t.strip() != b'x')"], [], 0, GOOD, ""),
    ([*PYTHON, READ + "sys.exit(b'x' not in t)"], [], 1, (3, 0, 0, 1, 1, 0), "wrongly taken: 'x' before 'x'"),
    ([*PYTHON, READ + "sys.exit(t != b'')"], [], 1, (0, 3, 0, 1, 1, 0), "wrongly refused: rule 1 (s : 'x')"),
    ([*PYTHON, READ + "sys.exit('no x' if t else 0)"], [], 1, (0, 3, 0, 1, 1, 0), "\n  the parser: no x\n"),
    (["/bin/true"], [], 2, ALL_TAKEN, "each text, to be taken or not: taken"),
    (["/bin/false"], [], 2, ALL_REFUSED, "each text, to be taken or not: refused"),
    ([*PYTHON, "import nosuch"], [], 2, ALL_REFUSED, "It wrote: ModuleNotFoundError: No module named 'nosuch'"),
    ([*PYTHON, "import os; os.kill(os.getpid(), 9)"], [], 2, NEITHER, "died of signal 9, SIGKILL"),
    (["sh", "-c", "kill -9 $$"], [], 2, NEITHER, "died of signal 9, SIGKILL"),
    (["sh", "-c", "exit 139"], [], 2, NEITHER, "ended with status 139, as a shell tells signal 11, SIGSEGV"),
    (["sh", "-c", "no_such_command_anywhere 2>/dev/null"], [], 2, NEITHER, "ended with status 127"),
    ([*PYTHON, READ + "[os.write(o, b'y' * 3_000_000) for o in (1, 2)]; sys.exit(t.strip() != b'x')"], [], 0, GOOD, ""),
    ([*PYTHON, "import os, sys; os.close(0); sys.exit(1)"], [], 2, ALL_REFUSED, "refused"),
    ([*PYTHON, READ + "sys.exit(t.strip() == b'x')"], ["--taken-status", "1", "--refused-status", "0"], 0, GOOD, ""),
    ([*PYTHON, READ + "sys.exit(0 if t.strip() == b'x' else 4)"], ["--refused-status", "3-5"], 0, GOOD, ""),
    ([*PYTHON, READ + "sys.exit(4 * (t.strip() != b'x'))"], ["--refused-status", "1"], 1, (3, 0, 0, 0, 0, 2), "status 4"),
    ([*PYTHON, READ + "sys.exit(0 if t.strip() == b'x' else 77)"], [], 0, (3, 0, 0, 0, 0, 0), "skipped"),
    ([*PYTHON, READ + "sys.exit(0 if t.strip() == b'x' else 77)"], ["--skip-status", "3"], 0, GOOD, ""),
    ([*PYTHON, "import sys; t = open(sys.argv[1], 'rb').read(); sys.exit(t.strip() != b'x')", "{}"], [], 0, GOOD, ""),
]

# What a frame does with a text that has a name, the status of the run on lists, whether all negatives with names are
# refused, and how the cases with a name are told.
FRAMES = [
    ("refuses", "wrongly refused: rule 2 (value : NAME)"),
    ("dies", "died of signal 11, SIGSEGV: rule 2 (value : NAME)"),
    ("ends", "ended with status 1 without an answer: rule 2 (value : NAME)"),
    ("answers nonsense", "another answer: rule 2 (value : NAME)"),
    ("answers twice", "answered more than one line: rule 2 (value : NAME)"),
    ("answers for ever", "answered more than 65536 bytes without a line's end: rule 2 (value : NAME)"),
    ("closes its output", "closed its input or its output: rule 2 (value : NAME)"),
    ("complains much", "wrongly refused: rule 2 (value : NAME)"),
    ("leaves a child", "ended with status 0 without an answer: rule 2 (value : NAME)"),
    ("answers with a carriage return", "wrongly refused: rule 2 (value : NAME)"),
    ("ends well", "wrongly refused: rule 2 (value : NAME)"),
]

# The columns of a terminal, variables of the environment, and the lines that stand there in turn, each in the last one's
# place: a parser that takes `x x` has three texts of FIRST, the third of which is a failed case.
TERMINALS = [
    (80, {"TERM": "xterm"}, ["0 of 3 texts, 0 cases failed", "2 of 3 texts, 0 cases failed", "finding the causes of what"]),
    (80, {"TERM": "xterm", "NO_COLOR": "1"}, ["0 of 3 texts, 0 cases failed"]),
    (0, {"TERM": "xterm"}, ["0 of 3 texts, 0 cases failed"]),
    (12, {"TERM": "xterm"}, ["0 of 3 text", "2 of 3 text"]),
    (80, {"TERM": "dumb"}, []),
    (80, {"TERM": ""}, []),
    (80, {"TERM": "xterm", "CI": "true"}, []),
]
# Runs a job that isn't in front of its terminal, which is its standard error.
BEHIND = [
    *("setsid", "sh", "-c", 'exec 3<>"$(readlink /proc/self/fd/2)"; exec "$@"', "sh"),
    *("bash", "-mc", '"$@" & exec 2>/dev/null; wait $!', "bash"),
]
# Runs a tool that says in each look how far it is where that can't be written anew.
HASTY = [
    *PYTHON,
    "import runpy, sys; sys.path.insert(0, sys.argv[1]); import progress; progress.SECONDS_BETWEEN_LINES = 0; "
    "sys.argv = sys.argv[2:]; runpy.run_path(sys.argv[0], run_name='__main__')",
    os.path.join(TOP, "tools"),
]

# Words in which SUITE stands for a manifest.
BAD_CALLS = [
    "",
    "SUITE",
    "SUITE --",
    "nothing -- cat",
    "SUITE -- ./nothing",
    "--jobs 0 SUITE -- cat",
    "--seconds -1 SUITE -- cat",
    "--taken-status 256 SUITE -- cat",
    "--taken-status x SUITE -- cat",
    "--taken-status 1 --refused-status 1 SUITE -- cat",
    "--kinds rules SUITE -- cat",
    "--kinds swap SUITE -- cat",
    "--batch SUITE -- cat {}",
    "--batch SUITE -- /bin/false",
    "--batch SUITE -- ./nothing",
    "--known nothing SUITE -- cat",
    "--write-known SUITE SUITE -- cat",
    "--junit no/such/folder SUITE -- cat",
]


def counts_of(table):
    """How many positives and negatives were taken, refused, and neither; skipped ones count nowhere."""
    counts = [0] * 6
    for kind, *numbers in re.findall(r"^(\w+) +(\d+) +(\d+) +(\d+)", table, re.M):
        begin = 0 if kind in ("rule", "context", "pair") else 3
        for place, number in enumerate(numbers):
            counts[begin + place] += int(number)
    return tuple(counts)


def alone(folder):
    paths = [written(folder, "first", FIRST), written(folder, "second", SECOND)]
    for place, (words, options, status, counts, said) in enumerate(ALONE):
        found = call("try_parser", *options, paths[place % 2], "--", *words)
        if (found[0], counts_of(found[1])) != (status, counts) or said not in found[1] + found[2]:
            yield f"a parser {words} with {options}: {found}"


def left_over(command):
    """Whether a process of this command runs."""
    return subprocess.run(["pgrep", "-x", "-f", command], capture_output=True).returncode == 0


def slow(folder):
    """What takes too long is ended with all that it started, and so is what is left behind a text."""
    path = written(folder, "slow", FIRST)
    rows = [(f"{SLEEP} | cat", "too slow"), (f"{SLEEP} & exit 0", "taken"), (f"{SLEEP} & {SLEEP}", "too slow")]
    for script, said in rows:
        began = time.monotonic()
        found = call("try_parser", "--seconds", "5", path, "--", "sh", "-c", script)
        if found[0] != 2 or said not in found[2] or time.monotonic() - began > 300 or left_over(SLEEP):
            yield f"a parser {script}: {found}"
    log = written(folder, "log", "")
    script = f"echo started >> {log}; test ! -s /dev/stdin || exec {SLEEP}; exit 1"
    found = call("try_parser", "--seconds", "5", path, "--", "sh", "-c", script)
    with open(log) as file:
        count = len(file.readlines())
    if found[0] != 1 or "cause 1: too slow: above 5 seconds: rule 1 (s : 'x')\n" not in found[1] or count != 3:
        yield f"a parser that is slow is asked {count} times: {found}"
    once = call("try_parser", "--all", "--seconds", "0.3", "--stop-after", "1", "--jobs", "1", path, "--", "sleep", "5")
    has_stopped = "; 1 of 3 different texts run; 3 failed" in once[1]
    if once[0] != 1 or once[1].count("the parser: too slow") != 3 or not has_stopped:
        yield f"a parser that is slow, once: {once}"


def interrupted(folder):
    """An interrupt ends what runs, and what was seen so far is told; so it is where the parser is asked for its words."""
    path = written(folder, "interrupted", FIRST)
    words = [os.path.join(TOP, "tools", "try_parser"), "--jobs", "1", "--seconds", "300", path, "--"]
    asked_again = f"test -f /dev/stderr && exec {SLEEP}; test ! -s /dev/stdin"
    rows = [(signal.SIGINT, SLEEP, "; 0 of 3 different texts run"), (signal.SIGTERM, SLEEP, "; 0 of 3 different texts run")]
    rows.append((signal.SIGINT, asked_again, "cause 1: wrongly refused: rule 1 (s : 'x')\n"))
    for number, script, said in rows:
        pipes = {"stdout": subprocess.PIPE, "stderr": subprocess.PIPE}
        run = subprocess.Popen([*words, "sh", "-c", script], preexec_fn=heed_interrupts, **pipes)
        until = time.monotonic() + 300
        while not left_over(SLEEP) and time.monotonic() < until:
            time.sleep(0.05)
        run.send_signal(number)
        output, errors = (piece.decode() for piece in run.communicate(timeout=300))
        is_told = said in output and errors == "try_parser: interrupted: what was found up to then is told\n"
        if run.returncode != 130 or not is_told or left_over(SLEEP):
            yield f"an interrupt {number} of {script}: {run.returncode}, {output}, {errors}"


def progress(folder):
    """A line on a terminal says how far a run is, and is gone at the end; elsewhere one is said now and then. What is on
    standard output stays the same."""
    path = written(folder, "progress", FIRST)
    # the last text takes longer, so that the others are counted before
    script = "t=$(cat); case $t in 'x x') sleep 1 ;; '') exit 1 ;; esac"
    words = [os.path.join(TOP, "tools", "try_parser"), "--jobs", "1", path, "--", "sh", "-c", script]
    wanted = call("try_parser", *words[1:])[1]
    for columns, environment, lines in TERMINALS:
        shown, output = on_terminal(words, columns, **environment)
        is_gone = shown.endswith(CLEARED) if lines else shown == ""
        has_room = all(len(line) < (columns or 80) for line in shown.split(CLEARED))
        if output != wanted or not (is_gone and has_room) or not in_order([CLEARED + line for line in lines], shown):
            yield f"a terminal of {columns} columns with {environment}: {shown!r}, {output}"
    shown, output = on_terminal([*BEHIND, *words], 80, TERM="xterm")
    if (shown, output) != ("", wanted):
        yield f"a job that isn't in front: {shown!r}, {output}"
    done = subprocess.run([*HASTY, *words], capture_output=True, timeout=300)
    lines = done.stderr.decode().splitlines()
    if done.stdout.decode() != wanted or not in_order(["try_parser: 0 of 3 texts,", "try_parser: 2 of 3"], "\n".join(lines)):
        yield f"lines of a log: {done}"
    if not all(re.fullmatch(r"try_parser: [\w ]+(, \d cases? failed)?", line) for line in lines):
        yield f"lines of a log: {lines}"


def frames(folder):
    path = written(folder, "lists", lists_suite(operators=["delete"], bases=4))
    for deed, said in FRAMES:
        found = call("try_parser", path, "--seconds", "60", "--kinds", "rule", *frame("frame.py", deed))
        is_told = f"cause 1: {said}\n" in found[1] and " of 1 cause;" in found[1]
        if found[0] != 1 or not is_told or left_over(SLEEP):
            yield f"a frame that {deed}: {found}"
    hanging = call("try_parser", path, "--all", "--seconds", "3", "--kinds", "rule", *frame("frame.py", "hangs"))
    # on a machine that is busy a frame may not even begin in this time
    if hanging[0] not in (1, 2) or "too slow" not in hanging[1] + hanging[2]:
        yield f"a frame that hangs: {hanging}"
    shown = call("try_parser", path, "--seconds", "60", "--batch", "--", os.path.join(TOP, "tools", "batch_frame.py"))
    if shown[0] != 1 or re.findall(r"^cause .*", shown[1], re.M) != ["cause 1: wrongly refused: rule 2 (value : NAME)"]:
        yield f"the frame around Python's json: {shown}"
    good = call("try_parser", path, "--seconds", "60", "--kinds", "rule", *frame("frame.py", "takes"))
    deaf = call("try_parser", path, "--seconds", "60", "--kinds", "rule", *frame("frame.py", "closes its input"))
    for found in (good, deaf):
        if found[0] != 0 or "; 0 failed; 0 without a text" not in found[1]:
            yield f"a good frame: {found}"


def starts(folder):
    """A frame is started once, as often as there are jobs, and once more behind each text at which it dies."""
    suite, log = lists_suite(operators=[]), os.path.join(folder, "starts")
    path, with_names = written(folder, "lists", suite), set(re.findall(r"^  text .*a.*", suite, re.M))
    rows = [("takes", "1", 1), ("takes", "3", 3), ("dies", "1", 1 + len(with_names))]
    for deed, jobs, wanted in rows:
        written(folder, "starts", "")
        call("try_parser", path, "--seconds", "60", "--jobs", jobs, *frame("frame.py", deed, log))
        with open(log) as file:
            found = file.read().count("started")
        if found not in (wanted, wanted - 1):
            yield f"a frame that {deed}, {jobs} at once: {found} starts, not {wanted}"


def many(folder):
    """10,000 texts, to a frame that does nothing."""
    lists = [f'wrong {number} rule 1 drop 1 outside\n  tokens\n  text "{number}"\n' for number in range(1, 10_001)]
    end_line = "end slips 10000 none 0 large 0 again 0 long 0 sentences 0 wrong 10000\n"
    path = written(folder, "many", "conform wrong\n" + "".join(lists) + end_line)
    began = time.monotonic()
    refusing = "import sys\nfor line in sys.stdin: print('refused', flush=True)"
    found = call("try_parser", path, "--batch", "--", *PYTHON, refusing)
    if found[0] != 0 or "all 10000 different texts run; 0 failed" not in found[1]:
        yield f"many texts: {found}"
    if time.monotonic() - began > 120:
        yield f"many texts take {time.monotonic() - began:.1f} seconds"


def readers(folder):
    """A reader that stops reading isn't told of as an error."""
    path = written(folder, "lists", lists_suite())
    words = " ".join([os.path.join(TOP, "tools", "try_parser"), path, *frame("lists.py", "more"), "| head -n 1"])
    found = subprocess.run(["bash", "-c", f"{words}; exit ${{PIPESTATUS[0]}}"], capture_output=True, timeout=300)
    if (found.returncode, found.stderr) != (1, b""):
        yield f"a reader that stops: {found}"


def missing(folder):
    """Where no text holds a token, nothing can be said of the parser; tokens of which no text is known are told."""
    text = re.sub(r'  text "x[^"]*"', "  no text lexeme 'x'", SECOND.replace("lexeme 'x' \"x\"", "lexeme 'x' none"))
    found = call("try_parser", written(folder, "missing", text), "--", "/bin/false")
    wanted = ["try_parser: no text holds a token", "try_parser: 'x': no text is known of this token"]
    if found[0] != 2 or not all(map(str.startswith, found[2].splitlines(), wanted)) or "4 without a text" not in found[1]:
        yield f"a suite without texts: {found}"


def bad_calls(folder):
    path = written(folder, "first", FIRST)
    for words in BAD_CALLS:
        found = call("try_parser", *(path if word == "SUITE" else word for word in words.split()))
        if found[0] != 2 or not found[2] or "Traceback" in found[2]:
            yield f"try_parser {words}: {found}"


end(alone, slow, interrupted, progress, frames, starts, many, readers, missing, bad_calls)
