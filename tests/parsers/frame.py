"""A frame that takes each text without an `a`, and does as its first word says with one that has it; the second word is
a file to which it writes a line at each start."""

import base64
import os
import signal
import subprocess
import sys
import time


def answer(*lines):
    print("\n".join(lines), flush=True)


def print_for_ever():
    while True:
        sys.stdout.write("x" * 100_000)


def leave_a_child():
    subprocess.Popen(["sleep", os.environ["LONG_SLEEP"]])
    sys.exit(0)


def close(number, *lines):
    os.close(number)
    answer(*lines)
    time.sleep(60)


DEEDS = {
    "takes": lambda: answer("taken"),
    "refuses": lambda: answer("refused"),
    "dies": lambda: os.kill(os.getpid(), signal.SIGSEGV),
    "ends": lambda: sys.exit("no such letter"),
    "hangs": lambda: time.sleep(60),
    "answers nonsense": lambda: answer("Segmentation \x1bfault"),
    "answers twice": lambda: answer("taken", "refused"),
    "answers for ever": print_for_ever,
    "closes its input": lambda: close(0, "taken"),
    "closes its output": lambda: os.close(1) or time.sleep(60),
    "complains much": lambda: sys.stderr.write("e" * 1_000_000) and answer("refused"),
    "leaves a child": leave_a_child,
    "answers with a carriage return": lambda: answer("refused\r"),
    "ends well": lambda: answer("refused") or sys.exit(0),
}


def main():
    deed, *paths = sys.argv[1:]
    for path in paths:
        with open(path, "a") as file:
            file.write("started\n")
    for line in sys.stdin.buffer:
        DEEDS[deed]() if b"a" in base64.b64decode(line) else answer("taken")


main()
