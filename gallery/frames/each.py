"""each.py [OPTIONS] -- COMMAND..: a command that is started for each text.

The command gets the text on its standard input, or in a file whose name stands for a word {text}. It refuses a text
where what it writes has the pattern, or by one of some statuses, and takes it by one of others. What else it does is
told.
"""

import argparse
import base64
import os
import re
import select
import signal
import sys
import tempfile

TICKS = os.sysconf("SC_CLK_TCK")
# How often it is looked at what a running command has used.
SECONDS_BETWEEN_LOOKS = 0.05


def arguments(words):
    parser = argparse.ArgumentParser(prog="each.py", description=__doc__.split("\n\n")[0])
    parser.add_argument("--taken", default="0", metavar="LIST", help="statuses that take, with commas between them (0)")
    parser.add_argument("--refused", default="1", metavar="LIST", help="statuses that refuse, as in --taken (1)")
    parser.add_argument("--message", metavar="PATTERN", help="a pattern of what is written where a text is refused")
    parser.add_argument("--before", default="", metavar="LINE", help="a line that stands in front of each text")
    parser.add_argument("--seconds", type=float, default=30, help="the processor time that a text may take (30)")
    parser.add_argument("--slow", default="too slow", metavar="ANSWER", help="what is answered behind that (too slow)")
    parser.add_argument("command", nargs="+", help="behind --: the parser and its words")
    return parser.parse_args(words)


def seconds_of(process):
    """The processor time of a running process."""
    with open(f"/proc/{process}/stat") as file:
        user, system = file.read().rpartition(")")[2].split()[11:13]
    return (int(user) + int(system)) / TICKS


def status_of(process, seconds):
    """The status of a process, as subprocess tells it, or None where it takes more processor time, and is ended."""
    life, slow = os.pidfd_open(process), False
    ready = select.poll()
    ready.register(life, select.POLLIN)
    while not ready.poll(SECONDS_BETWEEN_LOOKS * 1000):
        if seconds_of(process) > seconds:
            os.kill(process, signal.SIGKILL)
            slow = True
    os.close(life)
    status = os.waitstatus_to_exitcode(os.waitpid(process, 0)[1])
    return None if slow else status


class Each:
    """A command with files for its text and for what it writes."""

    def __init__(self, asked, folder):
        self.asked = asked
        self.text, self.written = os.path.join(folder, "text"), os.path.join(folder, "written")
        self.words = [self.text if word == "{text}" else word for word in asked.command]
        given = os.devnull if "{text}" in asked.command else self.text
        kept = os.O_WRONLY | os.O_CREAT | os.O_TRUNC
        self.files = [(os.POSIX_SPAWN_OPEN, 0, given, os.O_RDONLY, 0)]
        self.files += [(os.POSIX_SPAWN_OPEN, 1, self.written, kept, 0o600), (os.POSIX_SPAWN_DUP2, 1, 2)]

    def run(self, text):
        """The command's status and what it wrote."""
        with open(self.text, "wb") as file:
            file.write((self.asked.before + "\n").encode() + text if self.asked.before else text)
        process = os.posix_spawnp(self.words[0], self.words, os.environ, file_actions=self.files)
        status = status_of(process, self.asked.seconds)
        with open(self.written, encoding="latin-1") as file:
            return status, file.read()

    def answer(self, text):
        status, written = self.run(text)
        if status is None:
            return self.asked.slow
        if self.asked.message and re.search(self.asked.message, written):
            return "refused"
        if str(status) in self.asked.taken.split(","):
            return "taken"
        return "refused" if str(status) in self.asked.refused.split(",") else f"status {status}"


def serve(words, make):
    """Answers a line for each text, by what is made of the words and a folder."""
    with tempfile.TemporaryDirectory() as folder:
        each = make(arguments(words), folder)
        for line in sys.stdin.buffer:
            print(each.answer(base64.b64decode(line)), flush=True)


if __name__ == "__main__":
    serve(sys.argv[1:], Each)
