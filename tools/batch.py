"""Parsers as one process for many texts: it gets a line of base64 for each text and answers with a line, taken or
refused."""

import base64
import os
import select
import subprocess
import time

from running import REFUSED, TAKEN, Group, other, too_slow

ANSWERS = {b"taken": TAKEN, b"refused": REFUSED}
MOST_ANSWER_BYTES = 65_536
KEPT_ERROR_BYTES = 4_096
PIECE = 65_536
# A command that failed so many times and never answered isn't a frame. One that was too slow takes time, and counts
# more.
MOST_IN_VAIN = 20
SLOW_IN_VAIN = 7
# How long a frame may take to end: at the end of all texts, and where it has closed a pipe.
SECONDS_TO_END = 1
SECONDS_TO_DIE = 5
OUT_OF_STEP = "the frame said more than a line for a text, so that answers may belong to other texts"


class NoAnswers(Exception):
    """The command never answered, however often it was started."""


def printed(line):
    """A line as a terminal may have it, cut where it is long."""
    return "".join(chr(byte) if 0x20 <= byte < 0x7F else "?" for byte in line.strip())[:200]


def last_line(errors):
    """The last line of an error output that says something."""
    return next((printed(line) for line in reversed(errors.split(b"\n")) if line.strip()), "")


class Frame:
    """A running command with its pipes, which is asked one text after another."""

    def __init__(self, command):
        self.group = Group(command, stdin=subprocess.PIPE, stdout=subprocess.PIPE, stderr=subprocess.PIPE, bufsize=0)
        self.streams = self.group.process.stdin, self.group.process.stdout, self.group.process.stderr
        self.texts, self.answers, self.errors = (stream.fileno() for stream in self.streams)
        # A child of the command may hold the pipes open when the command itself has ended.
        self.life = os.pidfd_open(self.group.process.pid) if hasattr(os, "pidfd_open") else None
        self.ready = select.poll()
        os.set_blocking(self.texts, False)
        for number in filter(None, (self.answers, self.errors, self.life)):
            os.set_blocking(number, False)
            self.ready.register(number, select.POLLIN)
        self.unsent = self.answered = self.said = b""
        self.ended = self.is_deaf = self.has_answered = False

    def send(self):
        """Writes what the pipe takes of what is unsent."""
        try:
            self.unsent = self.unsent[os.write(self.texts, self.unsent) :]
        except BlockingIOError:
            pass
        except BrokenPipeError:
            self.is_deaf, self.unsent = True, b""
        if self.unsent:
            self.ready.register(self.texts, select.POLLOUT)

    def taken(self, number):
        """What stands in a pipe; its end is noted."""
        try:
            piece = os.read(number, PIECE)
        except BlockingIOError:
            return b""
        if not piece:
            self.ready.unregister(number)
            self.ended = self.ended or number == self.answers
        return piece

    def serve(self, seconds):
        """Waits until something is ready, and serves it."""
        ready = [number for number, _ in self.ready.poll(max(0, seconds) * 1000)]
        if self.texts in ready:
            self.ready.unregister(self.texts)
            self.send()
        if self.errors in ready:
            self.said = (self.said + self.taken(self.errors))[-KEPT_ERROR_BYTES:]
        if self.answers in ready:
            self.answered += self.taken(self.answers)
        elif self.life in ready:
            self.ended = True

    def is_waiting(self):
        """Whether it is there, and has said nothing since its last answer."""
        self.serve(0)
        return not self.ended and not self.answered

    def answer(self, text, seconds):
        """The bytes that it answers: a line, or what there is where it ended, took too long or went on without a line's
        end."""
        until = time.monotonic() + seconds
        self.unsent = base64.b64encode(text) + b"\n"
        self.send()
        while not (b"\n" in self.answered or self.ended or self.is_deaf or len(self.answered) > MOST_ANSWER_BYTES):
            left = until - time.monotonic()
            if left <= 0:
                break
            self.serve(left)
        found, self.answered = self.answered, b""
        return found

    def take_errors(self):
        """Takes what is left of the error output."""
        try:
            while piece := os.read(self.errors, PIECE):
                self.said = (self.said + piece)[-KEPT_ERROR_BYTES:]
        except BlockingIOError:
            pass

    def end(self, seconds=SECONDS_TO_END):
        """The status that it ended with, or None where it hadn't in this time; then nothing of it is left."""
        self.streams[0].close()
        status = self.group.wait(seconds)
        self.take_errors()
        for stream in self.streams:
            stream.close()
        if self.life is not None:
            os.close(self.life)
        return status


class Batch:
    """A parser that is started once for many texts, and anew behind a text at which it died, took too long or lost its
    step."""

    def __init__(self, command, seconds, statuses):
        self.command, self.seconds, self.statuses = command, seconds, statuses
        self.frame, self.starts, self.has_answered, self.notes = None, 0, False, set()
        self.in_vain, self.last_death = 0, ""

    def ask(self, text):
        if self.frame and not self.frame.is_waiting():
            self.lose_step()
        if not self.frame:
            self.start()
        line, end, rest = self.frame.answer(text, self.seconds).partition(b"\n")
        if not end or rest:
            return self.without_answer(text, line, end)
        self.has_answered = self.frame.has_answered = True
        return ANSWERS.get(line.strip()) or other(f"answered {printed(line)!r}", "another answer")

    def start(self):
        if self.in_vain >= MOST_IN_VAIN and not self.has_answered:
            told = f"it was started {self.starts} times and never answered; the last time it {self.last_death}"
            raise NoAnswers(told)
        self.frame, self.starts = Frame(self.command), self.starts + 1

    def lose_step(self):
        """Ends a frame that said something, or ended, between two texts."""
        if not self.frame.ended:
            self.notes.add(OUT_OF_STEP)
        self.close()

    def without_answer(self, text, line, end):
        """The outcome where there was no answer, or more than one. The frame is ended."""
        frame, self.frame = self.frame, None
        if not end and (frame.ended or frame.is_deaf):
            return self.without_frame(text, frame)
        frame.end(0)
        if end:
            return other("answered more than one line")
        if len(line) > MOST_ANSWER_BYTES:
            return other(f"answered more than {MOST_ANSWER_BYTES} bytes without a line's end")
        self.fail(SLOW_IN_VAIN, "was too slow: does it flush each line?")
        return too_slow(self.seconds)

    def without_frame(self, text, frame):
        """The outcome where the frame went. One that goes well behind an answer didn't die of the next text, which is
        asked again."""
        status, said = frame.end(SECONDS_TO_DIE), last_line(frame.said)
        if frame.has_answered and (status == 0 or frame.is_deaf):
            return self.ask(text)
        if status is None:
            how = "closed its input or its output"
        elif status < 0:
            how = self.statuses.outcome(status).told
        else:
            how = f"ended with status {status} without an answer"
        told = f"{how}: {said}" if said else how
        self.fail(1, told)
        return other(told, how)

    def fail(self, weight, told):
        self.in_vain, self.last_death = self.in_vain + weight, told

    def close(self):
        if self.frame:
            self.frame.end()
        self.frame = None
