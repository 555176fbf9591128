"""How far a run is, on standard error. On a terminal that is a line which is written anew in its place. Elsewhere it is a
line every two minutes: who reads a log sees that it goes on, and a CI service doesn't end it for its silence."""

import os
import sys
import time

SECONDS_BETWEEN_LOOKS = 0.1
SECONDS_BETWEEN_LINES = 120
# Of a terminal that doesn't tell how wide it is.
USUAL_COLUMNS = 80
CLEARED = "\r\033[K"


def is_rewritable():
    """Whether a line on standard error can be written anew. Some CI services give a terminal, and keep a log of it."""
    is_dumb = (os.environ.get("TERM") or "dumb") == "dumb"
    return sys.stderr.isatty() and not is_dumb and not os.environ.get("CI")


def is_in_front():
    """Whether the terminal is this job's: one in the background writes into no other's lines."""
    try:
        return os.tcgetpgrp(sys.stderr.fileno()) == os.getpgrp()
    except OSError:  # a terminal that isn't its session's
        return True


def columns():
    try:
        return os.get_terminal_size(sys.stderr.fileno()).columns or USUAL_COLUMNS
    except OSError:
        return USUAL_COLUMNS


class Line:
    """A line that says how far a run is. At the end of its context it is gone."""

    def __init__(self, name):
        self.name, self.shown, self.is_rewritable = name, "", is_rewritable()
        self.due = time.monotonic() + SECONDS_BETWEEN_LINES

    def tell(self, told):
        """Shows it in place of what is shown, or says it where a line is due."""
        if self.is_rewritable:
            self.show(told)
        elif time.monotonic() >= self.due:
            self.due = time.monotonic() + SECONDS_BETWEEN_LINES
            print(f"{self.name}: {told}", file=sys.stderr, flush=True)

    def show(self, told):
        if told != self.shown and is_in_front():
            # A line that fills the terminal goes on in the next one, and stays there.
            sys.stderr.write(CLEARED + told[: columns() - 1])
            sys.stderr.flush()
            self.shown = told

    def clear(self):
        if self.shown and is_in_front():
            sys.stderr.write(CLEARED)
            sys.stderr.flush()
        self.shown = ""

    def say(self, said):
        """Says what stays, above what is shown."""
        shown = self.shown
        self.clear()
        print(f"{self.name}: {said}", file=sys.stderr)
        if shown:
            self.show(shown)

    def __enter__(self):
        return self

    def __exit__(self, *_):
        self.clear()
