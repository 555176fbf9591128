"""What tools that write a file anew have in common: how it is read, what is refused, and the statuses."""

import signal
import sys

from bison import Refusal
from places import place


def tell(tool, name, text, at, message):
    """A line on the error output, with the place of an offset."""
    line, column = place(text, at)
    print(f"{tool}: {name}:{line}:{column}: {message}", file=sys.stderr)


def read(tool, name, convert):
    """The status, and what is made of the file's text. Status 1: it is refused; 3: it isn't read."""
    try:
        with open(name, "rb") as file:
            text = file.read()
    except OSError as error:
        print(f"{tool}: {name}: {error.strerror}", file=sys.stderr)
        return 3, None
    try:
        return 0, convert(text)
    except Refusal as refusal:
        tell(tool, name, text, refusal.at, refusal.message)
        return 1, None


def run(tool, name, convert):
    """Writes what is made of the file's text, and gives the status."""
    # Whoever reads the output may stop reading.
    signal.signal(signal.SIGPIPE, signal.SIG_DFL)
    status, written = read(tool, name, convert)
    if status == 0:
        sys.stdout.buffer.write(written)
    return status


def asks_for_help(words, told):
    """Whether help is asked for, which is written then."""
    if not {"--help", "-h"} & {*words}:
        return False
    print(told.strip())
    return True
