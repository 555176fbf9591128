"""Frames around a parser of examples/lists.y with planted faults: lists.py FAULT,.. It takes lines of base64 and
answers them.

comma: a comma may stand behind the last member. name: no name behind a comma. value: numbers alone behind a comma.
letters: no name of two letters. space: a number may follow the members without a comma. empty: no empty list. long: no
third member. crash: it dies of a list behind a comma. more: what stands behind a value isn't looked at.
"""

import base64
import os
import re
import signal
import sys

FAULTS = set(sys.argv[1].split(",")) if len(sys.argv) > 1 else set()
TOKEN = re.compile(rb"[0-9]+|[a-z]+|[][,]|[ \t\n]+")


class Refused(Exception):
    """The text isn't a value."""


class Parser:
    def __init__(self, text):
        found = TOKEN.findall(text)
        if b"".join(found) != text:
            raise Refused
        self.tokens, self.at = [token.decode() for token in found if not token.isspace()], 0

    @property
    def next(self):
        return self.tokens[self.at] if self.at < len(self.tokens) else ""

    def take(self, is_meant):
        if not is_meant:
            raise Refused
        self.at += 1

    def whole(self):
        self.value()
        if self.at < len(self.tokens) and "more" not in FAULTS:
            raise Refused

    def value(self):
        if self.next != "[":
            is_long_name = self.next.isalpha() and len(self.next) > 1
            return self.take(self.next.isalnum() and not ("letters" in FAULTS and is_long_name))
        self.take(True)
        if self.next != "]" or "empty" in FAULTS:
            self.members()
        self.take(self.next == "]")

    def members(self):
        self.value()
        count = 1
        while self.next == ",":
            self.take(True)
            count += 1
            self.member(count)
        if "space" in FAULTS and self.next.isdigit():
            self.take(True)

    def member(self, count):
        if "crash" in FAULTS and self.next == "[":
            os.kill(os.getpid(), signal.SIGSEGV)
        if "value" in FAULTS and not self.next.isdigit():
            raise Refused
        if "name" in FAULTS and self.next.isalpha() or "long" in FAULTS and count == 3:
            raise Refused
        if "comma" not in FAULTS or self.next != "]":
            self.value()


def takes(text):
    try:
        Parser(text).whole()
    except Refused:
        return False
    return True


for line in sys.stdin.buffer:
    print("taken" if takes(base64.b64decode(line)) else "refused", flush=True)
