#!/usr/bin/env python3
"""A frame for `tools/try_parser --batch`, around Python's json: it gets a line of base64 for each text, and answers
with a line.

To try another parser, write `takes` anew: it says whether the parser takes a text. What it raises, other than the
parser's own refusal, is told on the line, and counts as neither taken nor refused. Whatever a parser prints must not go
to standard output.
"""

import base64
import json
import sys


def takes(text):
    try:
        json.loads(text)
    except ValueError:
        return False
    return True


def answer(text):
    try:
        return "taken" if takes(text) else "refused"
    except Exception as error:
        return f"{type(error).__name__}: {error}".replace("\n", " ")


def main():
    for line in sys.stdin.buffer:
        print(answer(base64.b64decode(line)), flush=True)


if __name__ == "__main__":
    main()
