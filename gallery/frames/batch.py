"""What the frames in Python share: a parser that lives in one process and answers a line for each text."""

import base64
import sys


def serve(parse, refusals):
    """Answers `taken` where `parse` returns, `refused` where it raises one of `refusals`, else what it raised."""
    for line in sys.stdin.buffer:
        print(answer(parse, refusals, base64.b64decode(line)), flush=True)


def answer(parse, refusals, text):
    try:
        parse(text)
    except refusals:
        return "refused"
    except Exception as error:
        return f"raised {type(error).__name__}"
    return "taken"
