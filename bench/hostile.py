#!/usr/bin/env python3
"""Times `conform rules` on texts of 1 MiB that were made to be slow to read: bench/hostile.py [PROGRAM].

Each row is a text, with the status of one run beside the wanted one, and its processor seconds beside the bound. It ends with
status 1 where the bound is passed or the status is another. Nothing here is part of the gate.
"""

from measure import Bounds, Run, program

MOST = 1048576
SECONDS = 1.0


def filled(head, piece, tail=b""):
    """The pieces as often as they fit between a head and a tail."""
    return head + piece * ((MOST - len(head) - len(tail)) // len(piece)) + tail


def names():
    lines = b"%token"
    for number in range(200000):
        line = b"\nt%d" % number
        if len(lines) + len(line) > MOST:
            break
        lines += line
    return lines


HEAD = b"%%\ns : { "
TEXTS = {
    "escaped marks on one line, in a block": filled(HEAD, rb"\'", b" } ;"),
    "escaped marks on one line, in an open block": filled(HEAD, rb"\'"),
    "escaped double marks on one line": filled(HEAD, rb"\"", b" } ;"),
    "marks of both kinds by turns": filled(HEAD, rb"'\"", b" } ;"),
    "marks with a backslash behind, in a block": filled(HEAD, b"'\\\n", b" } ;"),
    "one mark a line": filled(HEAD, b"'\n", b" } ;"),
    "nested braces": filled(HEAD, b"{"),
    "nested braces that are closed": HEAD + b"{" * 500000 + b"}" * 500001 + b" ;",
    "open comments": filled(b"", b"/* "),
    "comments": filled(b"", b"/**/"),
    "slashes": filled(HEAD, b"/ "),
    "open prologues": filled(b"", b"%{ "),
    "percent signs": filled(b"", b"%"),
    "percent signs in rules": filled(b"%%\ns : ", b"%"),
    "one name a line": names(),
    "one rule a line": filled(b"%%\n", b"s : s ;\n"),
    "one long name": filled(b"%token ", b"a"),
    "open tags": filled(b"%token ", b"<"),
    "blanks": filled(b"", b" "),
    "bytes 0": filled(b"", b"\0"),
    "bytes 255": filled(b"", b"\xff"),
    "bars": filled(b"%%\ns : ", b"|"),
    "literals": filled(b"%%\ns : ", b"'a' "),
}


# the texts that are yacc files of the profile: each of the others is refused
ACCEPTED = {
    "escaped marks on one line, in a block",
    "escaped double marks on one line",
    "marks of both kinds by turns",
    "marks with a backslash behind, in a block",
    "one mark a line",
    "nested braces that are closed",
    "percent signs in rules",
}


def main():
    path, bounds = program(), Bounds()
    for name, text in TEXTS.items():
        run = Run(path, text)
        bounds.status(name, run, 0 if name in ACCEPTED else 1)
        bounds.row("  time", run.seconds, SECONDS, "s")
    bounds.end()


if __name__ == "__main__":
    main()
