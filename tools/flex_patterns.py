"""Patterns of flex 2.6: their parts, and what stands for each in the profile of docs/FORMATS.md."""

import re
from typing import NamedTuple

from bison import Refusal
from plain import LETTERS

NAMED = rb"\[:\^?[A-Za-z]+:\]"
ESCAPE = rb"\\(?:[0-7]{1,3}|x[0-9A-Fa-f]{1,2}|[^\n])"
PART = re.compile(
    rb'(?P<quoted>"(?:\\[^\n]|[^"\\\n])*")'
    rb"|(?P<bracket>\[\^?(?:" + NAMED + rb"|\\[^\n]|[^\\\n])(?:" + NAMED + rb"|\\[^\n]|[^\\\n\]])*\])"
    rb"|(?P<operation>\{[-+]\})|(?P<repetition>[*+?]|\{[0-9]+(?:,[0-9]*)?\})|(?P<name>\{[A-Za-z_][A-Za-z0-9_-]*\})"
    rb"|(?P<remark>\(\?#[^)]*\))|(?P<options>\(\?[isx]*(?:-[isx]*)?:)|(?P<open>\()|(?P<close>\))|(?P<bar>\|)|(?P<any>\.)"
    rb"|(?P<end><<EOF>>)|(?P<trailing>/)|(?P<escape>" + ESCAPE + rb")|(?P<byte>[^\n\"\[{}?*+\\])"
)
BLANKS = re.compile(rb"[ \t\r\n]+|/\*.*?\*/", re.S)
# A member of a bracket; a `-` in front or at the end is a byte.
RANGE = re.compile(
    rb"(?P<named>" + NAMED + rb")|(?P<first>" + ESCAPE + rb"|[^\n])(?:-(?P<last>" + ESCAPE + rb"|[^\n]))?"
)
ALL = frozenset(range(256))
CLASSES = {
    b"upper": range(0x41, 0x5B),
    b"lower": range(0x61, 0x7B),
    b"digit": range(0x30, 0x3A),
    b"blank": b" \t",
    b"space": b" \t\n\v\f\r",
    b"cntrl": [*range(0x20), 0x7F],
    b"graph": range(0x21, 0x7F),
    b"print": range(0x20, 0x7F),
    b"xdigit": b"0123456789ABCDEFabcdef",
}
CLASSES[b"alpha"] = [*CLASSES[b"upper"], *CLASSES[b"lower"]]
CLASSES[b"alnum"] = [*CLASSES[b"alpha"], *CLASSES[b"digit"]]
CLASSES[b"punct"] = [byte for byte in CLASSES[b"graph"] if byte not in CLASSES[b"alnum"]]
# How control bytes are written; a letter's byte is LETTERS' in plain.py.
CONTROLS = {value: b"\\%c" % letter for letter, value in LETTERS.items() if value < 0x20}


class LeftOut(Exception):
    """A pattern of flex that the profile has not: what of it."""


class Flags(NamedTuple):
    """What `(?i:`, `(?s:` and `(?x:` say of the patterns in them."""

    i: bool = False
    s: bool = False
    x: bool = False

    def changed(self, options):
        """The flags within `(?` and the options."""
        on, _, off = options[2:-1].decode().partition("-")
        return self._replace(**{flag: True for flag in on}, **{flag: False for flag in off})


class Part(NamedTuple):
    kind: str
    at: int
    text: bytes
    flags: Flags


def parts(text, at, flags):
    """The parts of the pattern that begins there, up to the first blank that ends it. The last one is `over`."""
    # Where the groups begin that are open, and the flags around them.
    outer = []
    while True:
        blanks = BLANKS.match(text, at) if flags.x else None
        if blanks:
            yield Part("blanks", at, blanks[0], flags)
            at = blanks.end()
            continue
        if at == len(text) or text[at : at + 1] in b" \t\r\n":
            if outer:
                raise Refusal(outer[-1][0], "this group is never closed: close it")
            yield Part("over", at, b"", flags)
            return
        found = PART.match(text, at)
        if not found:
            raise Refusal(at, "no part of a pattern begins so: close it, or quote the byte")
        kind = found.lastgroup
        if kind in ("open", "options"):
            outer.append((at, flags))
            flags = flags.changed(found[0]) if kind == "options" else flags
        if kind == "close":
            if not outer:
                raise Refusal(at, "this closes a group that was never opened")
            flags = outer.pop()[1]
        yield Part(kind, at, found[0], flags)
        at = found.end()


def pattern_end(text, at):
    """Where the pattern ends that begins there."""
    return [part.at for part in parts(text, at, Flags())][-1]


def value_of(escape):
    """The byte that a byte or an escape stands for."""
    if len(escape) == 1:
        return escape[0]
    if escape[1:2] in b"01234567":
        return int(escape[1:], 8) & 0xFF
    if escape[1:2] == b"x" and len(escape) > 2:
        return int(escape[2:], 16)
    return LETTERS.get(escape[1], escape[1])


def is_letter(byte):
    return bytes([byte]).isalpha()


def both_cases(byte):
    return {byte, byte ^ 0x20} if is_letter(byte) else {byte}


def class_of(named, flags):
    name = named[2:-2].lstrip(b"^")
    if name not in CLASSES:
        raise LeftOut(f"the class {named.decode()}")
    negated, cased = named.startswith(b"[:^"), name in (b"upper", b"lower")
    if cased and flags.i:
        return frozenset() if negated else frozenset(CLASSES[b"alpha"])
    return ALL - frozenset(CLASSES[name]) if negated else frozenset(CLASSES[name])


def bracket_set(text, flags):
    """The bytes of a bracket."""
    found = set()
    for member in RANGE.finditer(text[2 if text.startswith(b"[^") else 1 : -1]):
        if member["named"]:
            found |= class_of(member[0], flags)
        else:
            found |= range_set(value_of(member["first"]), value_of(member["last"] or member["first"]), flags)
    return ALL - found if text.startswith(b"[^") else frozenset(found)


def range_set(first, last, flags):
    found = set(range(first, last + 1))
    if flags.i and is_letter(first) and is_letter(last):
        found |= set(range(first ^ 0x20, (last ^ 0x20) + 1))
    return found


def member_text(byte):
    if byte in b"\\]^-[":
        return b"\\%c" % byte
    return CONTROLS.get(byte) or (b"%c" % byte if 0x20 <= byte < 0x7F else b"\\x%02x" % byte)


def runs(members_in_order):
    """The longest runs of bytes that follow each other, as first and last."""
    found = []
    for byte in members_in_order:
        if found and found[-1][1] == byte - 1:
            found[-1][1] = byte
        else:
            found.append([byte, byte])
    return found


def run_text(first, last):
    dash = b"-" if last > first + 1 else b""
    return member_text(first) + (dash + member_text(last) if last > first else b"")


def bracket_text(members_of):
    """A bracket of the profile with these bytes."""
    if not members_of:
        raise LeftOut("a class without a byte")
    is_negated = 128 < len(members_of) < 256
    ordered = sorted(ALL - members_of if is_negated else members_of)
    return (b"[^" if is_negated else b"[") + b"".join(run_text(*run) for run in runs(ordered)) + b"]"
