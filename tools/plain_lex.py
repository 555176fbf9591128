"""Lex files in the profile of docs/FORMATS.md, once the program has taken them: their rules, with patterns as trees."""

import re
from typing import NamedTuple

from flex import NAME, Layout, Line, Rule
from flex_patterns import ESCAPE, Flags, bracket_set, parts, value_of


class Class(NamedTuple):
    """One byte of these."""

    bytes: frozenset


class Join(NamedTuple):
    """Parts one behind the other."""

    parts: tuple


class Either(NamedTuple):
    """One of the parts."""

    parts: tuple


class Many(NamedTuple):
    """The part any number of times."""

    part: object


EMPTY = Join(())
NOT_A_NEWLINE = frozenset(range(256)) - {10}
QUOTED = re.compile(ESCAPE + rb"|[^\\]")
SIGNS = {b"*": (0, None), b"+": (1, None), b"?": (0, 1)}


class PlainLayout(Layout):
    """Of the profile no rule is indented, and none stands in a scope."""

    def kind_in_rules(self, at):
        if self.text.startswith(b"%%", at):
            return "mark"
        if self.text.startswith(b"%{", at):
            return "block"
        return "kept" if self.text.startswith((b" ", b"\t", b"\r", b"\n", b"/*", b"//"), at) else "rule"

    def part_of_rules(self, kind, at):
        return Line(kind, at, self.code_end(at, False)) if kind == "kept" else super().part_of_rules(kind, at)


def counts(sign):
    """How often a part stands at least and at most; None is without end."""
    if sign in SIGNS:
        return SIGNS[sign]
    least, comma, most = sign[1:-1].partition(b",")
    return int(least), int(most) if most else None if comma else int(least)


def repeated(part, sign):
    least, most = counts(sign)
    more = (Many(part),) if most is None else (Either((part, EMPTY)),) * (most - least)
    return Join((part,) * least + more)


def one(kind, found):
    return found[0] if len(found) == 1 else kind(tuple(found))


class Patterns:
    """The patterns of a file, with its definitions put in."""

    def __init__(self, texts):
        self.texts, self.known = texts, {}

    def defined(self, name):
        if name not in self.known:
            self.known[name] = self.pattern(self.texts[name])
        return self.known[name]

    def pattern(self, text):
        # The branches of each open group, the innermost last.
        groups = [[[]]]
        for part in parts(text, 0, Flags()):
            branch = groups[-1][-1]
            if part.kind == "open":
                groups.append([[]])
            elif part.kind == "bar":
                groups[-1].append([])
            elif part.kind in ("close", "over"):
                found = one(Either, [one(Join, each) for each in groups.pop()])
                if part.kind == "over":
                    return found
                groups[-1][-1].append(found)
            elif part.kind == "repetition":
                branch.append(repeated(branch.pop(), part.text))
            else:
                branch.append(self.atom(part))

    def atom(self, part):
        if part.kind == "name":
            return self.defined(part.text[1:-1])
        if part.kind == "quoted":
            return Join(tuple(Class(frozenset([byte])) for byte in map(value_of, QUOTED.findall(part.text[1:-1]))))
        if part.kind == "bracket":
            return Class(frozenset(bracket_set(part.text, part.flags)))
        return Class(NOT_A_NEWLINE if part.kind == "any" else frozenset([value_of(part.text)]))


class PlainRule(NamedTuple):
    """A rule of the file: its pattern, and the text of its action."""

    pattern: object
    action: bytes


def rules(text):
    """The rules of a file in order."""
    layout, definitions, at = PlainLayout(text), {}, 0
    for found in layout.definitions():
        if found.kind == "definition":
            name = NAME.match(text, found.at)[0]
            definitions[name] = text[found.at + len(name) : found.end].strip()
        at = found.end + 1
    patterns = Patterns(definitions)
    some = [found for found in layout.rules(at) if isinstance(found, Rule)]
    return [PlainRule(patterns.pattern(text[each.pattern : each.pattern_end]), text[each.action : each.end]) for each in some]
