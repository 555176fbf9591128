"""Patterns and definitions of flex, written as the profile of docs/FORMATS.md has them."""

import re
from itertools import groupby

from bison import Refusal
from flex_patterns import Flags, LeftOut, both_cases, bracket_set, bracket_text, parts, pattern_end, value_of
from plain import COMMENT

# How many names may lead to each other, and how long a pattern may become once they are put in as text.
MOST_DEEP, MOST_WRITTEN = 200, 1 << 16
# An escape that would take a further digit along, and such a digit.
OPEN_ESCAPE = re.compile(rb"\\(?:[0-7]{1,2}|x[0-9A-Fa-f]?)\Z")
DIGIT = re.compile(rb"[0-9A-Fa-f]")
# What the profile doesn't read, or not as flex does.
FLEX_ALONE = re.compile(rb"\[:\^|\[[.=]|\\[4-7][0-7]{2}")
QUOTED_PART = re.compile(rb"\\(?:[0-7]{1,3}|x[0-9A-Fa-f]{1,2}|[^\n])|[^\\]")
DROPPED = ("blanks", "remark")


def groups(listed):
    """The parts in lists of one, but for a bracket and the brackets that operations join to it."""
    found = []
    for part in listed:
        before = found[-1][-1].kind if found else None
        is_joined = (before, part.kind) == ("bracket", "operation") or (before, part.kind) == ("operation", "bracket")
        if is_joined:
            found[-1].append(part)
        elif part.kind not in DROPPED:
            found.append([part])
    return found


def joined_set(group, flags):
    """The bytes of brackets behind each other, read by these flags, or by the parts' own where there are none."""
    found = bracket_set(group[0].text, flags or group[0].flags)
    for operation, part in zip(group[1::2], group[2::2]):
        other = bracket_set(part.text, flags or part.flags)
        found = found - other if operation.text == b"{-}" else found | other
    return found


def is_negated_union(group):
    """Whether `{+}` joins a bracket with `^`: flex 2.6.4 takes the bytes that stand in it, and not the others."""
    unions = [place for place, part in enumerate(group) if part.text == b"{+}"]
    joined = [group[place + 1] for place in unions] + (group[:1] if 1 in unions else [])
    return any(part.text.startswith(b"[^") for part in joined)


class Pattern:
    """A pattern on its way into the profile. What is plain already stays as it is spelled."""

    def __init__(self, definitions, flags, names=()):
        self.definitions, self.flags, self.names = definitions, flags, names
        # What is written, a piece for each part that a repetition may take, and where the open branches begin among them.
        self.pieces, self.branches = [], [0]
        # How much that is, where the last piece ends in the source, and whether it is several atoms.
        self.length, self.end, self.is_many = 0, 0, False

    def written(self, text):
        if self.definitions.names_are_texts:
            text = self.definitions.spelled_out(text, self.flags)
        listed = groups(parts(text, 0, self.flags))
        if listed[-1][0].at < len(text):
            raise LeftOut("a blank within it")
        for index, group in enumerate(listed[:-1]):
            is_last = index == len(listed) - 2
            self.put(group[0], getattr(self, "of_" + group[0].kind)(group, is_last))
            self.end = group[-1].at + len(group[-1].text)
        return b"".join(self.pieces)

    def put(self, part, piece):
        before = self.pieces[-1] if self.pieces else b""
        if part.at > self.end and OPEN_ESCAPE.search(before) and DIGIT.match(piece):
            piece = b'"%s"' % piece
        if part.kind == "repetition":
            self.pieces[-1:] = [before + piece]
        else:
            self.pieces.append(piece)
        self.length += len(piece)
        self.close_branch(part.kind)
        self.is_many = part.kind == "quoted" and piece != part.text
        if self.length > MOST_WRITTEN:
            raise LeftOut("names that are too long once put in")

    def close_branch(self, kind):
        """Notes where a branch begins; a group that is closed is one piece."""
        if kind in ("open", "options"):
            self.branches.append(len(self.pieces))
        elif kind == "bar":
            self.branches[-1] = len(self.pieces)
        elif kind == "close":
            begin = self.branches.pop() - 1
            self.pieces[begin:] = [b"".join(self.pieces[begin:])]

    def as_it_is(self, group, _):
        return group[0].text

    of_open = of_close = of_bar = as_it_is

    def of_options(self, *_):
        if self.definitions.has_low_intervals:
            raise LeftOut("(? under an option that knows no such groups")
        return b"("

    def of_repetition(self, group, _):
        # By lex an interval takes all of the branch before it.
        is_low = self.definitions.has_low_intervals and group[0].text.startswith(b"{")
        begin = self.branches[-1] if is_low else len(self.pieces) - 1
        if self.is_many or len(self.pieces) - begin > 1:
            self.pieces[begin:] = [b"(%s)" % b"".join(self.pieces[begin:])]
        return group[0].text

    def of_any(self, group, _):
        return bracket_text(frozenset(range(256))) if group[0].flags.s else b"."

    def of_bracket(self, group, _):
        if is_negated_union(group):
            raise LeftOut("{+} beside a class with ^, which flex takes otherwise than its manual says")
        found = joined_set(group, None)
        is_plain = len(group) == 1 and not FLEX_ALONE.search(group[0].text) and found == joined_set(group, Flags())
        return group[0].text if is_plain else bracket_text(found)

    def of_operation(self, group, _):
        raise Refusal(group[0].at, "{-} and {+} stand between two brackets")

    def of_end(self, *_):
        raise LeftOut("the end <<EOF>>")

    def of_trailing(self, *_):
        raise LeftOut("trailing context")

    def of_byte(self, group, is_last):
        part = group[0]
        if (part.text == b"^" and not self.pieces) or (part.text == b"$" and is_last):
            raise LeftOut(f"the anchor {part.text.decode()}")
        if part.text in b"^$" or (part.text == b"<" and not self.pieces):
            return b"\\" + part.text
        return self.cased(part, part.text)

    def of_escape(self, group, _):
        return self.cased(group[0], group[0].text)

    def cased(self, part, spelled):
        """A byte or escape; a letter in both cases where case isn't told apart."""
        value = value_of(spelled)
        both = frozenset(both_cases(value))
        is_plain = not FLEX_ALONE.match(spelled) and not (part.flags.i and len(both) > 1)
        return spelled if is_plain else bracket_text(both if part.flags.i else frozenset([value]))

    def of_quoted(self, group, _):
        part = group[0]
        listed = QUOTED_PART.findall(part.text[1:-1])
        pieces = [self.cased(part, spelled) for spelled in listed]
        if pieces == listed:
            return part.text
        runs = groupby(zip(pieces, listed), key=lambda pair: pair[0] == pair[1])
        texts = ((is_plain, b"".join(piece for piece, _ in run)) for is_plain, run in runs)
        return b"".join(b'"%s"' % text if is_plain else text for is_plain, text in texts)

    def of_name(self, group, _):
        part, name = group[0], group[0].text[1:-1]
        if name not in self.definitions.texts:
            return part.text
        if name in self.names or len(self.names) > MOST_DEEP:
            raise LeftOut(f"names that lead too deep, {name.decode()} among them")
        plain = self.definitions.plain(name, self.names)
        inner = Pattern(self.definitions, part.flags, (*self.names, name)) if part.flags != self.definitions.flags else None
        found = inner.written(self.definitions.texts[name]) if inner else plain
        return part.text if found == plain else b"(%s)" % found


class Definitions:
    """The definitions of a file, and what stands for each under the flags of the whole file."""

    def __init__(self):
        self.texts, self.flags, self.found = {}, Flags(), {}
        # Whether patterns are read as lex does: a name stands for its text, without parentheses, and an interval binds weakly.
        self.names_are_texts = self.has_low_intervals = False

    def add(self, name, rest):
        """Adds the definition whose line goes on so behind the name; gives its text, without a comment behind it."""
        try:
            end = pattern_end(rest, 0)
        except Refusal:
            end = len(rest)
        is_comment = COMMENT.fullmatch(rest[end:].strip())
        self.texts[name] = rest[:end] if is_comment else rest.rstrip()
        return self.texts[name]

    def spelled_out(self, text, flags):
        """The pattern with each name's text in its place."""
        for _ in range(MOST_DEEP):
            names = [part for part in parts(text, 0, flags) if part.kind == "name" and part.text[1:-1] in self.texts]
            if not names:
                return text
            text = self.with_texts(text, names)
        raise LeftOut("names that lead too deep")

    def with_texts(self, text, names):
        pieces, end = [], 0
        for part in names:
            pieces += [text[end : part.at], self.texts[part.text[1:-1]]]
            end = part.at + len(part.text)
        if sum(map(len, pieces)) > MOST_WRITTEN:
            raise LeftOut("names that are too long once put in")
        return b"".join(pieces) + text[end:]

    def plain(self, name, names=()):
        if name not in self.found:
            try:
                self.found[name] = Pattern(self, self.flags, (*names, name)).written(self.texts[name])
            except LeftOut as left:
                self.found[name] = LeftOut(f"{left}, in {{{name.decode()}}}")
            except Refusal:
                self.found[name] = LeftOut(f"what is no pattern, in {{{name.decode()}}}")
        if isinstance(self.found[name], LeftOut):
            raise self.found[name]
        return self.found[name]
