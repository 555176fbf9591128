"""The lex files of flex 2.6: the lines of the definitions section, and the rules with their start conditions."""

import re
from typing import NamedTuple

from bison import Refusal
from flex_patterns import pattern_end
from plain import COMMENT, Code

LINE_MARK = re.compile(rb"/\*|//|[\"'{\n]")
LINE_ENDS = re.compile(rb"[^\n]*")
NAME = re.compile(rb"[A-Za-z_][A-Za-z0-9_-]*")
BLANKS = re.compile(rb"[ \t\r]*")
# A line that declares start conditions: whether they are exclusive, and their names.
DECLARED = re.compile(rb"%(?:[sS]|(?P<exclusive>[xX]))[A-Za-z0-9_-]*(?P<names>[^\n]*)")
# The names of start conditions; what they stand before may come on a later line.
CONDITIONS = re.compile(rb"<([A-Za-z0-9_,*\s-]*)>(?:(?:[ \t\r]*\n)+[ \t]*)?")
SCOPE = re.compile(rb"\{(?![A-Za-z_][A-Za-z0-9_-]*\})")
# What a line of the definitions section is, by how it begins; the first that fits.
DEFINITIONS = (
    ("mark", rb"%%"),
    ("block", rb"%\{"),
    ("top", rb"%top[ \t]*\{"),
    ("option", rb"%option"),
    ("kept", rb"%(?:array|pointer|[pnaeko])(?![A-Za-z0-9_-])"),
    ("gone", rb"%[sSxX]|%[cr](?![A-Za-z0-9_-])|#[ \t]*line[ \t]"),
    ("unknown", rb"%"),
    ("definition", NAME.pattern),
    ("kept", rb""),
)
# What a line of the rules section is; an indented one is kept where no rule was before.
RULES = (
    ("mark", rb"%%"),
    ("block", rb"[ \t]*%\{"),
    ("kept", rb"[ \t\r]*(?:\n|\Z)|[ \t]*/\*|//"),
    ("close", rb"[ \t]*\}"),
    ("rule", rb""),
)


class Line(NamedTuple):
    """A line of the definitions section, or a part of the rules section, with its end before a newline."""

    kind: str
    at: int
    end: int


class Rule(NamedTuple):
    """A rule. Without start conditions it has none here."""

    at: int
    conditions: tuple
    pattern: int
    pattern_end: int
    action: int
    end: int

    kind = "rule"

    def is_of(self, start, inclusive):
        """Whether it is one of the rules of a start condition: without conditions it is one of all inclusive ones."""
        return start in self.conditions or b"*" in self.conditions if self.conditions else start in inclusive


def kind_of(kinds, text, at):
    return next(kind for kind, opening in kinds if re.compile(opening).match(text, at))


class Layout:
    """The lines and rules of a file, in order."""

    def __init__(self, text):
        self.text, self.code = text, Code(text)
        self.scopes, self.has_begun = [], False

    def line_end(self, at):
        return LINE_ENDS.match(self.text, at).end()

    def code_end(self, at, with_blocks):
        """The first newline outside comments and quoted constructs, and outside blocks where they count."""
        end = at
        while (mark := LINE_MARK.search(self.text, end)) and mark[0] != b"\n":
            is_block = mark[0] == b"{" and with_blocks
            end = self.code.block_end(mark.start()) if is_block else self.code.mark_end(mark)
            if end is None:
                raise Refusal(mark.start(), "this is never closed: close it")
        return mark.start() if mark else len(self.text)

    def block_end(self, at):
        found = re.compile(rb"\n[ \t]*%\}[^\n]*").search(self.text, at)
        if not found:
            raise Refusal(at, "this block is never closed: write a line with %} behind it")
        return found.end()

    def definitions(self):
        """The lines up to the first mark, the mark's own among them."""
        at, kind = 0, None
        while kind != "mark":
            if at >= len(self.text):
                raise Refusal(at, "the file ends without %%: write it between the definitions and the rules")
            kind = kind_of(DEFINITIONS, self.text, at)
            line = Line(kind, at, self.definition_end(kind, at))
            yield line
            at = line.end + 1

    def definition_end(self, kind, at):
        if kind == "block":
            return self.block_end(at)
        if kind == "top":
            end = self.code.block_end(self.text.index(b"{", at))
            return self.line_end(at if end is None else end)
        if kind == "unknown":
            raise Refusal(at, "flex has no such % line: look at its spelling, or take it out")
        return self.code_end(at, False) if kind == "kept" else self.line_end(at)

    def rules(self, at):
        """The lines and rules behind the first mark, which ends there, up to the second."""
        kind = None
        while at < len(self.text) and kind != "mark":
            kind = self.kind_in_rules(at)
            part = self.part_of_rules(kind, at)
            yield part
            at = part.end + 1

    def kind_in_rules(self, at):
        kind = kind_of(RULES, self.text, at)
        is_code = kind in ("rule", "close") and not self.has_begun and self.text[at : at + 1] in b" \t"
        return "kept" if is_code else kind

    def part_of_rules(self, kind, at):
        if kind == "rule":
            self.has_begun = True
            return self.rule(at)
        if kind == "close":
            if not self.scopes:
                raise Refusal(at, "this closes a brace that was never opened")
            self.scopes.pop()
            return Line("gone", at, self.scope_line_end(self.text.index(b"}", at) + 1))
        if kind == "block":
            return self.block(at)
        return Line(kind, at, self.line_end(at) if kind == "mark" else self.code_end(at, self.has_begun))

    def block(self, at):
        """A block is kept where both its ends begin their lines."""
        end = self.block_end(at)
        last = self.text.rfind(b"\n", at, end) + 1
        is_plain = self.text.startswith(b"%{", at) and self.text.startswith(b"%}", last)
        return Line("kept" if is_plain else "gone", at, end)

    def scope_line_end(self, at):
        """The end of a line that opens or closes a scope, which holds at most comments behind that."""
        end = self.code_end(at, False)
        if COMMENT.sub(b"", self.text[at:end]).strip():
            raise Refusal(at, "a rule stands behind this brace: write it on a line of its own")
        return end

    def rule(self, at):
        """A rule, or the line that opens a scope of start conditions."""
        begin = BLANKS.match(self.text, at).end()
        found = CONDITIONS.match(self.text, begin)
        own = tuple(name.strip() for name in found[1].split(b",")) if found else ()
        pattern = found.end() if found else begin
        if found and SCOPE.match(self.text, pattern):
            self.scopes.append(own)
            return Line("gone", at, self.scope_line_end(pattern + 1))
        end = pattern_end(self.text, pattern)
        if end == pattern:
            raise Refusal(pattern, "a pattern is missing here: write it")
        action = BLANKS.match(self.text, end).end()
        conditions = sum(self.scopes, ()) + own
        return Rule(at, conditions, pattern, end, action, self.code_end(action, True))
