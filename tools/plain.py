"""Yacc files in the profile of docs/FORMATS.md: C text, items, which item may come where, and rules."""

import re
from typing import NamedTuple

COMMENT = re.compile(rb"/\*.*?\*/|//[^\n]*", re.S)
GAP = re.compile(rb"(?:[ \t\n\r\f\v]+|/\*.*?\*/|//[^\n]*)*", re.S)
ITEM = re.compile(
    rb"(?P<mark>%%)|(?P<prologue>%\{)|(?P<directive>%[A-Za-z0-9_-]+)|(?P<name>[A-Za-z_.][A-Za-z0-9_.]*)|(?P<number>[0-9]+)"
    rb"|(?P<literal>'(?:[^'\\\n\0]|\\(?:[abfnrtv\\'\"?]|[0-7]{1,3}|x[0-9A-Fa-f]{1,2}))')|(?P<tag><[^>\n]*>)|(?P<block>\{)"
    rb"|(?P<sign>[:;|,])"
)
# The bytes of escapes of one letter.
LETTERS = dict(zip(b"abfnrtv\\'\"?", b"\a\b\f\n\r\t\v\\'\"?"))


class Code:
    """C text: where its comments, quoted constructs and blocks end. None is where they don't."""

    MARK = re.compile(rb"/\*|//|[\"'{}]")
    QUOTED = {b'"': re.compile(rb'"(?:\\.|[^"\\\n])*"', re.S), b"'": re.compile(rb"'(?:\\.|[^'\\\n])*'", re.S)}

    def __init__(self, text):
        self.text = text
        # Up to where no mark of a kind is closed: a line of many open marks is gone through once.
        self.open_until = {b'"': 0, b"'": 0}

    def depth(self, mark):
        return {b"{": 1, b"}": -1}.get(mark, 0)

    def comment_end(self, at):
        comment = COMMENT.match(self.text, at)
        return comment.end() if comment else None

    def quoted_end(self, at, mark):
        if at < self.open_until[mark]:
            return None
        quoted = self.QUOTED[mark].match(self.text, at)
        if quoted:
            return quoted.end()
        line_end = self.text.find(b"\n", at)
        self.open_until[mark] = len(self.text) if line_end < 0 else line_end
        return None

    def mark_end(self, mark):
        """Where the construct ends that this mark begins, if it is a comment or quoted; a mark left open is a plain byte."""
        kind = mark[0][:1]
        if kind == b"/":
            return self.comment_end(mark.start())
        if kind in self.QUOTED:
            return self.quoted_end(mark.start(), kind) or mark.end()
        return mark.end()

    def block_end(self, at):
        opened = self.open_braces(at)
        return opened if isinstance(opened, int) else None

    def open_braces(self, at):
        """The end of the block that begins at `at`; where it isn't closed, the places of all that is open at the end."""
        opened, end = [], at
        while mark := self.MARK.search(self.text, end):
            depth = self.depth(mark[0])
            end = self.mark_end(mark)
            if end is None:
                return [*opened, mark.start()]
            if depth > 0:
                opened.append(mark.start())
            elif depth < 0:
                opened.pop()
                if not opened:
                    return end
        return opened

    def prologue_end(self, at):
        end = self.text.find(b"%}", at + 2)
        return None if end < 0 else end + 2


class Item(NamedTuple):
    kind: str
    at: int
    text: bytes

    @property
    def word(self):
        """What tells this item from others of its kind: a directive's word, a sign; of others the kind."""
        return self.text.decode() if self.kind in ("directive", "sign") else self.kind


class Fault(NamedTuple):
    """A refusal's name and its offset."""

    name: str
    at: int


LIST_WORDS = {"%token", "%left", "%right", "%nonassoc", "%precedence", "%type"}
DIRECTIVES = LIST_WORDS | {"%start", "%union", "%expect", "%prec", "%empty"}
SYMBOLS = ("name", "literal")


def literal_value(text):
    """The byte of a literal; 0 or above 255 is none."""
    character = text[1:-1]
    if character[:1] != b"\\":
        return character[0]
    if character[1] in LETTERS:
        return LETTERS[character[1]]
    return int(character[2:], 16) if character[1:2] == b"x" else int(character[1:], 8)


def item_end(code, found):
    """The end of the item that is found, or the fault that it is."""
    kind, at, end = found.lastgroup, found.start(), found.end()
    if kind == "literal" and not 0 < literal_value(found[0]) < 256:
        return Fault("BadItem", at)
    if kind == "directive" and found[0].decode() not in DIRECTIVES:
        return Fault("UnknownDirective", at)
    if kind == "block":
        end = code.block_end(at)
    elif kind == "prologue":
        end = code.prologue_end(at)
    return Fault("Unended", at) if end is None else end


def next_item(code, at):
    found = ITEM.match(code.text, at)
    if not found:
        return Fault("Unended" if code.text.startswith(b"/*", at) else "BadItem", at)
    end = item_end(code, found)
    return end if isinstance(end, Fault) else Item(found.lastgroup, at, code.text[at:end])


def read_items(text):
    """The items up to the second mark, and the fault that ends them early, or None."""
    code, items, marks = Code(text), [], 0
    at = GAP.match(text).end()
    while at < len(text) and marks < 2:
        item = next_item(code, at)
        if isinstance(item, Fault):
            return items, item
        items.append(item)
        marks += item.kind == "mark"
        at = GAP.match(text, at + len(item.text)).end()
    return items, None


DECLARATIONS = {
    **{word: "list" for word in LIST_WORDS},
    "%start": "start",
    "%union": "union",
    "%expect": "expect",
    "prologue": "declarations",
    ";": "declarations",
    "mark": "rules",
}
ENTRY = {symbol: "entry" for symbol in SYMBOLS}
BODY = {"name": "named", "%prec": "prec", ";": "closed", "mark": "done"}
BODY.update({word: "body" for word in ("literal", "block", "%empty", "|")})
TABLE = {
    "declarations": DECLARATIONS,
    "start": {"name": "declarations"},
    "union": {"block": "declarations"},
    "expect": {"number": "declarations"},
    "list": {**ENTRY, "tag": "tagged"},
    "tagged": ENTRY,
    "entry": {**DECLARATIONS, **ENTRY, "number": "counted", ",": "comma"},
    "counted": {**DECLARATIONS, **ENTRY, ",": "comma"},
    "comma": {**DECLARATIONS, **ENTRY},
    "rules": {"name": "left"},
    "left": {":": "body"},
    "body": BODY,
    "named": {**BODY, ":": "body"},
    "prec": {symbol: "body" for symbol in SYMBOLS},
    "closed": {"|": "body", ";": "closed", "name": "left", "mark": "done"},
    "done": {},
}
ENDS = ("body", "named", "closed", "done")


def stop(items):
    """The place of the table where the items stop being taken and how many were; where all are, the place behind them."""
    place = "declarations"
    for count, item in enumerate(items):
        if item.word not in TABLE[place]:
            return place, count
        place = TABLE[place][item.word]
    return place, len(items)


def fault(text):
    """The first fault of a file's items, as the first four refusals have it, or None."""
    items, found = read_items(text)
    if found:
        return found
    place, count = stop(items)
    if count < len(items):
        return Fault("Syntax", items[count].at)
    return None if place in ENDS else Fault("Syntax", len(text))


class Rule(NamedTuple):
    left: Item
    at: int
    body: list

    @property
    def has_error(self):
        return any(item.text == b"error" for item in self.body)


def behind_first_mark(items):
    first = next((index for index, item in enumerate(items) if item.kind == "mark"), len(items))
    return items[first + 1 :]


def is_left(items, index):
    return items[index].kind == "name" and items[index + 1 : index + 2] and items[index + 1].word == ":"


def rules(items):
    """The rules of a file's items, also those with `error`."""
    items, found, left = behind_first_mark(items), [], None
    for index, item in enumerate(items):
        if is_left(items, index):
            left = item
        elif item.word in (":", "|"):
            found.append(Rule(left, item.at, []))
        elif item.kind in SYMBOLS and items[index - 1].word != "%prec":
            found[-1].body.append(item)
    return found


def lefts(items):
    behind = behind_first_mark(items)
    return [item for index, item in enumerate(behind) if is_left(behind, index)]


def declared(items):
    """The names in the lists of tokens, as items."""
    found, word = [], None
    for item in items:
        if item.kind == "mark":
            break
        if item.kind == "directive":
            word = item.word
        elif item.kind == "name" and word in LIST_WORDS - {"%type"}:
            found.append(item)
    return found
