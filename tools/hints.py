"""What can be said of a refused file beside the sentence on its refusal."""

import difflib
import re

import lex_hints
import plain
from bison import PREPROCESSOR, TEMPLATE, WORDS
from places import place

# How a grammar of ANTLR begins.
ANTLR = re.compile(rb"(?:\s|//[^\n]*|/\*.*?\*/)*(?:(?:lexer|parser)\s+)?grammar\s+\w+\s*;", re.S)
OF_ANTLR = "this is a grammar of ANTLR's: tools/from_antlr FILE plain.y plain.l writes both files"
CONVERT = "this is GNU Bison's, and tools/from_bison FILE > plain.y takes it out or says what to do"
EXPECTED = {
    "start": "behind %start comes a nonterminal's name",
    "union": "behind %union comes a block in braces",
    "expect": "behind %expect comes a number",
    "list": "behind the directive comes a token",
    "tagged": "behind the tag comes a token",
    "comma": "behind the comma comes a token",
    "rules": "behind %% comes the left side of a rule, a name",
    "prec": "behind %prec comes a token",
}


def near(name, names):
    """The name that is spelled most like this one, or None."""
    lower = {other.decode(errors="replace").lower(): other.decode(errors="replace") for other in sorted(names)}
    found = difflib.get_close_matches(name.decode(errors="replace").lower(), lower, 1)
    return lower[found[0]] if found else None


def where(text, at):
    return "line %d, column %d" % place(text, at)


def undefined(text, at, items):
    name = item_at(items, at).text
    found = near(name, {item.text for item in plain.declared(items) + plain.lefts(items)})
    if found:
        return f"the nearest name is {found}"
    return f"a token is declared by %token {name.decode()}" if name.isupper() else None


def start_without_rules(text, at, items):
    found = near(item_at(items, at).text, {item.text for item in plain.lefts(items)})
    return f"the nearest left side is {found}" if found else None


def token_on_left(text, at, items):
    name = item_at(items, at).text
    first = next((item for item in plain.declared(items) if item.text == name), None)
    return f"it is declared at {where(text, first.at)}" if first else "error is a token without being declared"


def second_start(text, at, items):
    first = next(item for item in items if item.word == "%start")
    return f"the first stands at {where(text, first.at)}"


def unended(text, at, items):
    if text.startswith(b"/*", at):
        return "a comment goes through the first */ behind it"
    if text.startswith(b"%{", at):
        return "a prologue goes through the first %} behind it"
    open_at = plain.Code(text).open_braces(at)[-1]
    if open_at == at:
        return "a block goes through the } that matches its {"
    kind = "comment" if text[open_at : open_at + 1] == b"/" else "brace"
    return f"the last {kind} that stays open begins at {where(text, open_at)}"


def unknown_directive(text, at, items):
    word = re.match(rb"%[A-Za-z0-9_-]+", text[at:])[0]
    if word.decode().replace("_", "-") in WORDS:
        return CONVERT
    found = near(word, {directive.encode() for directive in plain.DIRECTIVES})
    return f"{found} may be meant" if found else None


# What a text that begins no item is, by its first bytes; the first that fits.
BAD_ITEMS = (
    (rb'"|_\("', "a string for a token: " + CONVERT),
    (rb"''", "a literal holds one byte or escape, and this one is empty"),
    (rb"'\\(?:0{1,3}|x0{1,2})'", "the byte 0 is no literal"),
    (rb"'\\", "an escape is a backslash and one of a b f n r t v \\ ' \" ?, or octal digits, or x and two digits"),
    (rb"'[^'\n]*'", "a literal holds one byte or escape: give a longer token a name"),
    (rb"'", "a literal is closed on its line"),
    (rb"\[", "a name in brackets: " + CONVERT),
    (rb"->", "a left side is followed by `:` alone"),
    (rb"-", "names have no `-`: write `_` for it everywhere"),
    (rb"#line", "a line for the C compiler: " + CONVERT),
    (PREPROCESSOR.pattern, "a line for a preprocessor: keep one branch of the file, and take these lines out"),
    (rb"%\?", "a semantic predicate, which may change what is a sentence: take it out"),
    (rb"%", "a directive is % and a word, and %% parts declarations from rules"),
    (rb"[<>]", "a tag goes from < to > on one line and holds no other: tools/from_bison takes others out"),
    (rb"\}", "this closes a brace that was never opened"),
    (TEMPLATE.pattern, "configure puts text in here: take the file that it writes, or take this out"),
    (rb"[@$]", "$ and @ stand in actions, which are in braces"),
    (rb"[*+?()]", "yacc has no repetitions and groups: write rules for them; for the byte itself write it in single quotes"),
    (rb"=", "a left side is followed by `:` alone"),
    (rb"\xef\xbb\xbf", "a mark of the byte order: save the file without it"),
    (rb"[\x80-\xff]", "names and literals hold ASCII alone; other bytes are written as '\\xNN', one a literal"),
)


def bad_item(text, at, items):
    return next((hint for opening, hint in BAD_ITEMS if re.match(opening, text[at : at + 80])), None)


def item_at(items, at):
    return next(item for item in items if item.at == at)


def line_of_mark(text, item):
    return f"a line with %% seems to be missing before {item.text.decode()} at {where(text, item.at)}"


def no_mark(text, items, count, place_in_table):
    """Where the declarations stop at a name or a `:`, the rules may have begun before."""
    stuck = items[count]
    if place_in_table == "declarations" and stuck.kind in plain.SYMBOLS:
        return line_of_mark(text, stuck)
    if place_in_table in ("entry", "counted", "comma") and stuck.word in (":", "|") and items[count - 1].kind == "name":
        return line_of_mark(text, items[count - 1])
    return None


def in_rules(text, stuck, place_in_table, before):
    if stuck.kind == "tag" and place_in_table in ("body", "named"):
        return "a tag before an action: " + CONVERT
    if stuck.kind == "directive" and stuck.word not in ("%prec", "%empty"):
        return "this directive stands before the first %%"
    if stuck.word == ":" and before.word in (":", "literal"):
        return "a left side is one name and one `:`, and a literal can't be one"
    if stuck.word == ":":
        return "the left side, a name, is missing directly before this `:`"
    if stuck.kind == "literal" and place_in_table == "closed":
        return f"behind `;` comes the next left side: take the `;` at {where(text, before.at)} out where the rule goes on"
    return None


def syntax(text, at, items):
    place_in_table, count = plain.stop(items)
    if count == len(items):
        return at_end(text, items, place_in_table)
    stuck, before = items[count], items[count - 1] if count else None
    if place_in_table == "left":
        return f"a `:` is missing behind {before.text.decode()} at {where(text, before.at)}"
    if place_in_table == "union" and stuck.kind == "name":
        return "a union with a name: " + CONVERT
    if place_in_table in ("entry", "counted") and stuck.kind == "tag":
        return "a second tag in a list: " + CONVERT
    if any(item.kind == "mark" for item in items[:count]):
        hint = in_rules(text, stuck, place_in_table, before)
    else:
        hint = no_mark(text, items, count, place_in_table)
    return hint or EXPECTED.get(place_in_table)


def at_end(text, items, place_in_table):
    if not items:
        return "the file is empty: write %% and a rule"
    if not any(item.kind == "mark" for item in items):
        return "the file ends without %%: write it between the declarations and the rules"
    last = items[-1]
    if place_in_table == "left":
        return f"the file ends behind {last.text.decode()}: write a `:` and the rule's symbols"
    return "the file ends too early: " + EXPECTED.get(place_in_table, "write the rest")


HINTS = {
    "yacc: BadItem": bad_item,
    "yacc: Unended": unended,
    "yacc: UnknownDirective": unknown_directive,
    "yacc: Syntax": syntax,
    "yacc: SecondStart": second_start,
    "yacc: TokenOnLeft": token_on_left,
    "yacc: Undefined": undefined,
    "yacc: StartNotNonterminal": start_without_rules,
}


def is_antlr(text):
    """Whether a file begins as a grammar of ANTLR does."""
    return ANTLR.match(text) is not None


def hint(key, text, at):
    if key.startswith("lex: "):
        return lex_hints.hint(key, text, at)
    if is_antlr(text):
        return OF_ANTLR
    return HINTS[key](text, at, plain.read_items(text)[0]) if key in HINTS else None


def longest_rule(text, most):
    """The first kept rule with more symbols than that: its left side's text and its offset."""
    kept = (rule for rule in plain.rules(plain.read_items(text)[0]) if not rule.has_error)
    return next(((rule.left.text.decode(), rule.at) for rule in kept if len(rule.body) > most), None)


def left_out(text):
    """How many rules hold `error`."""
    return sum(rule.has_error for rule in plain.rules(plain.read_items(text)[0]))
