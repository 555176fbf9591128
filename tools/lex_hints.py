"""What can be said of a refused lex file beside the sentence on its refusal: which form of flex's it is."""

import re

from bison import Refusal, end_tokens, tokens
from flex import NAME
from flex_macros import WORD
from places import place

WRITTEN_OUT = "tools/from_flex FILE GRAMMAR > plain.l writes it out"
LEFT_OUT = "tools/from_flex FILE GRAMMAR > plain.l leaves such rules out, and says which"
# By the refusal: what stands at the place, and what it is; the first that fits.
FORMS = {
    "lex: Pattern Syntax": (
        (r"\{-\}", "[a-z]{-}[b] is flex's, one class without the bytes of another: " + WRITTEN_OUT),
        (r"\{\+\}", "[a-z]{+}[b] is flex's, two classes together: " + WRITTEN_OUT),
        (r"(?<=\()\?#", "(?#..) is flex's, a remark within a pattern: " + WRITTEN_OUT),
        (r"(?<=\()\?[isx-]*:", "(?i:x) and its like are flex's, options for a part of a pattern: " + WRITTEN_OUT),
        (r"\[[^\n]*\[:\^", "[:^alpha:] and its like are flex's, the bytes that a class has not: " + WRITTEN_OUT),
    ),
    "lex: Pattern Anchor": (
        (r"\^(?<=[\n>]\^)|\$(?=[ \t\r\n]|\Z)", LEFT_OUT),
        (r"[\^$]", "within a pattern flex takes it for the byte itself: put a backslash before it, or " + WRITTEN_OUT),
    ),
    "lex: Pattern Condition": (
        (r"<<EOF>>", "<<EOF>> is flex's, the end of the text: " + LEFT_OUT),
        (r"<(?:INITIAL|\*)[>,]", "tools/from_flex FILE GRAMMAR > plain.l writes such rules without <..>"),
        (r"<", LEFT_OUT),
    ),
    "lex: StartCondition": ((r"%", "tools/from_flex FILE GRAMMAR > plain.l keeps the rules of INITIAL alone"),),
    "lex: UnknownOption": (
        (r"case-insensitive|caseless", "tools/from_flex FILE GRAMMAR > plain.l writes each letter in both cases"),
        (r"lex-compat|posix-compat", "with it patterns mean something else: " + WRITTEN_OUT),
        (r"", "tools/from_flex FILE GRAMMAR > plain.l takes out what changes nothing"),
    ),
    "lex: UnknownDirective": ((r"%top|%[cr]\b", "this is flex's: tools/from_flex FILE GRAMMAR > plain.l takes it out"),),
}


def trailing(text, at):
    """Of r/s, which stands in a rule or in the part that a definition names."""
    line = text[text.rfind(b"\n", 0, at) + 1 : at]
    is_definition = not re.search(rb"^%%", text[:at], re.M)
    name = NAME.match(line) if is_definition else None
    where = f", here in the part that {name[0].decode()} names" if name else ""
    return f"r/s is an r with an s behind it{where}: {LEFT_OUT}"


def hint(key, text, at):
    """The hint for a refusal at an offset, or None."""
    if key == "lex: Pattern Trailing":
        return trailing(text, at)
    read = text.decode("latin-1")
    return next((told for form, told in FORMS.get(key, ()) if re.compile(form).match(read, at)), None)


# What a `return` gives, but for a byte and a number.
RETURNED = re.compile(rb"\breturn\b[\s(]*([A-Za-z_](?:\w|\s*::\s*)*)")


# How the comment of tools/from_flex begins, and the same where it tells of lines.
BY_FROM_FLEX = re.compile(rb"/\* The rules of \S+ of ([^\n]*), by from_flex\.\n")
WRITTEN = re.compile(BY_FROM_FLEX.pattern + rb"(?!Nothing)")
# The comment of tools/start_lex in place of a rule.
TO_FILL_IN = r"/\* %s: .*; fill in: "


def ends_in(grammar):
    """The tokens of a grammar that are the end of the text; none where Bison doesn't read its tokens."""
    try:
        return end_tokens(tokens(grammar))
    except Refusal:
        return set()


def returned(text, grammar):
    """What a scanner returns that the grammar doesn't name. A make_NAME that tools/from_flex left so isn't Bison's."""
    found = {re.split(rb"\s*::\s*", name)[-1] for name in RETURNED.findall(text)} - {*WORD.findall(grammar)}
    return {name for name in found if not name.startswith(b"make_")} if BY_FROM_FLEX.match(text) else found


def of_missing(text, grammar, names):
    """What may be done where texts are missing, by the names of the tokens of which none is known."""
    if not names:
        return "the joined lexemes scan to other tokens there: --separator= names other bytes between two"
    ended = [name for name in names if name.encode() in ends_in(grammar)]
    if ended:
        listed = ", ".join(ended)
        return f"{listed} has the number 0, the end of the text: `tools/from_bison GRAMMAR` takes it out of the rules"
    to_fill_in = next(filter(None, (re.search((TO_FILL_IN % re.escape(name)).encode(), text) for name in names)), None)
    if to_fill_in:
        return f"a rule is to be filled in at {'line %d, column %d' % place(text, to_fill_in.start())}"
    given = sorted(returned(text, grammar))
    pairs = ((found.decode(), name) for name in names for found in given if found.endswith(name.encode()))
    found, name = next(pairs, (None, None))
    if found:
        call = "`tools/from_flex FILE GRAMMAR.y` with Bison's own grammar"
        return f"the scanner returns {found} for {name}: {call} reads names as Bison makes them"
    source = WRITTEN.match(text)
    if source:
        name = source[1].decode(errors="replace")
        told = f"the comment at its beginning tells which lines of {name} are left out or aren't understood"
        return f"{told}: write rules for the former, and /*@token NAME*/ into actions of the latter"
    return "`tools/from_flex FILE GRAMMAR` says which actions aren't understood, and what may stand in them"
