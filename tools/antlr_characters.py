"""Literals, ranges and sets of ANTLR 4's grammars as characters."""

import re

from antlr_patterns import chars, others
from antlr_trees import Any, Literal, Members, Range
from bison import Refusal

PIECE = re.compile(r"\\u(?P<four>[0-9A-Fa-f]{4})|\\u\{(?P<any>[0-9A-Fa-f]{1,6})\}|\\(?P<letter>[^u])|(?P<plain>[^\\])", re.S)
LETTERS = dict(zip("bfnrt\\", "\b\f\n\r\t\\"))
ESCAPES = "an escape is \\ and one of b f n r t \\ %s, or \\u and four digits, or \\u{..}: write this one so"
BEHIND_RANGE = "this - stands behind a range, where ANTLR takes other characters than it says: write \\-"


def value(found, token, own):
    """The character of a piece; own are the characters that a backslash keeps here."""
    if found["plain"]:
        return ord(found["plain"])
    if found["letter"]:
        letter = found["letter"]
        if letter not in LETTERS and letter not in own:
            raise Refusal(token, ESCAPES % " ".join(own))
        return ord(LETTERS.get(letter, letter))
    number = int(found["four"] or found["any"], 16)
    if number > 0x10FFFF:
        raise Refusal(token, "no character has this number: the last one is \\u{10FFFF}")
    return number


def pieces(inner, token, own):
    """The places, spellings and characters of what stands between quotes or brackets."""
    at = 0
    while at < len(inner):
        found = PIECE.match(inner, at)
        if not found:
            raise Refusal(token, ESCAPES % " ".join(own))
        yield at, found[0], value(found, token, own)
        at = found.end()


def literal_text(token):
    """The characters of a literal; two escapes may spell one beyond \\uFFFF."""
    raw = "".join(chr(number) for _, _, number in pieces(token.text[1:-1], token, "'"))
    if not raw:
        raise Refusal(token, "a literal holds a character: take this one out")
    try:
        return raw.encode("utf-16-le", "surrogatepass").decode("utf-16-le")
    except UnicodeDecodeError:
        raise Refusal(token, "a half of a pair of \\u: write the whole character as \\u{..}") from None


def one_character(token):
    raw = literal_text(token)
    if len(raw) > 1:
        raise Refusal(token, "one character stands here: write the longer literal as an alternative of its own")
    return ord(raw)


def member_ranges(token):
    """The ranges of a set in brackets."""
    inner = token.text[1:-1]
    found, before, is_range = [], None, False
    for at, spelled, number in pieces(inner, token, "]-"):
        if spelled == "-" and not is_range and 0 < at < len(inner) - 1:
            if before is None:
                raise Refusal(token, BEHIND_RANGE)
            is_range = True
        elif is_range:
            found.append(ordered(before, number, token))
            before, is_range = None, False
        else:
            found += [] if before is None else [(before, before)]
            before = number
    found += [] if before is None else [(before, before)]
    if not found:
        raise Refusal(token, "a set holds a character: take this one out")
    return found


def ordered(first, last, token):
    if first > last:
        raise Refusal(token, "this range goes down: exchange its ends")
    return first, last


def both_cases(first, last, token):
    """A range and the letters of the other case, where case isn't told apart."""
    letters = [range(ord("A"), ord("Z") + 1), range(ord("a"), ord("z") + 1)]
    if any(first in each and last in each for each in letters):
        return [(first, last), (first ^ 0x20, last ^ 0x20)]
    inside = range(first, last + 1)
    has_letters = last >= 0x80 or any(each in inside for some in letters for each in some)
    is_alone = first == last and not chr(first).lower() != chr(first).upper()
    if has_letters and not is_alone:
        raise Refusal(token, "caseInsensitive is read of ranges between two letters of one case: write this range out")
    return [(first, last)]


def ranges_of(part):
    """The ranges of a part that stands for one character, each with its token."""
    if isinstance(part, Literal):
        number = one_character(part.at)
        return [(number, number)]
    if isinstance(part, Range):
        return [ordered(one_character(part.at), one_character(part.last), part.at)]
    if isinstance(part, Members):
        return member_ranges(part.at)
    raise Refusal(part.at, "a set of a lexer has no rules in it: write their characters")


def set_of(parts, is_caseless):
    found = []
    for part in parts:
        for first, last in ranges_of(part):
            found += both_cases(first, last, part.at) if is_caseless else [(first, last)]
    return chars(*found)


def characters(element, is_caseless):
    """The characters of an element that stands for one."""
    if isinstance(element, Any):
        return others(chars())
    if isinstance(element, (Members, Range)):
        return set_of([element], is_caseless)
    return others(set_of(element.parts, is_caseless))


def letters(token, is_caseless):
    """The sets of a literal's characters, one behind the other."""
    numbers = map(ord, literal_text(token))
    return [chars(*(both_cases(each, each, token) if is_caseless else [(each, each)])) for each in numbers]
