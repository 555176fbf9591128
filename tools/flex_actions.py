"""Actions of lex rules: which of them the profile of docs/FORMATS.md understands, and marks for the others."""

import re
from typing import NamedTuple

from flex_flow import always_returns
from flex_macros import blanked, without_text
from flex_sight import functions, unseen
from flex_symbols import call_of
from plain import ITEM

# A word of these makes an action foreign wherever it stands in it.
FOREIGN_WORDS = {b"REJECT", b"yymore", b"yyless", b"unput", b"input", b"BEGIN", b"yyterminate"}
# Functions that change what is scanned too, and that the profile knows nothing of.
CALLS = re.compile(
    rb"yy_(?:push|pop)_state|yyinput|yyrestart|yy_(?:switch_to|scan)_(?:buffer|string|bytes)|yy(?:push|pop)_buffer_state"
)
# What changes it in a function of the file's own.
CHANGES = re.compile(rb"\b(?:BEGIN|REJECT)\b|\b(?:yymore|yyless|unput|input|" + CALLS.pattern + rb")\s*\(")
# Through how many functions a call of one that reads on is followed.
MOST_CALLS = 20
# By what a text is refused.
REFUSES = re.compile(
    rb"(?i)(?:error|fatal|abort|exit|panic|illegal|invalid|unexpected|unrecogni[sz]ed)\w*\s*\(|\bthrow\b|\b(?:sig)?longjmp\s*\("
)
# A mark of a token that no grammar has makes an action foreign.
FOREIGN_MARK = b"/*@token not.a.token*/ "
MARK = re.compile(rb"/\*@(?:skip|token[ \t]+(\S+))\*/")
LITERAL = re.compile(rb"'(?:\\.|[^'\\\n])*'")
WORD = re.compile(rb"[A-Za-z0-9_]+")
GIVEN = rb"yytext\[0\]|\*yytext|[A-Za-z_][A-Za-z0-9_]*|'(?:\\.|[^'\\\n])+'"
RETURN = re.compile(rb"\breturn\b\s*((?:\(\s*)*)(" + GIVEN + rb")\s*((?:\)\s*)*);")
RETURNS_OF_BYTE = re.compile(rb"\breturn\b[^;]*(?:yytext\s*\[\s*0\s*\]|\*\s*yytext)")
OWN_BYTE = re.compile(rb"yytext\s*\[\s*0\s*\]|\*\s*yytext")
# Types of which a cast changes no token, and casts to them; one to a type of one byte changes no literal.
TYPES = rb"(?:const|unsigned|signed|int|short|long|char|enum|(?:\w+::)*(?:yytokentype|token_type|token_kind_type|yytoken_kind_t))\b"
CAST = re.compile(rb"\(\s*(?:" + TYPES + rb"\s*)+\)\s*(?=[\w('*:])|static_cast\s*<\s*(?:" + TYPES + rb"\s*)+>\s*(?=\()")
ASSIGNMENT = re.compile(rb"(?<![=!<>+*/%&|^-])=(?!=)")
# A name of C++'s.
QUALIFIED = re.compile(rb"(?:::\s*)?((?:[A-Za-z_]\w*\s*::\s*)*)([A-Za-z_]\w*)")
# A name behind a type, or behind a star of it.
DECLARES = rb"\b(?!(?:return|case|else|goto|throw)\b)[A-Za-z_]\w*(?:\s|[*&])+%s\s*(?=[=;,)\[{])"
# Where a grammar would tell more: what may be a call of Bison's C++ parsers.
MAKES = re.compile(rb"\breturn\b[^;]*\b(?:make_[A-Z]\w*|symbol_type)\s*[({]")


class Gives(NamedTuple):
    """What an action gives: `token` with its name or literal, `byte`, `skip`, or `unknown` with what it may give."""

    kind: str
    names: tuple = ()


BYTE, SKIP, UNKNOWN = Gives("byte"), Gives("skip"), Gives("unknown")


def mark_for(token):
    """What has to stand in an action that returns this token, if it isn't understood without."""
    return b" /*@token %s*/" % token if token in FOREIGN_WORDS or b"." in token else b""


def changing(code):
    """The first word that makes code change what is scanned, or None."""
    words = WORD.findall(LITERAL.sub(b" ", code))
    return next((word for word in words if word in FOREIGN_WORDS or CALLS.fullmatch(word)), None)


def changing_functions(text):
    """The functions that a file defines and that change what is scanned, themselves or by a call."""
    bodies, _ = functions(blanked(text))
    words = [(name, {*WORD.findall(body)}) for name, body in bodies]
    found = {name for name, body in bodies if CHANGES.search(body)}
    for _ in range(MOST_CALLS):
        found |= {name for name, called in words if not found.isdisjoint(called)}
    return found


def throwing_functions(text):
    """The functions that a file defines and that throw on each way."""
    bodies, _ = functions(blanked(text))
    return {name for name, body in bodies if b"return" not in WORD.findall(body) and always_returns(body)}


def plainly(action):
    """What the profile reads of an action without a mark."""
    code = without_text(action)
    words = WORD.findall(LITERAL.sub(b" ", code))
    if FOREIGN_WORDS & {*words}:
        return UNKNOWN
    if b"return" not in words:
        return SKIP
    found = RETURN.search(code)
    if words.count(b"return") > 1 or not found or found[1].count(b"(") != found[3].count(b")"):
        return UNKNOWN
    return BYTE if OWN_BYTE.fullmatch(found[2]) else of_name(found[2])


def of_name(name):
    """What a name or a literal gives; one of several characters is none of yacc's."""
    item = ITEM.fullmatch(name)
    return Gives("token", (name,)) if item and item.lastgroup in ("name", "literal") else UNKNOWN


def without_literals(code):
    """Code whose literals are quotes alone, so that a mark in one is none."""
    return LITERAL.sub(lambda found: b"'" * len(found[0]), code)


def depths(code):
    """For each byte how many parentheses are open before it."""
    depth = 0
    for at, byte in enumerate(without_literals(code)):
        depth -= byte == 0x29
        yield at, byte, depth
        depth += byte == 0x28


def operand(code, at):
    """What a `return` that ends there returns, or None where no `;` ends it."""
    end = next((at + place for place, byte, depth in depths(code[at:]) if byte == 0x3B and depth == 0), None)
    return None if end is None else code[at:end]


def inner(value):
    """What a value comes to: what stands in its parentheses, or behind its last comma. Itself where it has none."""
    value = value.strip()
    listed = [(at, byte) for at, byte, depth in depths(value) if depth == 0 and byte in b"(),"]
    if [at for at, byte in listed] == [0, len(value) - 1] and value[:1] == b"(":
        return value[1:-1].strip()
    commas = [at for at, byte in listed if byte == 0x2C]
    return value[commas[-1] + 1 :].strip() if commas else value


def assigned(value):
    """What is assigned where the value is an assignment; itself where it is none."""
    code = without_literals(value)
    places = [at for at, _, depth in depths(code) if depth == 0 and ASSIGNMENT.match(code, at)]
    return value[places[-1] + 1 :].strip() if places else value


def simplest(value):
    """What a value comes to behind casts and assignments, and whether one of them may keep no more than a byte of it."""
    is_narrow = False
    while True:
        cast, before = CAST.match(value), value
        value = value[cast.end() :] if cast else inner(value)
        is_narrow |= cast is not None and b"char" in cast[0]
        if before == value:
            value = assigned(value)
            is_narrow |= before != value
        if before == value:
            return value, is_narrow


def token_of(value, macros, symbols, bodies):
    """What is given where this value is returned. Names of tokens begin with the prefix in C, and not in the grammar."""
    value, is_narrow = simplest(value)
    call, name = call_of(value), QUALIFIED.fullmatch(value)
    if call and not call.scope and call.name in bodies:
        return of_function(bodies[call.name], macros, symbols)
    if call:
        return made_by(call, macros, symbols)
    return Gives("token", (name[2].removeprefix(symbols.prefix),)) if name and not is_narrow else of_byte(value)


def of_byte(value):
    """What a byte of the match, or a literal, gives."""
    if OWN_BYTE.fullmatch(value):
        return BYTE
    return of_name(value) if LITERAL.fullmatch(value) else UNKNOWN


def of_function(bodies, macros, symbols):
    """What a function of the file gives: known where all that it returns is one token of a grammar's."""
    codes = [macros.spelled_out(body) for body in bodies]
    found = dict.fromkeys(given for code in codes for given in returned(code, macros, symbols, {}))
    names = [name for given in found for name in given.names if symbols.may_be(name)]
    is_sure = len(found) == 1 and symbols.tokens and names and all(map(always_returns, codes))
    return Gives("token" if is_sure else "unknown", tuple(names))


def made_by(call, macros, symbols):
    """The token of the symbol that a call makes. Without the parser class before its name it may be any function."""
    if not symbols.are_of(call.scope) or symbols.parsers and call.name in macros.found:
        return UNKNOWN
    if call.name == b"symbol_type" and symbols.parsers:
        return numbered_by(call.arguments[0], symbols)
    made = call.name.removeprefix(b"make_")
    return Gives("token", (made,)) if made != call.name and symbols.is_made(made) else UNKNOWN


def numbered_by(value, symbols):
    """The token with this number, as a grammar has it."""
    value, is_narrow = simplest(value)
    name = QUALIFIED.fullmatch(value)
    token = symbols.numbered(WORD.findall(name[1]), name[2]) if name and not is_narrow else None
    return Gives("token", (token,)) if token else of_byte(value)


def returned(code, macros, symbols, bodies):
    """What each `return` of code gives, where functions with these bodies are followed."""
    ends = [found.end() for found in re.finditer(rb"\breturn\b", without_literals(code))]
    values = [operand(code, end) for end in ends]
    is_known = [value is not None and not is_declared(value, code) for value in values]
    return [token_of(value, macros, symbols, bodies) if known else UNKNOWN for value, known in zip(values, is_known)]


def is_declared(value, code):
    """Whether a value is a name that the code itself declares, so that it is no token's there."""
    name = QUALIFIED.fullmatch(simplest(value)[0])
    return name is not None and re.search(DECLARES % re.escape(name[2]), code) is not None


def gives(action, macros, symbols):
    """What an action of flex's gives, with the macros put in: that is known where it returns on each way and each `return` gives the
    same, or where it never returns."""
    mark = MARK.search(action)
    if mark:
        return Gives("token", (mark[1],)) if mark[1] else SKIP
    code = macros.spelled_out(action)
    found = returned(code, macros, symbols, macros.bodies)
    is_sure = not found or len({*found}) == 1 and always_returns(code)
    if changing(code) or not macros.changing.isdisjoint(WORD.findall(code)) or not is_sure:
        return Gives("unknown", tuple(dict.fromkeys(name for given in found for name in given.names)))
    if not found and (REFUSES.search(code) or not macros.throwing.isdisjoint(WORD.findall(code))):
        return UNKNOWN
    return found[0] if found else SKIP


def named_tokens(action, macros, symbols):
    """The tokens that an action names, in its order."""
    named = map(symbols.named, WORD.findall(macros.spelled_out(action)))
    return tuple(dict.fromkeys(token for token in named if token))


def hiding(action, macros, given):
    """What an action uses that may hide a `return`: beside one that is seen, only what is named so."""
    if MARK.search(action) or given.kind == "unknown":
        return []
    found = [use for use in unseen(action, macros) if use.may_give()]
    return found if given == SKIP else [use for use in found if b"return" in use.name.lower()]


def gives_of(action, macros, symbols):
    """What an action gives, beside a grammar's tokens: one that returns nothing may return a token in a macro that is defined
    elsewhere. What isn't understood may be a token that it names."""
    given = gives(action, macros, symbols)
    hidden = hiding(action, macros, given)
    if MARK.search(action) or not hidden and (given.names or given.kind not in ("skip", "unknown")):
        return given
    named = named_tokens(action, macros, symbols)
    if named or not hidden:
        return Gives("unknown", named) if named else given
    likely = () if symbols.tokens else tuple(name for use in hidden for name in use.tokens)
    return Gives("unknown", tuple(dict.fromkeys([*given.names, *likely])))


def without_casts(action):
    return CAST.sub(lambda found: b" " * len(found[0]), action)


def with_byte(action):
    """The action with `yytext[0]` in place of what its one `return` returns."""
    code = blanked(action)
    found = re.search(rb"\breturn\b", code)
    value = operand(code, found.end()) if found else None
    if value is None or value != action[found.end() :][: len(value)] or b"\n" in value:
        return action
    return action[: found.end()] + b" yytext[0]".ljust(len(value)) + action[found.end() + len(value) :]


def written_plainly(action, given):
    """An action of which the profile reads that it gives this; None where that isn't known or can't be written."""
    if given.kind == "unknown":
        return None
    if MARK.search(action) or plainly(action) == given:
        return action
    if given.kind == "byte":
        return next((plain for plain in (without_casts(action), with_byte(action)) if plainly(plain) == BYTE), None)
    return b"/*@skip*/ " + action if given == SKIP else b"/*@token %s*/ %s" % (given.names[0], action)
