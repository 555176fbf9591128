"""What an action of a lex file uses that isn't in sight: a macro of another file may hide a `return`."""

import re
from typing import NamedTuple

from flex_macros import PIECE, SEVERAL, arguments, blanked
from plain import Code

# How a function of a file's own begins.
FUNCTION = re.compile(rb"\b(?!(?:if|for|while|switch)\b)([A-Za-z_]\w*)\s*\((?:[^;{}()]|\([^;{}()]*\))*\)\s*(?=\{)")
# A name behind a type, or behind another one that is declared, with its parameters.
DECLARED = re.compile(rb"(?:\b(?!(?:return|else|do|new|case|throw|goto)\b)[A-Za-z_]\w*|[*&>,])\s*\b([A-Za-z_]\w*)\s*\(")
# A token's number, as yacc writes it into its header.
NUMBERED = re.compile(rb"^[ \t]*#[ \t]*define[ \t]+[A-Za-z_]\w*[ \t]+\(?[0-9]\w*\)?[ \t]*\r?$", re.M)
DIRECTIVE = re.compile(rb"^[ \t]*#(?:[^\n]*\\\r?\n)*[^\n]*", re.M)
LITERAL = re.compile(rb"'(?:\\.|[^'\\\n])*'")
WORD = re.compile(rb"[A-Za-z_]\w*")
# Words before a statement, before parentheses that stand before one, and in a statement that is no macro's use.
BEFORE, HEADS = {b"else", b"do", b"try"}, {b"if", b"for", b"while", b"switch", b"catch"}
WITHIN = set(
    b"return break continue goto throw delete new sizeof int char short long unsigned signed float double void bool const "
    b"static extern register auto volatile struct union enum typedef using".split()
)
# What flex, Bison and C themselves have, and what returns nothing.
KNOWN = re.compile(
    rb"ECHO|YY(?:Text|Leng)|YY_(?:BREAK|NEW_FILE|FLUSH_BUFFER|USER_ACTION)|YY[DF]PRINTF"
    rb"|yy(?:[gs]et_\w+|alloc|realloc|free|wrap)|yy_(?:set_bol|set_interactive|top_state|(?:flush|delete)_buffer|flex_\w+)"
    rb"|v?[fs]?n?printf|f?puts|f?putc|putchar|f(?:write|flush|close)|strn?(?:cpy|cat)|mem(?:cpy|move|set)|free|assert"
)
# Words in the names of macros that return a token, and of those that only say where or what was read.
GIVES = re.compile(rb"(?i)return|token|(?<![a-z])(?:tok(?![a-z])|emit)")
TELLS = re.compile(
    rb"(?i)debug|trace|print|(?:^|_)(?:count|step|log|(?:yyl)?loc(?:ation)?|pos(?:ition)?|line(?:no)?|col(?:umn)?)(?:_|$)"
)
TOKEN_NAME = re.compile(rb"(?:\w+::)*((?!(?:NULL|TRUE|FALSE|EOF)$)[A-Z][A-Z0-9_]*)")


class Use(NamedTuple):
    """A name that a statement begins with, as a macro's use would, with its arguments where it has parentheses."""

    name: bytes
    arguments: tuple = None

    @property
    def tokens(self):
        """The arguments that look like names of tokens."""
        found = map(TOKEN_NAME.fullmatch, self.arguments or ())
        return tuple(argument[1] for argument in found if argument)

    def may_give(self):
        """Whether it may well give a token: a call of a function doesn't, nor does what tells by its name that it counts."""
        if GIVES.search(self.name) or self.tokens:
            return True
        is_function = self.arguments is not None and self.name != self.name.upper()
        return not (is_function or TELLS.search(self.name))


def functions(code):
    """The functions that code defines, as their names and bodies, and the code around these."""
    found, around, end = [], [], 0
    for function in FUNCTION.finditer(code):
        if function.start() >= end:
            around.append(code[end : function.end()])
            end = Code(code).block_end(function.end()) or len(code)
            found.append((function[1], code[function.end() : end]))
    return found, b" ; ".join([*around, code[end:]])


def free_functions(text):
    """The bodies of the functions that a text defines and that belong to no class or namespace, by their names. The parameters
    stand in front as what else is declared there."""
    code, found, end, depth = LITERAL.sub(b" 0 ", blanked(DIRECTIVE.sub(b"", text))), {}, 0, 0
    for function in FUNCTION.finditer(code):
        if function.start() < end:
            continue
        between = code[end : function.start()]
        depth += between.count(b"{") - between.count(b"}")
        end = Code(code).block_end(function.end()) or len(code)
        if depth == 0 and not between.rstrip().endswith(b"::"):
            parameters = function[0].partition(b"(")[2].rpartition(b")")[0].replace(b",", b";")
            found.setdefault(function[1], []).append(b"{" + parameters + b";" + code[function.end() + 1 : end])
    return found


def in_sight(text):
    """The names of the functions that a text defines or declares."""
    found, around = functions(blanked(DIRECTIVE.sub(b"", text)))
    return {name for name, _ in found} | {*DECLARED.findall(around)}


def of_header(text):
    """The code of a header, where tokens keep their names."""
    return NUMBERED.sub(b"", text)


def is_word(pieces, at):
    return at < len(pieces) and WORD.fullmatch(pieces[at]) is not None


def is_end(pieces, at):
    return at >= len(pieces) or pieces[at] in (b";", b"}")


def is_label(pieces, at):
    return pieces[at : at + 1] == [b":"] and pieces[at + 1 : at + 2] != [b":"]


def is_before_another(pieces, at):
    """Whether a name stands before another one as a macro does, and not as a type before what is declared."""
    is_constant = [is_word(pieces, place) and pieces[place] == pieces[place].upper() for place in (at, at + 1)]
    is_called = pieces[at + 2 : at + 3] == [b"("]
    return is_word(pieces, at + 1) and (is_called and any(is_constant) or is_constant[1] and is_end(pieces, at + 2))


def used(pieces, at):
    """The use that a statement begins with, or None; the place behind what was read, and whether a statement begins there."""
    name, behind = pieces[at], at + 1
    called = arguments(pieces, behind) if pieces[behind : behind + 1] == [b"("] else None
    if name in BEFORE or is_label(pieces, behind):
        return None, behind + is_label(pieces, behind), True
    if name == b"case":
        return None, next((place + 1 for place in range(behind, len(pieces)) if is_label(pieces, place)), len(pieces)), True
    if name in HEADS or name in WITHIN:
        return None, called[1] if called else behind, name in HEADS
    if called:
        is_statement = is_end(pieces, called[1]) or is_word(pieces, called[1]) or pieces[called[1]] == b"{"
        return Use(name, tuple(called[0])) if is_statement else None, called[1], is_statement
    is_statement = is_end(pieces, behind) or is_before_another(pieces, at)
    return Use(name) if is_statement else None, behind, is_statement


def uses(code):
    """What the statements of code begin with; a macro that hides a `return` can stand nowhere else."""
    waiting = [re.sub(rb"%(?=[{}])", b" ", DIRECTIVE.sub(b"", code))]
    while waiting:
        pieces = [piece for piece in PIECE.findall(waiting.pop()) if not piece.isspace()]
        at, begins = 0, True
        while at < len(pieces):
            if not (begins and is_word(pieces, at)):
                at, begins = at + 1, pieces[at] in (b";", b"{", b"}")
                continue
            use, at, begins = used(pieces, at)
            if use and use.name == SEVERAL:
                waiting += use.arguments or ()
            elif use:
                yield use


def unseen(action, macros):
    """What an action uses that may be a macro of another file."""
    known = macros.functions | {*macros.found}
    return [use for use in uses(macros.spelled_out(action)) if use.name not in known and not KNOWN.fullmatch(use.name)]
