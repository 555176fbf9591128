"""The macros of a scanner's own code: what an action says once they are put in."""

import re

DEFINE = re.compile(
    rb"^[ \t]*#[ \t]*define[ \t]+(?P<name>[A-Za-z_]\w*)(?:\((?P<parameters>[^)\n]*)\))?(?P<body>[^\n]*)", re.M
)
# Comments and strings; a literal is matched as well, so that a quote in it begins no string.
NO_CODE = re.compile(rb"/\*.*?\*/|//[^\n]*|\"(?:\\.|[^\"\\\n])*\"|'(?:\\.|[^'\\\n])*'", re.S)
PIECE = re.compile(rb"'(?:\\.|[^'\\\n])*'|[A-Za-z0-9_]+|\s+|.", re.S)
PASTE, TEXT_OF = re.compile(rb"\s*##\s*"), re.compile(rb"#\s*[A-Za-z_]\w*")
WORD = re.compile(rb"[A-Za-z0-9_]+")
# The name that stands for a macro with several bodies.
SEVERAL = b"several"
# How often macros are put in, and how long an action may become.
MOST_DEEP, MOST_WRITTEN = 20, 1 << 16


def without_text(code):
    """Code with a blank for each comment and string."""
    return NO_CODE.sub(lambda found: found[0] if found[0].startswith(b"'") else b" ", code)


def blanked(code):
    """The same with as many blanks as there were bytes."""
    return NO_CODE.sub(lambda found: found[0] if found[0].startswith(b"'") else b" " * len(found[0]), code)


def one_of(bodies, names):
    """A macro's one body. For several stands a call that is no token's name, and that returns where one of them may."""
    (body, listed), *others = bodies.items()
    if others:
        may_return = any(word == b"return" or word in names for body in bodies for word in WORD.findall(body))
        returned = b"; return %s(); " % SEVERAL if may_return else b""
        body = b" %s(%s) %s" % (SEVERAL, b", ".join(bodies), returned)
    return listed, body


def arguments(pieces, at):
    """The arguments of a call whose `(` stands there, and the place behind its `)`; None where it isn't closed."""
    found, depth = [b""], 0
    for place in range(at, len(pieces)):
        piece = pieces[place]
        depth += {b"(": 1, b")": -1}.get(piece, 0)
        if depth == 0:
            return [argument.strip() for argument in found], place + 1
        if piece == b"," and depth == 1:
            found.append(b"")
        elif (piece, depth) != (b"(", 1):
            found[-1] += piece
    return None


class Macros:
    """The macros that a text defines: for each its parameters, or None, and its body."""

    def __init__(self, text):
        # The functions that are in sight, those that change what is scanned, and those that throw.
        self.functions, self.changing, self.throwing = set(), set(), set()
        # The bodies of the functions that belong to no class, by their names.
        self.bodies, definitions = {}, {}
        for define in DEFINE.finditer(without_text(re.sub(rb"\\\r?\n", b" ", text))):
            body = define["body"].strip()
            listed = None if define["parameters"] is None else [name.strip() for name in define["parameters"].split(b",")]
            definitions.setdefault(define["name"], {})[body] = listed
        self.found = {name: one_of(bodies, definitions) for name, bodies in definitions.items()}

    def spelled_out(self, code):
        """Code without comments and strings, with each macro's body in its place."""
        code = without_text(code)
        for _ in range(MOST_DEEP if self.found else 0):
            written = self.once(PIECE.findall(code))
            if written == code or len(written) > MOST_WRITTEN:
                break
            code = written
        return code

    def once(self, pieces):
        """The pieces with each macro put in that stands among them."""
        written, place = [], 0
        while place < len(pieces):
            piece, place = pieces[place], place + 1
            if piece in self.found:
                piece, place = self.use(piece, pieces, place)
            written.append(piece)
        return b"".join(written)

    def use(self, name, pieces, behind):
        """What stands for a macro's name, and the place behind its use: one with parameters is none without arguments."""
        parameters, body = self.found[name]
        if parameters is None:
            return body, behind
        opening = next((place for place in range(behind, len(pieces)) if not pieces[place].isspace()), len(pieces))
        called = arguments(pieces, opening) if pieces[opening : opening + 1] == [b"("] else None
        if not called:
            return name, behind
        return with_arguments(parameters, body, called[0]), called[1]


def with_arguments(parameters, body, given):
    if parameters and parameters[-1] == b"...":
        most = len(parameters) - 1
        given, parameters = [*given[:most], b", ".join(given[most:])], [*parameters[:-1], b"__VA_ARGS__"]
    values = dict(zip(parameters, given))
    body = TEXT_OF.sub(lambda found: found[0] if body[found.start() - 1 : found.start()] == b"#" else b" ", body)
    written = b"".join(values.get(piece, piece) for piece in PIECE.findall(PASTE.sub(b"##", body)))
    return PASTE.sub(b"", written)
