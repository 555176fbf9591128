"""Whether a lex action returns on each way through it, or throws."""

import re

from flex_macros import blanked

LITERAL = rb"'(?:\\.|[^'\\\n])*'"
PIECE = re.compile(LITERAL + rb"|[A-Za-z_]\w*|[0-9][\w.]*|::|\S", re.S)
DIRECTIVE = re.compile(rb"^[ \t]*#[^\n]*", re.M)
LEAVES = {b"break", b"continue"}
# What ends an action: what throws returns nothing else.
ENDS = {b"return", b"throw"}
LABELS = {b"case", b"default"}
# What stands behind the word of a loop that nothing but a jump ends.
ENDLESS = ([b"(", b";", b";", b")"], [b"(", b"1", b")"], [b"(", b"true", b")"])
# What begins a statement wherever it stands, as behind a macro that isn't in sight.
BEGINS = {b"if", b"for", b"while", b"do", b"switch", b"try", *ENDS, *LEAVES}
# How deep statements are looked into.
MOST_DEEP = 60


class Statements:
    """A walk over an action's statements. Each call stands before one, goes behind it, and tells whether it returns on each way."""

    def __init__(self, code):
        self.pieces = PIECE.findall(DIRECTIVE.sub(b"", blanked(code)))
        self.at, self.deep = 0, 0
        # Whether what is walked through may be left by a `break`, and whether there is a jump anywhere.
        self.is_left, self.jumps = False, b"goto" in self.pieces

    def here(self):
        return self.pieces[self.at] if self.at < len(self.pieces) else b""

    def take(self, piece):
        is_here = self.here() == piece
        self.at += is_here
        return is_here

    def group(self):
        """Goes behind what stands in parentheses, if that comes next."""
        depth = 0
        while self.here() in (b"(", b")") or depth and self.here():
            depth += {b"(": 1, b")": -1}.get(self.here(), 0)
            self.at += 1
            if depth <= 0:
                return

    def listed(self):
        """Statements up to a `}` or the end: they return where one of them does, and those behind it are never reached."""
        returns = False
        while self.here() not in (b"", b"}"):
            returns = self.behind(returns)
        return returns

    def behind(self, returns):
        """Whether these statements and the next one return. A label is reached though they do."""
        is_reached, was = not returns or self.here() in LABELS, self.is_left
        found = self.statement()
        self.is_left = self.is_left if is_reached else was
        return found if is_reached else returns

    def labelled(self):
        """The same of those of a `switch`, of which one has to be the default's."""
        begin = self.at
        return self.listed() and b"default" in self.pieces[begin : self.at]

    def statement(self):
        self.deep += 1
        word = self.here()
        if self.deep > MOST_DEEP:
            self.at, returns = len(self.pieces), False
        elif self.take(b"else"):
            # Of a condition that isn't in sight.
            returns = self.statement() and False
        elif word in (b"if", b"switch", b"try", b"do", b"for", b"while", b"{"):
            self.at += 1
            returns = {b"if": self.choice, b"switch": self.switch, b"try": self.tried, b"do": self.done, b"{": self.block}.get(word, self.loop)()
        else:
            returns = self.simple()
        self.deep -= 1
        return returns

    def block(self):
        returns = self.listed()
        self.take(b"}")
        return returns

    def choice(self):
        self.take(b"constexpr")
        self.group()
        returns = self.statement()
        return self.take(b"else") and self.statement() and returns

    def inside(self, walk):
        """Whether that returns on each way, where a `break` leaves no more than it."""
        was, self.is_left = self.is_left, False
        returns = walk() and not self.is_left
        self.is_left = was
        return returns

    def switch(self):
        self.group()
        if not self.take(b"{"):
            self.statement()
            return False
        returns = self.inside(self.labelled)
        self.take(b"}")
        return returns

    def done(self):
        returns = self.inside(self.statement)
        self.take(b"while")
        self.group()
        self.take(b";")
        return returns

    def loop(self):
        begin = self.at
        self.group()
        is_endless = self.pieces[begin : self.at] in ENDLESS
        return self.inside(self.statement) and is_endless

    def tried(self):
        returns = self.statement()
        while self.take(b"catch"):
            self.group()
            returns &= self.statement()
        return returns

    def simple(self):
        """A statement without others in it, or a label, or a macro in front of a statement. What stands in braces behind one may never be
        reached, and neither may what stands behind a call."""
        word, depth, begin = self.here(), 0, self.at
        self.is_left |= word in LEAVES
        while self.here():
            piece = self.here()
            self.at += 1
            depth += {b"(": 1, b"[": 1, b"{": 1, b")": -1, b"]": -1, b"}": -1}.get(piece, 0)
            is_end = piece == b";" or piece == b":" and word not in ENDS or self.here() == b"}"
            if depth == 0 and (is_end or word not in ENDS and self.here() in BEGINS):
                break
        if self.here() in BEGINS and self.pieces[self.at - 1] == b")" and self.at - begin > 1:
            self.statement()
        return word in ENDS


def always_returns(code):
    """Whether an action returns or throws on each way through it, as far as its own text tells."""
    walk = Statements(code)
    returns = False
    while walk.here():
        returns |= walk.listed()
        walk.take(b"}")
    return returns and not walk.is_left and not walk.jumps
