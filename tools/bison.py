"""The grammar files of GNU Bison 3.8, as its scanner reads them: tokens, and what stands behind each directive."""

import re

from plain import GAP, LETTERS, SYMBOLS, Code, Fault, item_end

# What stands behind each directive that changes no sentence. `?` is perhaps one, `+` one or more.
IDLE = {
    **dict.fromkeys(("%debug", "%default-prec", "%error-verbose", "%fixed-output-files", "%glr-parser", "%locations"), ()),
    **dict.fromkeys(("%no-default-prec", "%no-lines", "%nondeterministic-parser", "%pure-parser", "%token-table"), ()),
    **dict.fromkeys(("%verbose", "%yacc"), ()),
    **dict.fromkeys(("%require", "%language", "%skeleton"), ("string",)),
    **dict.fromkeys(("%name-prefix", "%file-prefix", "%output"), ("=?", "string")),
    **dict.fromkeys(("%header", "%defines"), ("string?",)),
    **dict.fromkeys(("%param", "%parse-param", "%lex-param"), ("block+",)),
    **dict.fromkeys(("%printer", "%destructor"), ("block", "symbol+")),
    "%code": ("name?", "block"),
    "%define": ("name", "value?"),
    "%expect-rr": ("number",),
    "%initial-action": ("block",),
    "%nterm": ("symbol+",),
}
IDLE_IN_RULES = {"%dprec": ("number",), "%merge": ("tag",), "%expect": ("number",), "%expect-rr": ("number",)}
LISTS = {
    **{word: word for word in ("%token", "%left", "%right", "%nonassoc", "%precedence", "%type")},
    "%term": "%token",
    "%binary": "%nonassoc",
}
WORDS = {*IDLE, *IDLE_IN_RULES, *LISTS, "%start", "%union", "%prec", "%empty"}

NAME = re.compile(rb"[A-Za-z_.][A-Za-z0-9_.-]*")
TOKEN = re.compile(
    rb"(?P<line>^#line [0-9]+(?: \".*\")?\r?$)|(?P<mark>%%)|(?P<prologue>%\{)|(?P<predicate>%\?[ \f\t\v\r\n]*\{)"
    rb"|(?P<directive>%[A-Za-z_.][A-Za-z0-9_.-]*)|(?P<translated>_\(\"(?:\\.|[^\"\\\n])*\"\))"
    rb"|(?P<name>[A-Za-z_.][A-Za-z0-9_.-]*)|(?P<number>0[xX][0-9A-Fa-f]+|[0-9]+)"
    rb"|(?P<literal>'(?:\\.|[^'\\\n])*')|(?P<string>\"(?:\\.|[^\"\\\n])*\")|(?P<tag><)|(?P<block>\{)|(?P<bracket>\[)"
    rb"|(?P<sign>[:;|,=])",
    re.M,
)
TAG_MARK = re.compile(rb"->|[<>]")
SPLICE = rb"(?:\\[ \f\t\v]*\r?\n)*"
SPLICES = re.compile(SPLICE)


class Refusal(Exception):
    """What is refused: an offset, and what it is and what to do."""

    def __init__(self, at, message):
        super().__init__(message)
        self.at, self.message = at, message


class BisonCode(Code):
    """Code as Bison's scanner reads it, with lines that are spliced and with digraphs; and tags and named references."""

    MARK = re.compile(rb"/" + SPLICE + rb"[*/]|[\"'{}]|<" + SPLICE + rb"[<%]|%" + SPLICE + rb">|%}")
    QUOTED = {
        b'"': re.compile(rb'"(?:\\[ \f\t\v]*\r?\n|\\.|[^"\\\n])*"'),
        b"'": re.compile(rb"'(?:\\[ \f\t\v]*\r?\n|\\.|[^'\\\n])*'"),
    }
    COMMENT = re.compile(rb"/" + SPLICE + rb"(?:\*(?s:.*?)\*" + SPLICE + rb"/|/(?:\\[ \f\t\v]*\r?\n|[^\n])*)")
    DEPTH = {b"{": 1, b"<%": 1, b"}": -1, b"%>": -1, b"%}": -1}

    def depth(self, mark):
        return self.DEPTH.get(SPLICES.sub(b"", mark), 0)

    def comment_end(self, at):
        comment = self.COMMENT.match(self.text, at)
        return comment.end() if comment else None

    def prologue_end(self, at):
        end = at + 2
        while end is not None and (mark := self.MARK.search(self.text, end)):
            if mark[0] == b"%}":
                return mark.end()
            end = self.mark_end(mark)
        return None

    def tag_end(self, at):
        depth = 0
        for mark in TAG_MARK.finditer(self.text, at):
            depth += {b"<": 1, b">": -1}.get(mark[0], 0)
            if depth == 0:
                return mark.end()
        return None

    def bracket_end(self, at):
        name = NAME.match(self.text, GAP.match(self.text, at + 1).end())
        end = GAP.match(self.text, name.end()).end() if name else at
        return end + 1 if name and self.text[end : end + 1] == b"]" else None


class Token:
    """A token of the file, and the text that stands for it in the plain file: its own at first."""

    def __init__(self, kind, at, text):
        self.kind, self.at, self.text = kind, at, text
        self.plain = text

    @property
    def word(self):
        """What tells this token from others of its kind, with a directive's old spellings read as the new ones."""
        if self.kind == "directive":
            return self.text.decode().replace("_", "-")
        return self.text.decode() if self.kind == "sign" else self.kind

    @property
    def is_gone(self):
        return self.plain is None

    def take_out(self):
        self.plain = None


OPEN = {
    "block": "this brace is never closed: close it, also where a comment in it is open",
    "prologue": "this prologue is never closed: write %} behind it",
    "tag": "this tag is never closed: write > behind it",
    "bracket": "a name in brackets is a name between [ and ]: write it so, or take it out",
}
BAD = {
    b"/*": "this comment is never closed: write */ behind it",
    b'"': "this string isn't closed on its line: write a double quote behind it",
    b"'": "this literal isn't closed on its line: write a single quote behind it",
}


# A line that chooses between parts of the file, or brings others in, before a parser generator sees them.
PREPROCESSOR = re.compile(rb"#[ \t]*(?:if|ifdef|ifndef|elif|else|endif|define|undef|include)\b")


# A name for which configure puts text in.
TEMPLATE = re.compile(rb"@[A-Za-z_][A-Za-z0-9_]*@")


def no_token(text, at):
    if TEMPLATE.match(text, at):
        return Refusal(at, "configure puts text in here: take the file that it writes, or take this out")
    line = PREPROCESSOR.match(text, at)
    if line:
        word = line[0].decode()
        return Refusal(at, f"{word} is a preprocessor's line, which Bison doesn't read: keep one branch, and take these lines out")
    for opening, message in BAD.items():
        if text.startswith(opening, at):
            return Refusal(at, message)
    return Refusal(at, "nothing of a grammar file begins so: take it out, or quote it")


def token_end(code, found):
    """The end of a token. A block or prologue that Bison finds open, and the plain profile doesn't, is taken as plain."""
    if found.lastgroup == "predicate":
        raise Refusal(found.start(), "a semantic predicate may change what is a sentence: take it out where it doesn't")
    ends = {
        "block": code.block_end,
        "prologue": code.prologue_end,
        "tag": code.tag_end,
        "bracket": code.bracket_end,
    }
    kind, at = found.lastgroup, found.start()
    end = ends[kind](at) if kind in ends else found.end()
    if end is None and kind in ("block", "prologue"):
        end = item_end(Code(code.text), found)
    if end is None or isinstance(end, Fault):
        raise Refusal(at, OPEN[kind])
    return end


def tokens(text):
    """The tokens up to the second mark."""
    code, found, marks = BisonCode(text), [], 0
    at = GAP.match(text).end()
    while at < len(text) and marks < 2:
        start = TOKEN.match(text, at)
        if not start:
            raise no_token(text, at)
        end = token_end(code, start)
        found.append(Token(start.lastgroup, at, text[at:end]))
        marks += start.lastgroup == "mark"
        at = GAP.match(text, end).end()
    return found


ESCAPE = re.compile(rb"\\(?:([0-7]{1,3})|x([0-9A-Fa-f]+)|u([0-9A-Fa-f]{4})|U([0-9A-Fa-f]{8})|([abfnrtv\\'\"?]))")


def literal_value(token):
    """The byte that a literal stands for."""
    character = token.text[1:-1]
    escape = ESCAPE.fullmatch(character)
    if escape:
        octal, *hexadecimal, letter = escape.groups()
        digits = next((digits for digits in hexadecimal if digits), None)
        value = LETTERS[letter[0]] if letter else int(octal, 8) if octal else int(digits, 16)
    else:
        value = character[0] if len(character) == 1 and character != b"\\" else 0
    if not 0 < value < 256:
        raise Refusal(token.at, "a literal stands for one byte, from 1 to 255: declare a token with a name for this one")
    return value


def aliases(all_tokens):
    """The token of each string in the lists of `%token`."""
    found, word, behind = {}, None, None
    for token in all_tokens:
        if token.kind == "directive":
            word, behind = token.word, None
        elif token.kind in ("string", "translated") and LISTS.get(word) == "%token" and behind:
            if found.setdefault(spelling(token), behind).text != behind.text:
                raise Refusal(token.at, "this string stands for two tokens: keep one of them")
        elif token.kind in SYMBOLS:
            behind = token
        elif token.word in ("mark", ";", ":", "|"):
            word = None
    return found


def end_tokens(all_tokens):
    """The names of the tokens with the number 0, which are the end of the text."""
    pairs = ((name, number) for name, number in zip(all_tokens, all_tokens[1:]) if number.kind == "number")
    return {name.text for name, number in pairs if name.kind == "name" and int(number.text, 16) == 0}


def spelling(token):
    """A string without its quotes."""
    return token.text[token.text.index(b'"') + 1 : token.text.rindex(b'"')]


def declared(all_tokens):
    """The names in the lists of tokens that stand before the first mark."""
    found, word = {b"error", b"YYerror"}, None
    for token in all_tokens:
        if token.kind == "mark":
            break
        if token.kind == "directive":
            word = LISTS.get(token.word)
        elif token.kind == "name" and word not in (None, "%type"):
            found.add(token.text)
    return found
