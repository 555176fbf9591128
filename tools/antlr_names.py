"""Names for what has none in ANTLR's grammar: tokens of literals, and nonterminals of blocks and repetitions."""

import re

from antlr_characters import literal_text

MARKS = {
    **dict(zip("+-*/%=<>!?", "plus minus star slash percent equal less greater bang question".split())),
    **dict(zip("&|^~@#$:;,.", "amp bar caret tilde at hash dollar colon semicolon comma dot".split())),
    **dict(zip("()[]{}", "lparen rparen lbracket rbracket lbrace rbrace".split())),
    **dict(zip("'\"`\\_ \n\t\r", "tick quote backtick backslash underscore space newline tab return".split())),
}
PART = re.compile(r"[A-Za-z0-9]+|[^A-Za-z0-9]", re.S)
ESCAPES = {"'": "\\'", "\\": "\\\\", "\n": "\\n", "\t": "\\t", "\r": "\\r", "\b": "\\b", "\f": "\\f"}
LONGEST, MOST_JOINED = 40, 4


def word(text):
    """A text as a word of small letters, digits and _."""
    return "_".join(map(part_word, PART.findall(text)))[:LONGEST].rstrip("_")


def part_word(part):
    return part.lower() if part.isascii() and part.isalnum() else MARKS.get(part) or f"u{ord(part):04x}"


def plain(name):
    """A name of ANTLR's in the letters of a yacc file."""
    return re.sub(r"[^A-Za-z0-9_]", lambda found: f"_u{ord(found[0]):04x}", name)


class Names:
    """The names that are taken. Each new one gets a number where it is taken already."""

    def __init__(self, rules):
        # `error` is a token of every yacc file.
        self.taken, self.words = {"error"}, {"EOF": "eof"}
        self.of_rules = {name: self.new(plain(name)) for name in rules}

    def new(self, name):
        found, number = name, 1
        while found in self.taken:
            number += 1
            found = f"{name}_{number}"
        self.taken.add(found)
        return found

    def of_token(self, name):
        symbol = self.new(plain(name))
        self.words[symbol] = word(name)
        return symbol

    def of_literal(self, at):
        """One byte is a literal of the yacc file; a longer text gets a name."""
        text = literal_text(at)
        if len(text) == 1 and 0 < ord(text) < 0x7F:
            symbol = "'%s'" % (ESCAPES.get(text) or (text if text.isprintable() else f"\\x{ord(text):02x}"))
        else:
            spelled = word(text).upper()
            symbol = self.new(f"LITERAL_{spelled}" if spelled[0].isdigit() else spelled)
        self.words[symbol] = word(text)
        return symbol

    def of_parts(self, alternatives, rule, suffix):
        """A name for alternatives of symbols: of these where they are few, else of the rule."""
        symbols = [symbol for alternative in alternatives for symbol in alternative]
        described = "_or_".join("_".join(self.words.get(symbol, symbol) for symbol in one) for one in alternatives)
        is_few = 0 < len(symbols) <= MOST_JOINED and all(alternatives) and len(described) <= LONGEST
        base = described if is_few else f"{rule}_part"
        name = self.new(base + suffix)
        self.words[name] = base if suffix else name
        return name, is_few
