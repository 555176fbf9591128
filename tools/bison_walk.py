"""What stands for each token of a grammar file of GNU Bison in the profile of docs/FORMATS.md."""

import difflib

import plain
from bison import IDLE, IDLE_IN_RULES, LISTS, WORDS, Refusal, aliases, declared, literal_value, spelling, tokens

# What a part of a directive may be.
KINDS = {"symbol": ("name", "literal", "string", "translated", "number", "tag"), "value": ("name", "string", "block")}
# What may stand for a symbol of the grammar.
STANDING = (*plain.SYMBOLS, "string")
EXAMPLES = {
    "string": "a string",
    "block": "a block in braces",
    "name": "a name",
    "number": "a number",
    "tag": "a tag",
    "symbol": "a symbol",
}


def no_directive(directive):
    word = directive.text.decode(errors="replace")
    if directive.word in WORDS:
        return f"{word} has no place here: put it where it belongs, or take it out"
    near = difflib.get_close_matches(directive.word, WORDS, 1)
    advice = f"write {near[0]} if that is meant" if near else "look at its spelling"
    return f"{word} is no directive that is known: {advice}"


class Grammar:
    """A walk over the tokens that says of each what stands for it."""

    def __init__(self, text):
        self.text = text
        self.code = plain.Code(text)
        self.tokens = tokens(text)
        self.aliases = aliases(self.tokens)
        self.declared = declared(self.tokens)
        self.next = 0
        self.start = None
        # What is declared among the rules and has to stand before them: it is written before the first mark, on its line.
        self.mark, self.late = None, []

    def peek(self):
        return self.tokens[self.next] if self.next < len(self.tokens) else None

    def take(self):
        self.next += 1
        return self.tokens[self.next - 1]

    def peek_is(self, *words):
        return self.peek() is not None and self.peek().word in words

    def refuse(self, message):
        raise Refusal(self.peek().at if self.peek() else len(self.text), message)

    # Parts of tokens

    def symbol(self, token):
        """Writes a symbol plainly. A string without a token is taken out."""
        if token.kind == "string":
            alias = self.aliases.get(spelling(token))
            token.plain = self.plain_symbol(alias) if alias else None
        else:
            token.plain = self.plain_symbol(token)

    def plain_symbol(self, token):
        if b"-" in token.text and token.kind == "name":
            raise Refusal(token.at, "names have no `-` in yacc: write `_` for it everywhere")
        if token.text == b"YYerror":
            return b"error"
        if token.kind == "literal":
            value = literal_value(token)
            return token.text if plain.ITEM.fullmatch(token.text) else b"'\\x%02x'" % value
        return token.text

    def number(self, token):
        token.plain = b"%d" % int(token.text, 16) if token.text[:2].lower() == b"0x" else token.text

    def code_part(self, token):
        """Keeps a block, prologue or tag where the plain profile has the same end for it."""
        found = plain.next_item(self.code, token.at)
        if isinstance(found, plain.Fault) or found.text != token.text:
            token.take_out()

    # Directives

    def shape(self, word, parts):
        """Takes out what stands behind an idle directive."""
        for part in parts:
            name = part.rstrip("?+")
            kinds = KINDS.get(name, (name,))
            many = 0
            while self.peek_is(*kinds, ",") and (many == 0 or part.endswith("+")):
                many += self.take_out().word != ","
            if many == 0 and not part.endswith("?"):
                self.refuse(f"{EXAMPLES[name]} is missing behind {word}: write it, or take the directive out")

    def take_out(self):
        token = self.take()
        token.take_out()
        return token

    def list(self, word):
        """A list of symbols; what of it is plain is kept, and nothing where no symbol is left."""
        first, last = self.next, word
        while self.peek_is(*KINDS["symbol"], ","):
            token = self.take()
            self.entry(LISTS[word.word], token, last)
            if not token.is_gone:
                last = token
        kept = (token for token in self.tokens[first : self.next] if not token.is_gone)
        if not any(token.kind in STANDING for token in kept):
            for token in self.tokens[first - 1 : self.next]:
                token.take_out()
        elif word.text.decode() in LISTS:
            word.plain = LISTS[word.word].encode()

    def entry(self, word, token, last):
        if token.kind == "translated" or (token.kind == "string" and word == "%token"):
            token.take_out()
        elif token.kind == "tag":
            self.code_part(token)
            if last.kind != "directive":
                token.take_out()
        elif token.kind == "number":
            self.number(token)
        elif token.kind != "sign":
            self.symbol(token)
        elif last.kind not in (*STANDING, "number"):
            token.take_out()

    def start_symbol(self):
        if not self.peek_is("name"):
            self.refuse("a nonterminal's name is missing behind %start: write it")
        if self.start is not None:
            self.refuse("there are several start symbols: keep one %start, and make a file for each")
        self.start = self.take()
        self.symbol(self.start)
        while self.peek_is(","):
            self.take_out()
        if self.peek_is(*KINDS["symbol"]):
            self.refuse("there are several start symbols: keep one of them, and make a file for each")

    def union(self, word):
        if self.peek_is("name"):
            self.take_out()
        if not self.peek_is("block"):
            self.refuse("a block in braces is missing behind %union: write it")
        block = self.take()
        self.code_part(block)
        if block.is_gone:
            word.take_out()

    def declaration(self, directive):
        word = directive.word
        if word in LISTS:
            self.list(directive)
        elif word == "%start":
            self.start_symbol()
        elif word == "%union":
            self.union(directive)
        elif word == "%expect":
            if not self.peek_is("number"):
                self.refuse("a number is missing behind %expect: write it")
            self.number(self.take())
        elif word in IDLE:
            directive.take_out()
            self.shape(word, IDLE[word])
        else:
            raise Refusal(directive.at, no_directive(directive))

    # Sections

    def declarations(self):
        while self.peek() and not self.peek_is("mark"):
            token = self.take()
            if token.kind == "directive":
                self.declaration(token)
            elif token.kind == "prologue":
                self.code_part(token)
            elif token.word in (",", "line"):
                token.take_out()
        if not self.peek():
            self.refuse("the file ends without %%: write it between the declarations and the rules")
        self.mark = self.take()

    def declaration_in_rules(self, directive):
        """Takes a declaration out that stands among the rules, and remembers what is declared."""
        first = self.next - 1
        self.declaration(directive)
        for token in self.tokens[first : self.next]:
            if token.kind == "name" and directive.word == "%start":
                self.late += [b"%start", token.text]
            elif token.kind == "name" and LISTS.get(directive.word, "%type") != "%type" and token.text not in self.declared:
                self.declared.add(token.text)
                self.late += [b"%token", token.text]
            token.take_out()
        if not self.peek_is(";"):
            self.refuse("a declaration among the rules ends with `;`: write it")
        self.take_out()

    def directive_in_rules(self, directive):
        word = directive.word
        if word == "%prec":
            if not self.peek_is(*STANDING):
                self.refuse("a token is missing behind %prec: write it")
            token = self.take()
            self.symbol(token)
            if token.is_gone:
                directive.take_out()
        elif word in IDLE_IN_RULES:
            directive.take_out()
            self.shape(word, IDLE_IN_RULES[word])
        elif word != "%empty":
            self.declaration_in_rules(directive)

    def symbol_in_rules(self, token):
        self.symbol(token)
        if token.is_gone:
            string = token.text.decode(errors="replace")
            raise Refusal(token.at, f"no token has this string: write %token NAME {string} among the declarations")
        if token.text in (b"YYEOF", b"YYUNDEF") and token.text not in self.declared:
            raise Refusal(token.at, "this token is Bison's own: take it out, or declare it where sentences hold it")

    def rules(self):
        while self.peek() and not self.peek_is("mark"):
            token = self.take()
            if token.kind == "directive":
                self.directive_in_rules(token)
            elif token.kind in STANDING:
                self.symbol_in_rules(token)
            elif token.kind == "block":
                self.code_part(token)
            elif token.word in ("tag", "bracket", ",", "line"):
                token.take_out()
        self.mark.plain = b" ".join([*self.late, self.mark.text])
