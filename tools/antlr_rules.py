"""Reads the grammar files of ANTLR 4: `read` gives the grammar of a file."""

from antlr import tokens
from antlr_trees import Alternative, Any, Block, Code, Command, Grammar, Literal, Members, Name, Not, Range, Repeat, Rule
from bison import Refusal

OPTIONS_OF_BLOCK = "options and actions of a block: take them out, and write `*?` for a loop that isn't greedy"
NO_ELEMENT = "nothing of an alternative begins so: look for a ; or a quote that is missing before it"
BEHIND_TILDE = "behind ~ stands a token, a literal, a range or a set, or some of these in parentheses with | between them"


class Draft:
    """Alternatives on the way: those that are over, and the elements and commands of the open one."""
    def __init__(self, at):
        self.at, self.begin, self.alternatives, self.elements, self.commands = at, at, [], [], ()

    def end_alternative(self, behind):
        self.alternatives.append(Alternative(self.begin, tuple(self.elements), self.commands))
        self.begin, self.elements, self.commands = behind, [], ()

    def closed(self):
        self.end_alternative(None)
        return tuple(self.alternatives)


class Reader:
    """A file's tokens, and how far they are read."""

    def __init__(self, source):
        self.tokens, self.place, self.grammar = tokens(source), 0, Grammar(source)

    @property
    def here(self):
        return self.tokens[self.place]

    def next(self):
        token = self.here
        self.place += token.kind != "end"
        return token

    def has(self, *texts):
        return self.here.kind in ("sign", "name") and self.here.text in texts

    def take(self, text, message):
        if not self.has(text):
            raise Refusal(self.here, message)
        return self.next()

    def take_kind(self, kind, message):
        if self.here.kind != kind:
            raise Refusal(self.here, message)
        return self.next()

    # What stands before the rules

    def read(self):
        self.head()
        mode = None
        while self.here.kind != "end":
            if self.here.kind == "list":
                self.list_of_words()
            elif self.has("import"):
                self.imports()
            elif self.has("@"):
                self.grammar.codes.append(self.named_code())
            elif self.has("mode"):
                self.next()
                mode = self.take_kind("name", "a mode has a name: write it")
                self.take(";", "a mode's line ends with ;: write it")
            else:
                self.grammar.rules.append(self.rule(mode))
        return self.grammar

    def head(self):
        if self.has("lexer", "parser"):
            self.grammar.kind = self.next().text
        self.take("grammar", "a grammar file begins with `grammar NAME;`, `lexer grammar NAME;` or `parser grammar NAME;`")
        self.grammar.at = self.take_kind("name", "the grammar's name is missing: write it")
        self.take(";", "the line of the grammar's name ends with ;: write it")

    def list_of_words(self):
        """`options {..}`, `tokens {..}` or `channels {..}`."""
        if self.here.text.startswith("options"):
            self.grammar.options.update(self.options())
            return
        is_tokens = self.next().text.startswith("tokens")
        while not self.has("}"):
            name = self.take_kind("name", "this list has names with commas between them, and } behind them")
            self.grammar.tokens += [name] if is_tokens else []
            if not self.has("}"):
                self.take(",", "names stand with commas between them: write one here, and no = and no ;")
        self.next()

    def options(self):
        """The values of options by their names, each with its place."""
        found = {}
        self.next()
        while not self.has("}"):
            name = self.take_kind("name", "an option is a name, =, a value and ;")
            self.take("=", "an option is a name, =, a value and ;")
            found[name.text] = self.next()
            while self.has("."):
                self.next()
                self.next()
            self.take(";", "an option ends with ;: write it")
        self.next()
        return found

    def imports(self):
        self.next()
        while True:
            name = self.take_kind("name", "an import has names with commas between them, and ; behind them")
            if self.has("="):
                self.next()
                name = self.take_kind("name", "an import has names with commas between them, and ; behind them")
            self.grammar.imports.append(name)
            if not self.has(","):
                break
            self.next()
        self.take(";", "an import ends with ;: write it")

    def named_code(self):
        """The scope of a named action, its name and its code."""
        self.next()
        scope, name = None, self.take_kind("name", "a named action is @, a name and code in braces")
        if self.has("::"):
            self.next()
            scope, name = name, self.take_kind("name", "a named action is @, a name and code in braces")
        return scope, name, self.take_kind("code", "a named action is @, a name and code in braces")

    # Rules

    def rule(self, mode):
        is_fragment = False
        while self.has("fragment", "public", "private", "protected"):
            is_fragment |= self.next().text == "fragment"
        name = self.take_kind("name", "a rule begins with its name: look for a ; or a quote that is missing above")
        options = self.before_colon()
        self.take(":", f"a colon stands between the rule's name, {name.text}, and its alternatives")
        alternatives = self.alternatives(name.is_token_name)
        while self.has("catch", "finally"):
            self.next()
            if self.here.kind == "argument":
                self.next()
            self.take_kind("code", "code in braces stands behind catch [..] and finally")
        return Rule(name, is_fragment, mode, options, alternatives)

    def before_colon(self):
        """Takes what may stand between a rule's name and the colon, and gives the options."""
        options = {}
        while not self.has(":"):
            if self.here.kind == "list" and self.here.text.startswith("options"):
                options.update(self.options())
            elif self.has("@"):
                self.named_code()
            elif self.here.kind == "argument" or self.has("returns", "locals"):
                self.next()
            elif self.has("throws", ",", ".") or self.tokens[self.place - 1].text in ("throws", ",", "."):
                self.next()
            else:
                break
        return options

    def alternatives(self, is_lexer):
        """The alternatives up to the ; that ends the rule. Blocks that are open are kept in a list."""
        outer, draft = [], Draft(self.here)
        while outer or not self.has(";"):
            token = self.here
            if self.has("("):
                outer.append(draft)
                draft = Draft(self.block_begin())
            elif self.has(")") and outer:
                block = Block(draft.at, draft.closed())
                self.next()
                draft = outer.pop()
                draft.elements.append(self.repeated(block))
            elif self.has("|"):
                self.next()
                draft.end_alternative(self.here)
            elif self.has("->") and is_lexer:
                draft.commands = self.commands()
            elif self.has("#") and not outer:
                self.next()
                self.take_kind("name", "a label stands behind #: write it")
            else:
                self.element(draft, is_lexer, token)
        self.next()
        return draft.closed()

    def block_begin(self):
        token = self.next()
        if self.here.kind == "list" or self.has("@"):
            raise Refusal(self.here, OPTIONS_OF_BLOCK)
        return token

    def element(self, draft, is_lexer, token):
        """Adds an element; its label and its options are passed over."""
        if token.kind == "name" and self.tokens[self.place + 1].text in ("=", "+="):
            self.place += 2
            if not self.has("("):
                self.element(draft, is_lexer, self.here)
        elif self.has("<"):
            self.pass_options()
        elif token.kind in ("code", "predicate"):
            self.next()
            draft.elements.append(Code(token))
        else:
            draft.elements.append(self.repeated(self.atom(is_lexer)))

    def pass_options(self):
        while not self.has(">"):
            if self.here.kind == "end" or self.has(";"):
                raise Refusal(self.here, "options of an element end with >: write it")
            self.next()
        self.next()

    def atom(self, is_lexer):
        token = self.here
        if self.has("~"):
            return self.without()
        if self.has("."):
            return Any(self.next())
        if token.kind == "name":
            self.next()
            if self.here.kind == "argument" and not is_lexer:
                self.next()
            return Name(token)
        return self.character_atom(NO_ELEMENT)

    def character_atom(self, message):
        """A literal, a range or a set in brackets."""
        token = self.next()
        if token.kind == "members":
            return Members(token)
        if token.kind != "literal":
            raise Refusal(token, message)
        if self.has(".."):
            self.next()
            return Range(token, self.take_kind("literal", "a literal stands on both sides of ..: write it"))
        return Literal(token)

    def without(self):
        """`~` and one part, or some in parentheses."""
        tilde, parts = self.next(), []
        is_many = self.has("(")
        while True:
            self.place += is_many
            parts.append(Name(self.next()) if self.here.is_token_name else self.character_atom(BEHIND_TILDE))
            while self.has("<"):
                self.pass_options()
            if not (is_many and self.has("|")):
                break
        if is_many:
            self.take(")", BEHIND_TILDE)
        return Not(tilde, tuple(parts))

    def repeated(self, part):
        """The part with the sign behind it; options of an element may stand between."""
        while self.has("<"):
            self.pass_options()
        if not self.has("?", "*", "+"):
            return part
        sign = self.next()
        is_greedy = not self.has("?")
        self.place += not is_greedy
        return Repeat(sign, part, sign.text, is_greedy)

    def commands(self):
        self.next()
        found = []
        while True:
            name = self.take_kind("name", "a command stands behind ->: write it")
            argument = None
            if self.has("("):
                self.next()
                argument = self.next()
                self.take(")", "a command's argument stands in parentheses: close them")
            found.append(Command(name, argument))
            if not self.has(","):
                break
            self.next()
        if not self.has(";", "|", ")"):
            raise Refusal(self.here, "commands stand at the end of a rule: move what stands behind them before the arrow")
        return tuple(found)


def read(source):
    return Reader(source).read()
