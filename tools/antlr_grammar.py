"""Whole grammars of ANTLR 4: imports put in, the rules of parser and lexer, the tokens, and which literal is which token."""

import os
import re

from antlr import Source
from antlr_names import Names
from antlr_rules import read
from antlr_trees import Block, Code, Literal, Name, Not, Repeat
from bison import Refusal

# What code of a lexer names where it changes what is scanned.
CHANGING = re.compile(
    r"\b(?:nextToken|emit\w*|skip|more|recover|notifyListeners|match\w*|setType|_?type|_?channel|setChannel|_?mode|pushMode"
    r"|popMode|setInputStream|getInterpreter|_?interp|reset|[Oo]verride)\b"
)


def load(name):
    """The grammar of a file with its imports put in. A file that isn't read is an OSError."""
    with open(name, "rb") as file:
        grammar = read(Source(name, file.read()))
    known = {rule.name for rule in grammar.rules}
    for at, imported in imports(grammar, {name}):
        if imported.kind != grammar.kind and grammar.kind != "combined":
            raise Refusal(at, f"a {grammar.kind} grammar imports none of another kind")
        grammar.tokens += imported.tokens
        grammar.codes += imported.codes
        grammar.rules += [rule for rule in imported.rules if rule.name not in known]
        known |= {rule.name for rule in imported.rules}
    return grammar


def imports(grammar, seen):
    """The imported grammars with the places of their names, each before those that it imports itself."""
    waiting = [(name, grammar) for name in reversed(grammar.imports)]
    while waiting:
        at, importing = waiting.pop()
        name = os.path.join(os.path.dirname(importing.source.name), at.text + ".g4")
        if name in seen:
            continue
        seen.add(name)
        imported = read(beside(at, name))
        yield at, imported
        waiting += [(each, imported) for each in reversed(imported.imports)]


def beside(at, name):
    """A file that a grammar names at a place."""
    try:
        with open(name, "rb") as file:
            return Source(name, file.read())
    except OSError:
        raise Refusal(at, f"{name} isn't there or can't be read: put the file beside this one") from None


def elements_of(rule):
    """All elements of a rule, those of blocks and repetitions among them, in the order of the file."""
    waiting = [element for alternative in reversed(rule.alternatives) for element in reversed(alternative.elements)]
    while waiting:
        element = waiting.pop()
        yield element
        if isinstance(element, Repeat):
            waiting.append(element.part)
        elif isinstance(element, Not):
            waiting += reversed(element.parts)
        elif isinstance(element, Block):
            waiting += [each for one in reversed(element.alternatives) for each in reversed(one.elements)]


class Language:
    """A parser's and a lexer's rules, and the tokens with the symbols that stand for them in the yacc file."""

    def __init__(self, parser, lexer, ignores_code):
        self.parser, self.lexer, self.ignores_code = parser, lexer, ignores_code
        self.is_combined = parser is lexer
        self.rules = self.by_name(rule for rule in parser.rules if rule.at.is_rule_name)
        self.lexer_rules = self.by_name(rule for rule in lexer.rules if rule.at.is_token_name)
        self.names = Names(self.rules)
        # Literals of parser rules that have no lexer rule, in order, and the symbols of tokens.
        self.implicit, self.symbols = {}, {}
        # What is to be told: places and messages.
        self.notes = []
        self.check()
        self.aliases = self.literal_rules()
        self.name_tokens()

    @staticmethod
    def by_name(rules):
        found = {}
        for rule in rules:
            if rule.name in found:
                raise Refusal(rule.at, f"the rule {rule.name} stands a second time: keep one of them")
            found[rule.name] = rule
        return found

    def check(self):
        """Refuses grammars that ANTLR wouldn't take in this place, and code that may change what is scanned."""
        if not self.rules:
            raise Refusal(self.parser.at, "this grammar has no parser rules: name the parser's grammar too")
        if not self.is_combined:
            self.check_pair()
        elif "tokenVocab" in self.parser.options:
            raise Refusal(self.parser.options["tokenVocab"], "a combined grammar has its own tokens: take tokenVocab out")
        if not self.is_combined and "superClass" in self.lexer.options:
            self.code(self.lexer.options["superClass"], "a lexer's superClass may change what is scanned")
        scopes = ("lexer", None)
        for scope, name, code in self.lexer.codes:
            if (scope.text if scope else None) in scopes and name.text == "members" and CHANGING.search(code.text):
                self.code(code, "these members may change what is scanned")

    def check_pair(self):
        for rule in self.parser.rules:
            if rule.at.is_token_name:
                raise Refusal(rule.at, "a parser grammar has no lexer rules: move this one to the lexer's grammar")
        for rule in self.lexer.rules:
            if rule.at.is_rule_name:
                raise Refusal(rule.at, "a lexer grammar has no parser rules: begin this name with a capital letter")
        vocabulary = self.parser.options.get("tokenVocab")
        if vocabulary is None or vocabulary.text.strip("'") != self.lexer.at.text:
            at = vocabulary or self.parser.at
            raise Refusal(at, f"the parser's tokenVocab isn't {self.lexer.at.text}, the lexer that was named: name that one")

    def code(self, at, what):
        """Refuses code, or tells that it is ignored."""
        if not self.ignores_code:
            raise Refusal(at, f"{what}: take it out, or call with --ignore-code where it changes nothing")
        self.notes.append((at, f"ignored: {what}"))

    # Tokens

    def literal_rules(self):
        """The lexer rule of each literal that is the whole of one, by its spelling; of several rules none."""
        found = {}
        for rule in self.lexer_rules.values():
            literal = whole_literal(rule)
            if literal:
                found[literal.text] = None if literal.text in found else rule
        return found

    def used(self):
        """The literals and the names of tokens in parser rules."""
        for rule in self.rules.values():
            for element in elements_of(rule):
                if isinstance(element, Literal) or isinstance(element, Name) and element.at.is_token_name:
                    yield element

    def name_tokens(self):
        for name in (*self.lexer_rules, *(token.text for token in self.lexer.tokens + self.parser.tokens)):
            self.name_token(name)
        for element in [*self.used()]:
            if isinstance(element, Name):
                self.name_token(element.at.text)
            elif element.at.text not in self.aliases:
                if not self.is_combined:
                    raise Refusal(element.at, "no lexer rule is this literal alone: write one in the lexer's grammar")
                self.implicit.setdefault(element.at.text, element.at)
            elif self.aliases[element.at.text] is None:
                raise Refusal(element.at, "several lexer rules are this literal: name the one that is meant")
            elif self.aliases[element.at.text].options:
                raise Refusal(element.at, "the lexer rule of this literal has options: name the rule in place of the literal")
        for spelled, at in self.implicit.items():
            self.symbols[spelled] = self.names.of_literal(at)

    def name_token(self, name):
        if name != "EOF" and name not in self.symbols:
            self.symbols[name] = self.names.of_token(name)

    def symbol(self, at):
        """The symbol of a token's name or of a literal."""
        rule = self.aliases.get(at.text) if at.kind == "literal" else None
        return self.symbols[rule.name if rule else at.text]


def whole_literal(rule):
    """The literal that a lexer rule is, perhaps with code and at most two commands behind it."""
    if rule.is_fragment or len(rule.alternatives) != 1 or len(rule.alternatives[0].commands) > 2:
        return None
    first, *rest = rule.alternatives[0].elements or (None,)
    is_alone = not rest or (len(rest) == 1 and isinstance(rest[0], Code) and not rule.alternatives[0].commands)
    return first.at if isinstance(first, Literal) and is_alone else None
