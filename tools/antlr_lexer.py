"""The lexer rules of ANTLR 4 as rules of a lex file: patterns, and what each gives."""

from dataclasses import dataclass

from antlr_characters import characters, letters
from antlr_grammar import elements_of
from antlr_names import Names, plain
from antlr_orders import END, Automaton, Lists, TooLarge, Ways, pattern_of
from antlr_patterns import EMPTY, NOTHING, Either, Named, Often, Row, either, often, row
from antlr_trees import Block, Code, Literal, Name, Repeat
from bison import Refusal

SKIPPED, UNKNOWN = None, False
EMPTY_MATCH = "this rule matches the empty text, where ANTLR's lexer never goes on: let it take a character at least"
IN_MODES = "conform's scanner has no modes, and makes no token of several matches: write one rule for the whole token"
TOO_LARGE = "this rule's loops that aren't greedy make too large a pattern: write it with greedy loops"
IN_ALTERNATIVES = "commands stand at the end of a rule with one alternative: put its alternatives into parentheses"
DEFAULT_CHANNELS = ("DEFAULT_TOKEN_CHANNEL", "0")


@dataclass
class LexRule:
    """A rule of the lex file: its pattern, and the symbol that it gives, SKIPPED or UNKNOWN."""

    pattern: object
    gives: object


def is_ordered(element):
    """Whether it is a loop that isn't greedy, or the end of the text."""
    is_lazy = isinstance(element, Repeat) and not element.is_greedy
    return is_lazy or (isinstance(element, Name) and element.at.text == "EOF")


class Lexer:
    """The lexer rules of a language. What they give is known before their patterns are."""

    def __init__(self, language):
        self.language, self.rules = language, language.lexer_rules
        # The places where each rule that was looked at names others.
        self.refers = {}
        # Definitions by the names of their rules: the names in the lex file, and the patterns.
        self.own_names, self.names, self.definitions = Names(()), {}, {}
        self.scanned = [rule for rule in self.rules.values() if not rule.is_fragment and rule.mode is None]
        self.gives = {rule.name: self.given_by(rule) for rule in self.scanned}
        for mode, at in {rule.mode.text: rule.mode for rule in self.rules.values() if rule.mode}.items():
            language.notes.append((at, f"left out: the rules of the mode {mode}, which no rule enters"))

    def given(self):
        """The symbols of tokens that the parser gets, in the order of their rules."""
        own = (self.gives[rule.name] for rule in self.scanned)
        return [*dict.fromkeys([*(self.language.symbols[each] for each in self.language.implicit), *filter(None, own)])]

    def given_by(self, rule):
        name, is_skipped = rule.name, False
        for alternative in rule.alternatives:
            if alternative.commands and len(rule.alternatives) > 1:
                raise Refusal(alternative.commands[0].at, IN_ALTERNATIVES)
            for command in alternative.commands:
                word, argument = command.at.text, command.argument.text if command.argument else None
                if word in ("more", "mode", "pushMode", "popMode"):
                    raise Refusal(command.at, IN_MODES)
                if word not in ("skip", "channel", "type") or (argument is None) != (word == "skip"):
                    raise Refusal(command.at, "the commands are skip, channel(..) and type(..): write one of these")
                is_skipped |= word == "skip" or (word == "channel" and argument not in DEFAULT_CHANNELS)
                name = argument if word == "type" else name
        if len({command.at.text for command in rule.alternatives[0].commands} & {"skip", "type"}) == 2:
            raise Refusal(rule.at, "skip and type stand in one rule: keep one of them")
        if name not in self.language.symbols:
            raise Refusal(rule.at, f"type({name}) names no token: declare it by tokens {{ {name} }}")
        return SKIPPED if is_skipped else self.language.symbols[name]

    # What rules are made of

    def check(self, rule):
        """Refuses recursion and code in a rule and in those that it names, each looked at once."""
        waiting, open_rules = [(rule, None)], {}
        while waiting:
            rule, at = waiting.pop()
            if rule is None:
                open_rules.popitem()
                continue
            if rule.name in open_rules:
                raise Refusal(at, f"the rule {rule.name} leads to itself, as no pattern does: write it without recursion")
            if rule.name in self.refers:
                continue
            self.refers[rule.name] = [*self.references(rule)]
            open_rules[rule.name] = True
            waiting.append((None, None))
            waiting += [(self.rules[each.text], each) for each in self.refers[rule.name]]

    def references(self, rule):
        for element in elements_of(rule):
            if isinstance(element, Name) and element.at.text != "EOF":
                if element.at.text not in self.rules:
                    raise Refusal(element.at, f"no lexer rule is {element.at.text}: write it, or look at its spelling")
                yield element.at
            if isinstance(element, Code) and not (rule.is_fragment and element.at.kind == "code"):
                what = "a predicate" if element.at.kind == "predicate" else "an action"
                self.language.code(element.at, f"{what} of a lexer rule may change what is scanned")
            if isinstance(element, Block) and any(one.commands for one in element.alternatives):
                raise Refusal(element.at, "a command stands in this block: move it to the end of the rule")

    def has_order(self, rule):
        """Whether a loop in the rule isn't greedy, or the end of the text stands in it, also by rules that it names."""
        waiting, seen = [rule.name], set()
        while waiting:
            name = waiting.pop()
            if name in seen:
                continue
            seen.add(name)
            if any(map(is_ordered, elements_of(self.rules[name]))):
                return True
            waiting += [each.text for each in self.refers[name]]
        return False

    def is_caseless(self, rule):
        own = rule.options.get("caseInsensitive") if rule else None
        option = own or self.language.lexer.options.get("caseInsensitive")
        return option is not None and option.text == "true"

    # Patterns without order

    def pattern(self, rule):
        return self.of_alternatives(rule.alternatives, self.is_caseless(rule))

    def of_alternatives(self, alternatives, is_caseless):
        return either(*(row(*(self.of_element(each, is_caseless) for each in one.elements)) for one in alternatives))

    def of_element(self, element, is_caseless):
        if isinstance(element, Code):
            return EMPTY
        if isinstance(element, Literal):
            return row(*letters(element.at, is_caseless))
        if isinstance(element, Block):
            return self.of_alternatives(element.alternatives, is_caseless)
        if isinstance(element, Repeat):
            return often(self.of_element(element.part, is_caseless), element.sign)
        if isinstance(element, Name):
            return self.named(element.at.text)
        return characters(element, is_caseless)

    def named(self, name):
        if name not in self.names:
            self.names[name] = self.own_names.new(plain(name))
            self.definitions[name] = self.pattern(self.rules[name])
        found = self.definitions[name]
        return found if found in (EMPTY, NOTHING) else Named(self.names[name])

    def is_empty(self, pattern):
        """Whether a pattern matches the empty text."""
        if isinstance(pattern, Named):
            return any(self.is_empty(self.definitions[name]) for name, own in self.names.items() if own == pattern.name)
        if isinstance(pattern, Row):
            return all(map(self.is_empty, pattern.parts))
        if isinstance(pattern, Either):
            return any(map(self.is_empty, pattern.parts))
        return isinstance(pattern, Often) and (pattern.sign != "+" or self.is_empty(pattern.part))

    # Patterns with order

    def lay(self, ways, rule):
        """Lays the ways of a rule's body from a place."""
        is_caseless = self.is_caseless(rule)
        return lambda begin: ways.once(begin, self.lays(ways, rule.alternatives, is_caseless))

    def lays(self, ways, alternatives, is_caseless):
        def laid(alternative):
            def lay(place):
                for element in alternative.elements:
                    place = self.lay_element(ways, element, place, is_caseless)
                return place

            return lay

        return [laid(alternative) for alternative in alternatives]

    def lay_element(self, ways, element, begin, is_caseless):
        if isinstance(element, Code):
            return begin
        if isinstance(element, Literal):
            for some in letters(element.at, is_caseless):
                begin = ways.step(begin, some)
            return begin
        if isinstance(element, Block):
            return ways.once(begin, self.lays(ways, element.alternatives, is_caseless))
        if isinstance(element, Repeat):
            inner = element.part
            whole = [lambda place: self.lay_element(ways, inner, place, is_caseless)]
            some = self.lays(ways, inner.alternatives, is_caseless) if isinstance(inner, Block) else whole
            return ways.repeat(begin, some, element.sign, element.is_greedy)
        if isinstance(element, Name):
            return ways.step(begin, END) if element.at.text == "EOF" else self.lay(ways, self.rules[element.at.text])(begin)
        return ways.step(begin, characters(element, is_caseless))

    def ordered(self, rule):
        """The pattern of a rule with order, and that of what it matches with the end of the text behind; None for no text."""
        ways = Ways()
        begin = ways.node()
        try:
            automaton = Automaton(Lists(ways, begin, self.lay(ways, rule)(begin)))
            found = [pattern_of(automaton, ends) for ends in (automaton.ends, automaton.ends_with_text)]
        except TooLarge:
            raise Refusal(rule.at, TOO_LARGE) from None
        if 0 in automaton.ends | automaton.ends_with_text:
            self.check_empty(rule)
        return found

    def check_empty(self, rule):
        if self.gives[rule.name] is not SKIPPED:
            raise Refusal(rule.at, EMPTY_MATCH)

    # The whole scanner

    def lex_rules(self):
        """The rules of the lex file in order. What the end of the text takes part in is in no text, and comes first."""
        at_ends, found = [], []
        for rule in self.scanned:
            self.check(rule)
            pattern, at_end = self.ordered(rule) if self.has_order(rule) else (self.pattern(rule), None)
            if pattern and self.is_empty(pattern):
                self.check_empty(rule)
            if at_end not in (None, EMPTY):
                at_ends.append(LexRule(at_end, UNKNOWN))
                message = f"{rule.name} may take the end of the text along: such a match is in no text"
                self.language.notes.append((rule.at, message))
            if pattern in (None, NOTHING, EMPTY):
                self.language.notes.append((rule.at, f"left out: {rule.name} matches no text that has a character"))
            else:
                found.append(LexRule(pattern, self.gives[rule.name]))
        is_caseless = self.is_caseless(None)
        for at in self.language.implicit.values() if is_caseless else ():
            if at.text.lower() in {spelled.lower() for spelled in self.language.aliases}:
                raise Refusal(at, "a lexer rule is this literal but for the case of letters: name the rule in its place")
        implicit = [
            LexRule(row(*letters(at, is_caseless)), self.language.symbols[spelled])
            for spelled, at in self.language.implicit.items()
        ]
        return at_ends + implicit + found
