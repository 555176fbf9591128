"""The parser rules of ANTLR 4 as rules of a yacc file: alternatives of symbols, without blocks and repetitions."""

from antlr_ends import END, endless, without_ends
from antlr_trees import Any, Block, Code, Literal, Name, Not, Repeat
from bison import Refusal

ENDLESS = "may take EOF again and again, where ANTLR's parser never ends: let what is repeated take a token"


def is_end(element):
    return isinstance(element, Name) and element.at.text == END


def plain_elements(alternative):
    return [element for element in alternative.elements if not isinstance(element, Code)]


def last_ends(alternatives):
    """The places of EOF at the ends of alternatives, in blocks at their ends too."""
    waiting, found = [*alternatives], []
    while waiting:
        elements = plain_elements(waiting.pop())
        last = elements[-1] if elements else None
        if isinstance(last, Repeat) and last.sign == "?":
            last = last.part
        if is_end(last):
            found.append(last.at)
        elif isinstance(last, Block):
            waiting += last.alternatives
    return found


def start_of(language, asked):
    """The start rule: the one that is asked for, the only one that ends with EOF, or the first one."""
    rules = language.rules
    if asked is not None:
        if asked not in rules:
            raise Refusal(language.parser.at, f"no parser rule is {asked}: name another one by --start")
        return rules[asked]
    ending = [rule for rule in rules.values() if last_ends(rule.alternatives)]
    return ending[0] if len(ending) == 1 else next(iter(rules.values()))


class Conversion:
    """Rules on their way: for each rule that is reached, what is written of it and of its parts."""

    def __init__(self, language, start, given):
        self.language, self.names, self.given = language, language.names, given
        # The rules by name, as lists of left sides and alternatives, and those that are waited for.
        self.found, self.waiting = {}, [start]
        self.rule, self.written, self.known = None, None, {}
        while self.waiting:
            self.convert(self.waiting.pop())
        rules = dict(entry for name in language.rules if name in self.found for entry in self.found[name])
        self.check_endless(rules)
        self.start, self.rules, self.is_ended = without_ends(rules, self.names.of_rules[start.name], self.names)
        if not self.rules:
            raise Refusal(start.at, f"{start.name} has no sentence: EOF stands before what has to follow")
        symbols = (symbol for alternatives in self.rules.values() for each in alternatives for symbol in each)
        # The symbols of tokens that stand in rules.
        self.used = dict.fromkeys(symbol for symbol in symbols if symbol not in self.rules)

    def check_endless(self, rules):
        left = endless(rules)
        for name, entries in self.found.items():
            if left in dict(entries):
                raise Refusal(self.language.rules[name].at, f"{name} {ENDLESS}")

    def convert(self, rule):
        if rule.name in self.found:
            return
        self.rule, self.written = rule, []
        self.found[rule.name] = self.written
        own = self.alternatives(rule.alternatives)
        self.written.insert(0, (self.names.of_rules[rule.name], own))

    def left_out(self):
        return [name for name in self.language.rules if name not in self.found]

    # Alternatives

    def alternatives(self, some):
        """Alternatives as tuples of symbols, each once; a block that is the whole of one gives its own."""
        found = []
        for alternative in some:
            for element in alternative.elements:
                self.check_code(element)
            elements = plain_elements(alternative)
            if len(elements) == 1 and isinstance(elements[0], Block):
                found += self.alternatives(elements[0].alternatives)
            else:
                found.append(tuple(symbol for element in elements for symbol in self.symbols(element)))
        return [*dict.fromkeys(found)]

    def check_code(self, element):
        if isinstance(element, Code) and element.at.kind == "predicate":
            self.language.code(element.at, "a predicate may refuse sentences")

    def symbols(self, element):
        if isinstance(element, Name):
            return self.name(element.at)
        if isinstance(element, Literal):
            return (self.language.symbol(element.at),)
        if isinstance(element, (Any, Not)):
            return (self.some_tokens(element),)
        if isinstance(element, Block):
            found = self.alternatives(element.alternatives)
            return found[0] if len(found) == 1 else (self.part(found),)
        if isinstance(element, Repeat):
            return self.repeated(element)
        raise Refusal(element.at, "a parser rule has no characters: write a lexer rule for them, and its name here")

    def name(self, at):
        if at.text == END:
            return (END,)
        if at.is_token_name:
            return (self.language.symbol(at),)
        if at.text not in self.language.rules:
            raise Refusal(at, f"no rule is {at.text}: write it, or look at its spelling")
        self.waiting.append(self.language.rules[at.text])
        return (self.names.of_rules[at.text],)

    # New nonterminals

    def add(self, left, alternatives):
        self.written.append((left, [*dict.fromkeys(alternatives)]))
        return left

    def part(self, alternatives, suffix="", rest=None):
        """A nonterminal of these alternatives, or by another meaning of them; one for all places where its name tells all."""
        key = suffix, tuple(alternatives)
        left = self.known.get(key) or self.known.get((self.rule.name, *key))
        if left:
            return left
        left, is_telling = self.names.of_parts(alternatives, self.rule.name, suffix)
        self.known[key if is_telling else (self.rule.name, *key)] = left
        return self.add(left, rest(left) if rest else alternatives)

    def repeated(self, element):
        inner = element.part
        found = self.alternatives(inner.alternatives) if isinstance(inner, Block) else [self.symbols(inner)]
        if all(symbol == END for alternative in found for symbol in alternative):
            # To take the end of the text or not leads to the same sentences.
            return (END,) if element.sign == "+" and () not in found else ()
        if element.sign == "?":
            return (self.part(found, "_opt", lambda left: [(), *found]),)
        item = found[0] if len(found) == 1 else (self.part(found),)
        if element.sign == "+":
            return (self.part([item], "_list", lambda left: [item, (left, *item)]),)
        return (self.part([item], "_list_opt", lambda left: [(), (left, *item)]),)

    def some_tokens(self, element):
        """A nonterminal of the tokens that a dot stands for, or `~`."""
        parts = element.parts if isinstance(element, Not) else ()
        for part in parts:
            if not isinstance(part, (Name, Literal)) or part.at.text == END:
                raise Refusal(part.at, "behind ~ a parser rule has names of tokens and literals: write them")
        without = tuple(self.language.symbol(part.at) for part in parts)
        if ("~", without) not in self.known:
            words = "_or_".join(self.names.words[symbol] for symbol in without)
            left = self.names.new(f"not_{words}"[:40] if without else "any_token")
            some = [symbol for symbol in self.given if symbol not in without]
            if not some:
                raise Refusal(element.at, "no token is left here that the lexer gives: take this out")
            self.known["~", without] = self.add(left, [(symbol,) for symbol in some])
        return self.known["~", without]
