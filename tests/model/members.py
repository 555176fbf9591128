"""Which lists of tokens are sentences: the outputs of `member` and `deep`, as docs/FORMATS.md has them."""

from model.manifest import Manifest, edits
from model.texts import bytes_of, end_line, line

MOST_TOKENS = 2000


def is_sentence(grammar, tokens):
    """Whether some tree of the start symbol yields the tokens: ends of parts are added until no rule adds one."""
    ends = {}

    def behind(symbol, place):
        return [place + 1] if tokens[place : place + 1] == [symbol] else ends.get((symbol, place), ())

    def derived(body, begin):
        found = {begin}
        for symbol in body:
            found = {end for place in found for end in behind(symbol, place)}
        return found

    for begin in range(len(tokens), -1, -1):
        ends.update({(left, begin): set() for left in grammar.nonterminals})
        changed = True
        while changed:
            changed = False
            for left, body in grammar.rules:
                found = derived(body, begin) - ends[left, begin]
                ends[left, begin] |= found
                changed = changed or bool(found)
    return len(tokens) in ends[grammar.start, 0]


def derived_by(grammar, code):
    """The tokens that rules derive from the start symbol, each put in for the leftmost nonterminal; None where they don't."""
    symbols, tokens, rules = [grammar.start], [], [*reversed(code)]
    while symbols:
        symbol = symbols.pop()
        if symbol in grammar.nonterminals:
            rule = rules.pop() if rules else None
            if rule not in grammar.rules_of(symbol):
                return None
            symbols += reversed(grammar.rules[rule][1])
        else:
            tokens.append(symbol)
    return None if rules else tokens


def is_derivation(grammar, tokens, told):
    """Whether an output is `inside` with a derivation of the tokens."""
    words = told.decode("latin-1").removeprefix("inside\n  derive ").removesuffix("\n").split(" ")
    code = [int(word) - 1 for word in words if word.isdecimal()]
    right = bytes_of(["inside", line("  derive", *(rule + 1 for rule in code))])
    return told == right and derived_by(grammar, code) == tokens


def member(grammar, scanner, text, told):
    """The status, the output and the error output of `member`. Of several outputs that are right it is the one told."""
    tokens, end = scanner.scan(text)
    if end < len(text):
        return 1, b"", bytes_of([f"conform: text: Stops at {end}"])
    if len(tokens) > MOST_TOKENS:
        return 1, b"", bytes_of([f"conform: text: Tokens {len(tokens)} of {MOST_TOKENS}"])
    if not is_sentence(grammar, tokens):
        return 0, b"outside\n", b""
    return 0, told if is_derivation(grammar, tokens, told) else b"inside\n  derive of these tokens\n", b""


class Deep(Manifest):
    """What `deep` writes of a grammar and a scanner: the edits that hold no poisoned pair and are no sentences."""

    def text(self):
        self.counts = dict.fromkeys(("bases", "edits", "negatives", "deep", "sentences", "long"), 0)
        self.counts["bases"] = len([*self.bases()])
        return bytes_of(["conform deep", *self.base_lines(), end_line(self.counts)])

    def edit_lines(self, base, words, tokens):
        told = self.told(tokens)
        self.counts["edits"] += 1
        self.counts[told] += 1
        if told == "deep":
            yield line("deep", self.counts["deep"], "base", base, *words)
            yield from self.sentence(tokens)

    def told(self, tokens):
        if self.poison(tokens):
            return "negatives"
        if len(tokens) > MOST_TOKENS:
            return "long"
        return "sentences" if is_sentence(self.grammar, tokens) else "deep"
