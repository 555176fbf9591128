"""The two files of a number and their summary, as docs/FORMATS.md has them."""

from model.manifest import Choice, Manifest
from model.scanner import BLANKS, SKIP, Scanner, joined
from model.trees import Grammar

TOKENS, LEFTS = [f"t{number}" for number in range(1, 25)], [f"n{number}" for number in range(1, 41)]
CRITERIA, OPERATORS = ["rule", "cdrc", "pair"], ["delete", "insert", "replace", "swap"]


class Draws:
    def __init__(self, seed):
        self.number = seed

    def below(self, most):
        self.number = (self.number * 6364136223846793005 + 1442695040888963407) % 2**64
        return self.number // 2**33 % most

    def of(self, symbols):
        return symbols[self.below(len(symbols))]


def rules_of(seed):
    """The rules of the yacc file as pairs of a left side and a body, in order."""
    draws = Draws(seed)
    for left, behind in zip(LEFTS, [*([name] for name in LEFTS[1:]), []]):
        yield left, [draws.of(TOKENS), *behind]
        for _ in range(1 + draws.below(3)):
            yield left, [draws.of((TOKENS, LEFTS)[draws.below(2)]) for _ in range(draws.below(4))]


def lines(*some):
    return "".join(line + "\n" for line in some)


def yacc_file(seed):
    rules = [*rules_of(seed)]
    bodies = {left: [" ".join(["", *body]) for name, body in rules if name == left] for left in LEFTS}
    return lines(" ".join(["%token", *TOKENS]), "%%", *(f"{left} :{' |'.join(bodies[left])} ;" for left in LEFTS))


def lex_file():
    return lines("%%", *(f"{token} return {token};" for token in TOKENS), "[ \\n]+ ;")


def scanner(tokens):
    """What the lex file means beside a yacc file with these tokens in use."""
    return Scanner([*((joined(token.encode()), token) for token in TOKENS), (BLANKS, SKIP)], tokens)


def summary(seed):
    """The line that `gen` writes of this number."""
    rules = [*rules_of(seed)]
    used = {symbol for _, body in rules for symbol in body}
    tokens = [token for token in TOKENS if token in used]
    manifest = Manifest(Grammar(tokens, LEFTS, rules, LEFTS[0]), scanner(tokens), Choice(CRITERIA, OPERATORS))
    length = len(manifest.text())
    counts = " ".join(f"{name} {count}" for name, count in manifest.counts.items())
    return lines(f"gen {seed} yacc {len(yacc_file(seed))} lex {len(lex_file())} {counts} bytes {length}").encode()
