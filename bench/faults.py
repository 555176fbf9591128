#!/usr/bin/env python3
"""Counts how many planted faults the program's outputs find: bench/faults.py [PROGRAM].

A fault changes, adds or takes away one rule of a grammar, by the kinds of KINDS. An output finds it where one of its
sentences isn't in the language of the faulty rules, or one of its other lists is: lists of tokens are judged, and no parser
is run. Of faults those count whose language is another one, as some of SENTENCES drawn sentences show. Grammars are those of
examples/ and gallery/, each with COUNT faults; all is drawn by a number. A row is the share that is found, with the texts
that this takes; none has a bound. Nothing here is part of the gate.
"""

import os
import subprocess
import sys
import tempfile
from collections import defaultdict
from math import inf
from random import Random

from measure import TOP, program

sys.dont_write_bytecode = True
sys.path.insert(0, os.path.join(TOP, "tools"))

import outputs

SEED, COUNT, SENTENCES = 49, 60, 40
GRAMMARS = [("examples", name, name) for name in ("lists", "cexpr")]
GRAMMARS += [("gallery/json", "json", "json"), ("gallery/dot", "directed", "dot"), ("gallery/bc", "bc", "bc")]
GRAMMARS += [("gallery/lua", "lua", "lua"), ("gallery/awk", "awk", "awk")]
# Commands, and the rows: which outputs are tried together.
COMMANDS = {
    "a suite": ["suite"],
    "rules and contexts": ["suite", "--criteria=rule,cdrc", "--mutate=none"],
    "wrong": ["wrong"],
}
ROWS = [["a suite"], ["rules and contexts", "wrong"], ["a suite", "wrong"]]
KINDS = ["lost", "doubled", "exchanged", "replaced", "may be lost", "may be doubled", "rule lost", "rule elsewhere"]


def least_sizes(rules):
    """The size of the least tree of each left side that has one."""
    sizes, changed = {}, True
    lefts = {left for left, _ in rules}
    while changed:
        changed = False
        for left, body in rules:
            size = 1 + sum(sizes.get(symbol, inf) if symbol in lefts else 1 for symbol in body)
            if size < sizes.get(left, inf):
                sizes[left], changed = size, True
    return sizes


class Language:
    """The sentences of rules: which lists of tokens are among them, and some that are drawn."""

    def __init__(self, rules, start):
        self.rules, self.start, self.bodies = rules, start, defaultdict(list)
        for number, (left, _) in enumerate(rules):
            self.bodies[left].append(number)
        self.sizes = least_sizes(rules)
        self.empty = self.empties()
        self.pairs = self.neighbours()

    def empties(self):
        found, count = set(), -1
        while count < len(found):
            count = len(found)
            found |= {left for left, body in self.rules if all(symbol in found for symbol in body)}
        return found

    def kept(self):
        """The rules of which sentences are made."""
        sizes, reached, waiting = self.sizes, {self.start}, [self.start]
        has_tree = [all(symbol in sizes or symbol not in self.bodies for symbol in body) for _, body in self.rules]
        while waiting:
            for number in self.bodies.get(waiting.pop(), ()):
                more = {symbol for symbol in self.rules[number][1] if symbol in self.bodies} - reached
                if has_tree[number]:
                    reached |= more
                    waiting += more
        return [rule for rule, fits in zip(self.rules, has_tree) if fits and rule[0] in reached]

    def ends(self, rules, turn):
        """The tokens with which trees of each symbol begin, or by turned bodies end."""
        found, changed = defaultdict(set), True
        while changed:
            changed = False
            for left, body in rules:
                count = len(found[left])
                for symbol in turn(body):
                    found[left] |= found[symbol] if symbol in self.bodies else {symbol}
                    if symbol not in self.empty:
                        break
                changed = changed or count < len(found[left])
        return lambda symbol: found[symbol] if symbol in self.bodies else {symbol}

    def neighbours(self):
        """The pairs of tokens that stand side by side in some sentence, with None for both ends."""
        rules = self.kept()
        first, last = self.ends(rules, lambda body: body), self.ends(rules, lambda body: body[::-1])
        found = {(None, token) for token in first(self.start)} | {(token, None) for token in last(self.start)}
        found |= {(None, None)} if self.start in self.empty else set()
        for _, body in rules:
            for place, symbol in enumerate(body):
                for other in body[place + 1 :]:
                    found |= {(left, right) for left in last(symbol) for right in first(other)}
                    if other not in self.empty:
                        break
        return found

    def has(self, tokens):
        """Whether a tree of the start symbol yields the tokens (Earley 1970), where their neighbours don't tell."""
        if not all(pair in self.pairs for pair in zip([None, *tokens], [*tokens, None])):
            return False
        rows, waiting = [{} for _ in range(len(tokens) + 1)], [defaultdict(list) for _ in range(len(tokens) + 1)]
        rows[0] = {(number, 0, 0): None for number in self.bodies[self.start]}
        for place, row in enumerate(rows):
            items = [*row]
            for item in items:
                for at, found in self.steps(item, place, tokens, waiting):
                    if found not in rows[at]:
                        rows[at][found] = None
                        if at == place:
                            items.append(found)
        return any((number, len(self.rules[number][1]), 0) in rows[-1] for number in self.bodies[self.start])

    def steps(self, item, place, tokens, waiting):
        """The items that come of an item, each with its place."""
        number, dot, begin = item
        left, body = self.rules[number]
        if dot == len(body):
            yield from ((place, (other, spot + 1, origin)) for other, spot, origin in waiting[begin][left])
        elif body[dot] not in self.bodies:
            if tokens[place : place + 1] == [body[dot]]:
                yield place + 1, (number, dot + 1, begin)
        else:
            if not waiting[place][body[dot]]:
                yield from ((place, (other, 0, place)) for other in self.bodies[body[dot]])
            waiting[place][body[dot]].append(item)
            if body[dot] in self.empty:
                yield place, (number, dot + 1, begin)

    def size(self, symbols):
        return sum(self.sizes.get(symbol, inf) if symbol in self.bodies else 1 for symbol in symbols)

    def drawn(self, random, symbols, freely):
        """The tokens of drawn trees of these symbols; so many rules are drawn freely, the others are of least size."""
        symbols, tokens = [*reversed(symbols)], []
        while symbols:
            symbol = symbols.pop()
            if symbol not in self.bodies:
                tokens.append(symbol)
                continue
            bodies = [self.rules[number][1] for number in self.bodies[symbol] if self.size(self.rules[number][1]) < inf]
            symbols += reversed(random.choice(bodies) if freely > 0 else min(bodies, key=self.size))
            freely -= 1
        return tokens

    def around(self, random, left, body):
        """The tokens of a drawn sentence in which the left side is put in by the body; None where there is none."""
        symbols = [left]
        for _ in range(50):
            if left == self.start and random.random() < 0.6:
                break
            places = [(rule, place) for rule in self.kept() for place, symbol in enumerate(rule[1]) if symbol == left]
            if not places:
                break
            (left, outer), place = random.choice(places)
            symbols = [*outer[:place], symbols, *outer[place + 1 :]]
        if left != self.start or self.size(body) == inf:
            return None
        return self.drawn(random, [*flat(symbols, body)], random.randint(0, 6))


def flat(symbols, body):
    """The symbols around a body that stands in the innermost list."""
    if len(symbols) == 1 and not isinstance(symbols[0], list):
        yield from body
        return
    for symbol in symbols:
        yield from flat(symbol, body) if isinstance(symbol, list) else [symbol]


def changed(random, rules, tokens, kind):
    """The faulty rules, with the number of the rule that isn't there any more, and the left side and body that came; None
    where a rule can't have the fault."""
    number = random.randrange(len(rules))
    left, body = rules[number]
    if kind == "rule lost":
        return rules[:number] + rules[number + 1 :], number, None
    if kind == "rule elsewhere":
        more = random.choice(rules)[0], body
        return ([*rules, more], None, more) if more not in rules else None
    if not body:
        return None
    place = random.randrange(len(body))
    same = [other for other in (tokens if body[place] in tokens else [rule[0] for rule in rules]) if other != body[place]]
    made = {
        "lost": body[:place] + body[place + 1 :],
        "doubled": body[: place + 1] + body[place:],
        "exchanged": body[:place] + body[place : place + 2][::-1] + body[place + 2 :],
        "replaced": [*body[:place], random.choice(same or body), *body[place + 1 :]],
    }
    made["may be lost"], made["may be doubled"] = made["lost"], made["doubled"]
    more = left, made[kind]
    if more in rules:
        return None
    if kind.startswith("may"):
        return [*rules, more], None, more
    return [*rules[:number], more, *rules[number + 1 :]], number, more


class Faulty:
    """A language with a fault, beside the right one."""

    def __init__(self, right, rules, gone, come):
        self.right, self.wrong, self.gone, self.come = right, Language(rules, right.start), gone, come

    def is_different(self, random):
        """Whether a drawn sentence of one language isn't one of the other."""
        for _ in range(SENTENCES):
            if self.come and self.differs(self.wrong.around(random, *self.come), self.right):
                return True
            if self.gone is not None and self.differs(self.right.around(random, *self.right.rules[self.gone]), self.wrong):
                return True
        return False

    def differs(self, tokens, other):
        return tokens is not None and not other.has(tokens)

    def is_found_by(self, trials):
        """Sentences whose derivations have all their rules yet, and other lists where no rule came, tell nothing."""
        for trial in trials:
            tells = self.gone is not None and self.gone + 1 in trial.derivation if trial.positive else self.come
            if tells and self.wrong.has(trial.tokens) != trial.positive:
                return True
        return False


def made(path, folder, grammar, lex):
    """The outputs of the commands."""
    found = {}
    for name, words in COMMANDS.items():
        written = os.path.join(folder, "output")
        with open(written, "wb") as file:
            subprocess.run([path, words[0], grammar, lex, *words[1:]], stdout=file, check=True)
        found[name] = outputs.read(written)
    return found


def each_once(trials):
    """One trial of each list and derivation."""
    return {(trial.positive, *trial.tokens, *trial.derivation): trial for trial in trials}.values()


def tried(path, folder, names, random):
    """The faults of a grammar that count, each with the names of the outputs that find it; and the texts of each output."""
    place, grammar, lex = names
    yacc = os.path.join(TOP, place, f"{grammar}.y")
    found = made(path, folder, yacc, os.path.join(TOP, place, f"{lex}.l"))
    trials = {name: [*each_once(output.trials)] for name, output in found.items()}
    whole = found["a suite"]
    with open(yacc) as file:
        words = file.read().split()
    start = words[words.index("%start") + 1] if "%start" in words else whole.rules[0][0]
    right, faults = Language([(left, list(body)) for left, body in whole.rules], start), []
    while len(faults) < COUNT:
        fault = changed(random, right.rules, whole.tokens, random.choice(KINDS))
        if fault and (faulty := Faulty(right, *fault)).is_different(random):
            faults.append({name for name, some in trials.items() if faulty.is_found_by(some)})
    return faults, {name: {trial.text for trial in output.trials} for name, output in found.items()}


def main():
    path, random, faults, texts = program(), Random(SEED), [], defaultdict(int)
    with tempfile.TemporaryDirectory() as folder:
        for names in GRAMMARS:
            more, written = tried(path, folder, names, random)
            faults += more
            for row in ROWS:
                texts[tuple(row)] += len(set().union(*(written[name] for name in row)))
            shares = [f"{' and '.join(row)} {sum(any(name in some for name in row) for some in more)}" for row in ROWS]
            print(f"{names[1]}: of {len(more)} faults {', '.join(shares)}", file=sys.stderr, flush=True)
    for row in ROWS:
        share = 100 * sum(any(name in some for name in row) for some in faults) / len(faults)
        print(f"{' and '.join(row)}: {share:.1f} % of {len(faults)} faults found, with {texts[tuple(row)]} texts", flush=True)


if __name__ == "__main__":
    main()
