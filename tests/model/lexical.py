"""What each rule of a scanner takes: the outputs of `lexical` and `spell`, as docs/FORMATS.md has them."""

from itertools import combinations

from model.scanner import OWN_BYTE, SKIP
from model.texts import Texts, bytes_of, end_line, in_common, line, name_of, quoted
from model.trees import RuleGoal, yield_of


class Least:
    """The least text that each rule of a scanner wins, and the least one in which each two rules overlap."""

    def __init__(self, scanner):
        self.wins, self.both = {}, {}
        for text, nodes in scanner.least_texts():
            matching = [rule for rule, end in enumerate(scanner.ends) if end in nodes]
            for rule in matching[:1]:
                self.wins.setdefault(rule, text)
            for pair in combinations(matching, 2):
                self.both.setdefault(pair, text)


def kind(scanner, rule):
    """The words of what a rule gives."""
    given = scanner.rules[rule][1]
    if given == OWN_BYTE:
        return "literal"
    if given == SKIP:
        return "skip"
    return line("token", name_of(given)) if given in scanner.tokens else "foreign"


def lexical(scanner):
    """The whole output of `lexical`."""
    least, rules = Least(scanner), range(len(scanner.rules))
    won = [line("wins", quoted(least.wins[rule])) if rule in least.wins else "shadowed" for rule in rules]
    lines = [line("rule", rule + 1, kind(scanner, rule), told) for rule, told in zip(rules, won)]
    pairs = [pair for pair in combinations(rules, 2) if pair in least.both]
    overlaps = [line("overlap", first + 1, second + 1, quoted(least.both[first, second])) for first, second in pairs]
    disjoint = len(rules) * (len(rules) - 1) // 2 - len(pairs)
    counts = {"rules": len(rules), "shadowed": won.count("shadowed"), "overlaps": len(pairs), "disjoint": disjoint}
    return bytes_of(["conform lexical", *lines, *overlaps, end_line(counts)])


class Spellings(Texts):
    """What `spell` writes of a grammar and a scanner."""

    def __init__(self, grammar, scanner, choice):
        super().__init__(grammar, scanner, choice)
        self.won = Least(scanner).wins
        goals = (RuleGoal(rule) for rule in range(len(grammar.rules)))
        self.judged_rules = [*self.judged(goals)]

    def text(self):
        names = ("spelled", "shadowed", "foreign", "literal", "infeasible", "large")
        counts = {"rules": len(self.scanner.rules), **dict.fromkeys(names, 0)}
        lines = []
        for rule in range(counts["rules"]):
            told, found = self.spelling(rule)
            counts[told] += 1
            lines += found if told == "spelled" else [line("spelling", rule + 1, told)]
        return bytes_of(["conform spell", *lines, end_line(counts)])

    def spelling(self, rule):
        """What is told of a rule, and the lines of one that is spelled."""
        words = kind(self.scanner, rule)
        if rule not in self.won:
            return "shadowed", []
        if words in ("foreign", "literal"):
            return words, []
        token = None if words == "skip" else self.scanner.rules[rule][1]
        goals = [row for row in self.judged_rules if token is None or token in self.grammar.rules[row[0].rule][1]]
        feasible = [row for row in goals if row[1] == "feasible"]
        if not feasible:
            return "large" if any(told == "large" for _, told, _, _ in goals) else "infeasible", []
        if token is None:
            goal, _, size, tree = max(feasible, key=lambda row: len(yield_of(row[3])))
        else:
            goal, _, size, tree = min(feasible, key=lambda row: row[2])
        return "spelled", [*self.entry(rule, words, token, goal, size, tree)]

    def entry(self, rule, words, token, goal, size, tree):
        tokens = yield_of(tree)
        place = ["at", tokens.index(token)] if token else []
        yield line("spelling", rule + 1, words, "goal", goal.rule + 1, "size", size, *place)
        yield line("  derive", *(number + 1 for number in tree.code()))
        yield line("  tokens", *map(name_of, tokens))
        yield "  " + self.spelled(rule, token, tokens)

    def spelled(self, rule, token, tokens):
        """The text line, of tokens with the rule's spelling in the place of one lexeme, or around each."""
        if told := self.without_lexeme(tokens):
            return told
        spelling, lexemes = self.won[rule], [self.lexemes[each] for each in tokens]
        if token is None:
            text = spelling + b"".join(lexeme + spelling for lexeme in lexemes)
        else:
            lexemes[tokens.index(token)] = spelling
            text = self.choice.separator.join(lexemes)
        found, end = self.scanner.scan(text)
        matched = [(text[begin:behind], winner) for begin, behind, winner in self.scanner.matches(text)]
        if found == tokens and end == len(text) and (spelling, rule) in matched:
            return line("text", quoted(text))
        return line("no text scan", in_common(found, tokens))
