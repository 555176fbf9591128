"""Failed pairs and rules in context told as few: a pair may be any end of one symbol before any beginning of another,
and what is wrong with a place of a rule may be so with several rules there, and at that place of several rules."""

from collections import defaultdict, deque

BEGIN, END = "<begin>", "<end>"


def nullable(rules):
    """The nonterminals that have an empty sentence."""
    found, more = set(), True
    while more:
        new = {left for left, right in rules if left not in found and found.issuperset(right)}
        found |= new
        more = bool(new)
    return found


def links(rules, empty):
    """For each nonterminal the symbols with which one of its rules may begin."""
    found = defaultdict(dict)
    for left, right in rules:
        behind = (place for place, symbol in enumerate(right, 1) if symbol not in empty)
        found[left].update(dict.fromkeys(right[: next(behind, len(right))]))
    return found


def firsts(rules):
    """For each nonterminal the tokens that its sentences may begin with, in the order of the rules."""
    begins = links(rules, nullable(rules))
    return {left: [symbol for symbol in reached(begins, left) if symbol not in begins] for left, _ in rules}


def reached(steps, start):
    """What steps lead to from the start on, the nearest first."""
    found, waiting = {start: None}, deque([start])
    while waiting:
        new = [symbol for symbol in dict.fromkeys(steps.get(waiting.popleft(), ())) if symbol not in found]
        found.update(dict.fromkeys(new))
        waiting.extend(new)
    return found


def lasts(rules):
    return firsts([(left, right[::-1]) for left, right in rules])


def from_above(rules):
    """The nonterminals, those first that are nearest to the first rule's."""
    uses = defaultdict(list)
    for left, right in rules:
        uses[left] += right
    return [name for name in reached(uses, rules[0][0]) if name in uses] if rules else []


def distinct(sets, names, marks):
    """A name for each different set of these marks: a mark's own, or the first nonterminal's that has the set."""
    found = {frozenset([mark]): mark for mark in sorted(marks)}
    for name in names:
        kept = frozenset(sets[name]) & marks
        if kept:
            found.setdefault(kept, name)
    return {name: kept for kept, name in found.items()}


def products(rules, failed, passed):
    """For each two symbols the failed pairs of an end of the first and a beginning of the second, where no pair of
    these has passed; and each failed pair alone. `failed` and `passed` are sets of pairs."""
    found = {("pair", *pair): {pair} for pair in sorted(failed)}
    names = from_above(rules)
    tried, passed = failed | passed, passed - failed
    rows = distinct(lasts(rules), names, {left for left, _ in tried})
    columns = distinct(firsts(rules), names, {right for _, right in tried})
    for name, lefts in rows.items():
        bad = {right for left, right in passed if left in lefts}
        good = {pair for pair in failed if pair[0] in lefts}
        found.update(products_of_row(name, columns, bad, good) if good else ())
    return found


def products_of_row(name, columns, bad, good):
    for column, rights in columns.items():
        if bad.isdisjoint(rights):
            pairs = {pair for pair in good if pair[1] in rights}
            if len(pairs) > 1:
                yield ("sides", name, column), pairs


def merged_contexts(contexts):
    """For each rule in context, as outer rule, place and inner rule, the one or more that it is told with: the place,
    the outer rules that have there the same inner rules, and these."""
    inner = grouped(((outer, place), rule) for outer, place, rule in sorted(set(contexts)))
    outers = grouped(((place, tuple(rules)), outer) for (outer, place), rules in inner.items())
    merged = {}
    for (place, rules), found in outers.items():
        merged.update({(outer, place, rule): (place, tuple(found), rules) for outer in found for rule in rules})
    return merged


def grouped(rows):
    """The second parts of rows, by the first ones."""
    found = defaultdict(list)
    for key, value in rows:
        found[key].append(value)
    return found
