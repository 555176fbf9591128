"""EOF taken out of rules: the sentences that stand before it stay.

The end of a text may be taken any number of times, and nothing else stands behind it. So each nonterminal that may lead to
EOF has two forms: one without EOF, and one, NAME_end, of what stands before it where EOF is all that follows.
"""

END = "EOF"


def grown(rules, is_found):
    """The nonterminals that are found, where more may be found once some are."""
    found, before = set(), None
    while before != len(found):
        before = len(found)
        found |= {left for left, alternatives in rules.items() if any(is_found(each, found) for each in alternatives)}
    return found


class Ends:
    """Rules on their way, and the names of the forms that end with EOF."""

    def __init__(self, rules, names):
        self.rules = rules
        self.silent = silent_in(rules)
        self.ending = grown(rules, lambda each, found: any(symbol == END or symbol in found for symbol in each))
        self.names = {left: names.new(f"{left}_end") for left in rules if left in self.ending}

    def plain(self, alternative):
        return [] if END in alternative else [alternative]

    def ended(self, alternative):
        """What stands before EOF, for each symbol that may be the first to lead to it."""
        found = []
        for place, symbol in enumerate(alternative):
            is_last = all(each == END or each in self.silent for each in alternative[place + 1 :])
            if is_last and symbol in self.names:
                found.append((*alternative[:place], self.names[symbol]))
            if symbol == END:
                found += [alternative[:place]] if is_last else []
                break
        return found

    def forms(self):
        """All rules in both forms, those without alternatives left out."""
        found = {}
        for left, alternatives in self.rules.items():
            found[left] = [form for each in alternatives for form in self.plain(each)]
            if left in self.names:
                found[self.names[left]] = [form for each in alternatives for form in self.ended(each)]
        return without_empty(found)


def silent_in(rules):
    """The nonterminals that may lead to nothing, or to EOF alone."""
    return grown(rules, lambda each, found: all(symbol == END or symbol in found for symbol in each))


def endless(rules):
    """A nonterminal that may take EOF again and again before or behind itself, where ANTLR's parser never ends; or None."""
    silent, leads = silent_in(rules), {left: set() for left in rules}

    def is_silent(part):
        return all(symbol == END or symbol in silent for symbol in part)

    pure = grown(rules, lambda each, found: is_silent(each) and any(symbol == END or symbol in found for symbol in each))
    behind = []
    for left, alternatives in rules.items():
        for each in alternatives:
            if each[:1] == (left,) and is_silent(each[1:]) and any(symbol == END or symbol in pure for symbol in each[1:]):
                return left
            for place, symbol in enumerate(each):
                if symbol in rules and is_silent(each[:place]):
                    leads[left].add(symbol)
                    behind += [(left, symbol)] if any(one == END or one in pure for one in each[:place]) else []
    return next((left for left, symbol in behind if left in reached(leads_of(leads), symbol)), None)


def leads_of(leads):
    """What leads where, in the form of rules."""
    return {left: [tuple(targets)] for left, targets in leads.items()}


def without_empty(rules):
    """Rules with alternatives alone: what has none stands in none."""
    gone = {left for left, alternatives in rules.items() if not alternatives}
    while gone:
        rules = {
            left: [each for each in alternatives if not gone & {*each}] for left, alternatives in rules.items() if left not in gone
        }
        gone = {left for left, alternatives in rules.items() if not alternatives}
    return rules


def reached(rules, start):
    """The rules that the start symbol leads to, in their order."""
    found, waiting = set(), [start]
    while waiting:
        left = waiting.pop()
        if left in rules and left not in found:
            found.add(left)
            waiting += [symbol for alternative in rules[left] for symbol in alternative]
    return {left: [*dict.fromkeys(alternatives)] for left, alternatives in rules.items() if left in found}


def without_ends(rules, start, names):
    """The start symbol, the rules without EOF, none where there is no sentence, and whether each sentence ends with EOF."""
    ends = Ends(rules, names)
    if start not in ends.names:
        return start, reached(ends.forms(), start), False
    own, found = ends.names[start], ends.forms()
    if start not in found and own not in found:
        return start, {}, True
    is_used = any(symbol in (start, own) for alternatives in found.values() for each in alternatives for symbol in each)
    is_ended = start not in found
    if not is_used:
        both = {*found.get(start, ()), *found.get(own, ())}
        merged = [form for each in rules[start] for form in (*ends.plain(each), *ends.ended(each)) if form in both]
        found = {start: merged, **{left: alternatives for left, alternatives in found.items() if left not in (start, own)}}
    elif start in found and own in found:
        whole = names.new(f"{start}_text")
        found = {whole: [(start,), (own,)], **found}
        start = whole
    elif own in found:
        start = own
    return start, reached(found, start), is_ended
