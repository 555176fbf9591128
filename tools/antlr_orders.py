"""Lexer rules of ANTLR 4 with loops that aren't greedy, or with the end of the text, as patterns without these.

ANTLR's lexer goes through a rule by a list of places in order (LexerATNSimulator of its runtime). Once one of them is the
rule's end, those behind it that lie behind a decision that isn't greedy are dropped; a longer match may come of the others.
So the texts that a rule matches are those of an automaton whose states are such lists, and a pattern is made of it.
"""

from antlr_patterns import EMPTY, Chars, Either, Often, Row, chars, either, often, row

# A step that the end of the text makes.
END = "end"
MOST_STATES, MOST_PARTS = 400, 4000


class TooLarge(Exception):
    """An automaton, or a pattern, with too many parts."""


class Ways:
    """Places with free steps in order and steps over characters; decisions that aren't greedy are lazy."""

    def __init__(self):
        self.free, self.steps, self.lazy = [], [], []

    def node(self, is_lazy=False):
        self.free.append([])
        self.steps.append([])
        self.lazy.append(is_lazy)
        return len(self.free) - 1

    def step(self, begin, some):
        end = self.node()
        self.steps[begin].append((some, end))
        return end

    def block(self, begin, alternatives, end):
        """Ways from one place to another; each alternative lays its own from a place, and answers where it ends."""
        for lay in alternatives:
            own = self.node()
            self.free[begin].append(own)
            self.free[lay(own)].append(end)

    def once(self, begin, alternatives):
        start, end = self.node(), self.node()
        self.free[begin].append(start)
        self.block(start, alternatives, end)
        return end

    def perhaps(self, begin, alternatives, is_greedy):
        start, end = self.node(not is_greedy), self.node()
        self.free[begin].append(start)
        self.block(start, alternatives, end)
        self.free[start].insert(len(self.free[start]) if is_greedy else 0, end)
        return end

    def any_times(self, begin, alternatives, is_greedy):
        entry, start, end = self.node(not is_greedy), self.node(), self.node()
        self.free[begin].append(entry)
        self.free[entry] += [start, end] if is_greedy else [end, start]
        self.block(start, alternatives, entry)
        return end

    def some_times(self, begin, alternatives, is_greedy):
        start, loop, end = self.node(), self.node(not is_greedy), self.node()
        self.free[begin].append(start)
        self.block(start, alternatives, loop)
        self.free[loop] += [start, end] if is_greedy else [end, start]
        return end

    def repeat(self, begin, alternatives, sign, is_greedy):
        laid = {"?": self.perhaps, "*": self.any_times, "+": self.some_times}[sign]
        return laid(begin, alternatives, is_greedy)


class Lists:
    """The lists of places that a lexer goes through, from the begin of a rule to its end."""

    def __init__(self, ways, begin, end):
        self.ways, self.begin, self.end = ways, begin, end

    def enter(self, place, is_late, found, has_ended):
        """Adds what is reached freely from a place, in order. A place is late behind a lazy decision."""
        waiting, seen = [(place, is_late)], set()
        while waiting:
            place, is_late = found_place = waiting.pop()
            if found_place in seen:
                continue
            seen.add(found_place)
            has_ended |= place == self.end
            if place == self.end or self.ways.steps[place] and not (has_ended and is_late):
                found[found_place] = True
            waiting += [(each, is_late or self.ways.lazy[each]) for each in reversed(self.ways.free[place])]
        return has_ended

    def first(self):
        found = {}
        self.enter(self.begin, False, found, False)
        return tuple(found)

    def behind(self, places, character):
        found, has_ended = {}, False
        for place, is_late in places:
            if has_ended and is_late:
                continue
            for some, target in self.ways.steps[place]:
                if some != END and any(first <= character <= last for first, last in some.ranges):
                    has_ended = self.enter(target, is_late or self.ways.lazy[target], found, has_ended)
        return tuple(found)

    def is_match(self, places):
        return any(place == self.end for place, _ in places)

    def is_match_at_end(self, places):
        """Whether the end of the text, once or more, leads to the rule's end."""
        waiting = [target for place, _ in places for some, target in self.ways.steps[place] if some == END]
        seen = set()
        while waiting:
            place = waiting.pop()
            if place not in seen:
                seen.add(place)
                waiting += [*self.ways.free[place], *(target for some, target in self.ways.steps[place] if some == END)]
        return self.end in seen


def classes(ways):
    """The characters in sets of which each step has all or none."""
    sets = list({some for steps in ways.steps for some, _ in steps if some != END})
    ordered, found = sorted({edge for some in sets for low, high in some.ranges for edge in (low, high + 1)}), {}
    for first, behind in zip(ordered, ordered[1:]):
        of = tuple(any(low <= first <= high for low, high in some.ranges) for some in sets)
        if any(of):
            found.setdefault(of, []).append((first, behind - 1))
    return [(ranges[0][0], chars(*ranges)) for ranges in found.values()]


class Automaton:
    """States with a step for each of some sets of characters, and the states in which a match may end."""

    def __init__(self, lists):
        some = classes(lists.ways)
        self.steps, numbers, waiting = [], {lists.first(): 0}, [lists.first()]
        for places in waiting:
            self.steps.append({})
            for character, of in some:
                target = lists.behind(places, character)
                if target and target not in numbers:
                    numbers[target] = len(numbers)
                    waiting.append(target)
                if target:
                    self.steps[-1].setdefault(numbers[target], []).append(of)
            if len(numbers) > MOST_STATES:
                raise TooLarge
        self.ends = {number for places, number in numbers.items() if lists.is_match(places)}
        self.ends_with_text = {number for places, number in numbers.items() if lists.is_match_at_end(places)}

    def merged(self, ends):
        """States that no text tells apart, as the steps of one of each, by targets; the first one's number and the ends."""
        group = [state in ends for state in range(len(self.steps))]
        while True:
            marks = [
                (group[state], frozenset((of, group[target]) for target, sets in steps.items() for of in sets))
                for state, steps in enumerate(self.steps)
            ]
            numbers = {mark: number for number, mark in enumerate(dict.fromkeys(marks))}
            if len(numbers) == len(set(group)):
                break
            group = [numbers[mark] for mark in marks]
        steps = {}
        for state, targets in enumerate(self.steps):
            for target, sets in targets.items():
                steps.setdefault((group[state], group[target]), set()).update(sets)
        return steps, group[0], {group[state] for state in ends}


def live(steps, ends):
    """The states from which an end is reached."""
    found, grew = set(ends), True
    while grew:
        more = {source for source, target in steps if target in found} - found
        found |= more
        grew = bool(more)
    return found


def parts_of(pattern):
    """How many parts a pattern has."""
    if isinstance(pattern, (Row, Either)):
        return 1 + sum(map(parts_of, pattern.parts))
    return 1 + parts_of(pattern.part) if isinstance(pattern, Often) else 1


def pattern_of(automaton, ends):
    """The pattern of the texts that lead to an end; None where there are none. States are taken out one by one (Brzozowski
    and McCluskey 1963), the one first that makes least of it."""
    steps, begin, ends = automaton.merged(ends)
    states = live(steps, ends)
    edges = {
        (source, target): either(*(Chars(some.ranges) for some in sorted(sets, key=lambda each: each.ranges)))
        for (source, target), sets in steps.items()
        if source in states and target in states
    }
    edges["begin", begin] = EMPTY
    edges.update({(end, "end"): EMPTY for end in ends})
    if begin not in states:
        return None
    sizes = {edge: parts_of(pattern) for edge, pattern in edges.items()}
    while states:
        state = min(states, key=lambda each: (cost(sizes, each), each))
        states.remove(state)
        take_out(edges, sizes, state)
    return edges.get(("begin", "end"))


def cost(sizes, state):
    """How much is written where a state is taken out."""
    before = [size for (source, target), size in sizes.items() if target == state != source]
    behind = [size for (source, target), size in sizes.items() if source == state != target]
    return sum(before) * len(behind) + (sum(behind) + sizes.get((state, state), 0) * len(behind)) * len(before)


def take_out(edges, sizes, state):
    loop = edges.pop((state, state), None)
    between = EMPTY if loop is None else often(loop, "*")
    before = [(source, edges.pop((source, target))) for source, target in [*edges] if target == state]
    behind = [(target, edges.pop((source, target))) for source, target in [*edges] if source == state]
    for source, first in before:
        for target, last in behind:
            way = row(first, between, last)
            known = edges.get((source, target))
            edges[source, target] = way if known is None else either(known, way)
            sizes[source, target] = parts_of(edges[source, target])
            if sizes[source, target] > MOST_PARTS:
                raise TooLarge
    for edge in [edge for edge in sizes if state in edge]:
        del sizes[edge]
