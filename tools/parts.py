"""Lists that stand within other lists, found in one pass over all of them (Aho and Corasick 1975)."""

from collections import deque


class Automaton:
    """A tree of lists; each node leads, where the next token doesn't fit, to the longest end of its own list that
    begins another."""

    def __init__(self, lists):
        self.steps, self.back = [{}], [0]
        # of each node the shortest list that ends there, as its length and its first place among the lists
        self.shortest = [None]
        for place, tokens in enumerate(lists):
            node = self.node_of(tokens)
            self.shortest[node] = self.shortest[node] or (len(tokens), place)
        self.link()

    def node_of(self, tokens):
        node = 0
        for token in tokens:
            if token not in self.steps[node]:
                self.steps[node][token] = len(self.steps)
                self.steps.append({})
                self.back.append(0)
                self.shortest.append(None)
            node = self.steps[node][token]
        return node

    def link(self):
        waiting = deque([0])
        while waiting:
            node = waiting.popleft()
            waiting.extend(self.steps[node].values())
            self.link_steps(node)

    def link_steps(self, node):
        for token, child in self.steps[node].items():
            back = self.step(self.back[node], token) if node else 0
            self.back[child] = back
            self.shortest[child] = self.shortest[back] or self.shortest[child]

    def step(self, node, token):
        while node and token not in self.steps[node]:
            node = self.back[node]
        return self.steps[node].get(token, 0)

    def shortest_in(self, tokens):
        """The length and place of the shortest of the lists that stands within this one, the first that ends; or
        None."""
        node, found = 0, None
        for token in tokens:
            node = self.step(node, token)
            here = self.shortest[node]
            if here and (found is None or here[0] < found[0]):
                found = here
        return found


def roots(lists):
    """For each list, which is a pair of a part and the whole that holds it, the place of the first one whose part it
    comes down to: its whole holds a shorter part, or that one's does, and so on. A part has at least one token."""
    automaton = Automaton([part for part, _ in lists])
    found = [held(automaton, part, whole) for part, whole in lists]
    for place in sorted(range(len(lists)), key=lambda place: len(lists[place][0])):
        found[place] = found[found[place]]
    return found


def held(automaton, part, whole):
    """The place of the shortest part in a whole, where it is shorter than the whole's own, or else of the first one
    that is like its own."""
    length, first = automaton.shortest_in(whole)
    return first if length < len(part) else automaton.shortest_in(part)[1]
