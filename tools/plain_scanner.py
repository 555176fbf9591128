"""Scans of texts by the rules of a lex file in the profile: the longest match, and of its rules the first (POSIX lex)."""

from plain_lex import Class, Either, Join, Many


class Nodes:
    """Nodes with steps over sets of bytes and free steps over nothing (Thompson 1968), and sets of them as far as they are met."""

    def __init__(self):
        self.free, self.steps, self.known = [], [], {}

    def node(self):
        self.free.append([])
        self.steps.append([])
        return len(self.free) - 1

    def lay(self, pattern, begin):
        """Adds ways over what the pattern matches, and answers where they end."""
        end = self.node()
        if isinstance(pattern, Class):
            self.steps[begin].append((pattern.bytes, end))
        elif isinstance(pattern, Either):
            for part in pattern.parts:
                self.free[self.lay(part, begin)].append(end)
        elif isinstance(pattern, Many):
            self.free[begin].append(end)
            self.free[self.lay(pattern.part, end)].append(end)
        elif isinstance(pattern, Join):
            for part in pattern.parts:
                begin = self.lay(part, begin)
            self.free[begin].append(end)
        return end

    def freely(self, nodes):
        found, waiting = set(nodes), [*nodes]
        while waiting:
            behind = [node for node in self.free[waiting.pop()] if node not in found]
            found.update(behind)
            waiting += behind
        return frozenset(found)

    def behind(self, nodes, byte):
        if (nodes, byte) not in self.known:
            self.known[nodes, byte] = self.freely({end for node in nodes for some, end in self.steps[node] if byte in some})
        return self.known[nodes, byte]


class Scanner:
    """The patterns of rules in order."""

    def __init__(self, patterns):
        self.nodes, self.ends, self.winners = Nodes(), [], {}
        begin = self.nodes.node()
        for pattern in patterns:
            # a loop at the beginning of a pattern leads to no other one
            own = self.nodes.node()
            self.nodes.free[begin].append(own)
            self.ends.append(self.nodes.lay(pattern, own))
        self.begin = self.nodes.freely([begin])

    def winner(self, nodes):
        if nodes not in self.winners:
            self.winners[nodes] = next((rule for rule, end in enumerate(self.ends) if end in nodes), None)
        return self.winners[nodes]

    def longest(self, text, begin):
        """The end of the longest match there and its rule, from 0; None where none matches a byte."""
        nodes, place, found = self.begin, begin, None
        while nodes and place < len(text):
            nodes, place = self.nodes.behind(nodes, text[place]), place + 1
            rule = self.winner(nodes)
            found = found if rule is None else (place, rule)
        return found

    def matches(self, text):
        """The matches of a text in order, as rules and bytes; None where it can't be scanned to its end."""
        found, place = [], 0
        while place < len(text):
            match = self.longest(text, place)
            if not match:
                return None
            found.append((match[1], text[place : match[0]]))
            place = match[0]
        return found
