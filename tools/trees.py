"""Trees of the start symbol, by the numbers of their rules from the left; and the way in them that meets a goal."""

from dataclasses import dataclass, field


@dataclass
class Node:
    """A symbol; a nonterminal has a rule, from 1, and children; a token has its place in the sentence, from 0."""

    symbol: str
    parent: "Node" = None
    index: int = None
    rule: int = None
    children: list = field(default_factory=list)
    place: int = None


def tree(rules, derivation):
    """The tree of a derivation, its nodes in order from the left, each before its children. Its first rule is the start symbol's."""
    lefts = {left for left, _ in rules}
    root = Node(rules[derivation[0] - 1][0])
    open_nodes, nodes, numbers, leaves = [root], [], iter(derivation), 0
    while open_nodes:
        node = open_nodes.pop()
        nodes.append(node)
        if node.symbol not in lefts:
            node.place, leaves = leaves, leaves + 1
            continue
        node.rule = next(numbers)
        left, right = rules[node.rule - 1]
        if left != node.symbol:
            raise ValueError(f"rule {node.rule} isn't one of {node.symbol}")
        node.children = [Node(symbol, node, index) for index, symbol in enumerate(right, 1)]
        open_nodes += reversed(node.children)
    return nodes


def meets(nodes, words):
    """The nodes that meet a goal: of a rule, of a rule at a place of another, of two tokens side by side."""
    if words[0] == "rule":
        return next(([node] for node in nodes if node.rule == int(words[1])), [])
    if words[0] == "context":
        outer, place, inner = map(int, words[1:])
        found = (node for node in nodes if node.rule == inner and node.parent and node.parent.rule == outer and node.index == place)
        return next(([node.parent, node] for node in found), [])
    leaves = [None, *(node for node in nodes if node.place is not None), None]
    names = ["<begin>", *(node.symbol for node in leaves[1:-1]), "<end>"]
    for left, right, pair in zip(leaves, leaves[1:], zip(names, names[1:])):
        if list(pair) == words[1:]:
            return [node for node in (left, right) if node]
    return []


def way(nodes, words):
    """The identities of the nodes on the ways from the root to those that meet the goal."""
    marked = set()
    for node in meets(nodes, words):
        while node and id(node) not in marked:
            marked.add(id(node))
            node = node.parent
    return marked


def depths(nodes):
    """Each node with its depth."""
    known = {}
    for node in nodes:
        known[id(node)] = known[id(node.parent)] + 1 if node.parent else 0
        yield node, known[id(node)]
