"""Yacc files at the limits, made here: the rows of the scripts beside this one."""

import random


def chain(count):
    """n1 : n2 ; and so on: each nonterminal has one rule."""
    rules = [f"n{i} : n{i + 1} ;" for i in range(1, count)]
    return "%%\n" + "\n".join(rules) + f"\nn{count} : 'x' ;\n"


def chain_in_the_opposite_order(count):
    """The chain with its rules from the last to the first; the start symbol is named."""
    rules = [f"n{i} : n{i + 1} ;" for i in range(count - 1, 0, -1)]
    return f"%start n1\n%%\nn{count} : 'x' ;\n" + "\n".join(rules) + "\n"


def turned_chain(count):
    """The chain with its last rule first, where rounds over the rules in order settle all but one late."""
    rules = [f"n{i} : n{i + 1} | n{i + 1} 'y' ;" for i in range(1, count)]
    return "%%\n" + f"s : n1 ;\nn{count} : 'x' ;\n" + "\n".join(rules) + "\n"


def random_rules(nonterminals, bodies, symbols, seed):
    """As many bodies for each nonterminal, of so many symbols at most."""
    draw = random.Random(seed)
    tokens = [f"t{i}" for i in range(1, 513)]
    lines = ["%token " + " ".join(tokens), "%%"]
    for i in range(1, nonterminals + 1):
        following = f"n{i + 1}" if i < nonterminals else ""
        parts = [f"t{draw.randint(1, 512)} {following}"]
        for _ in range(bodies - 1):
            length = draw.randint(0, symbols)
            parts.append(" ".join(
                f"t{draw.randint(1, 512)}" if draw.random() < 0.7 else f"n{draw.randint(1, nonterminals)}"
                for _ in range(length)))
        lines.append(f"n{i} : " + " | ".join(parts) + " ;")
    return "\n".join(lines) + "\n"


def one_sentence():
    """Rules at the limits, of which the start symbol reaches one."""
    tokens = " ".join(f"t{i}" for i in range(1, 513))
    rules = [f"n{i} : " + " | ".join(f"t{(i + k) % 512 + 1} n{(i * 8 + k) % 1023 + 1}" for k in range(8)) + " ;" for i in range(1, 1023)]
    return f"%token {tokens}\n%%\ns : t1 ;\n" + "\n".join(rules) + "\nn1023 : t1 ;\n"


def many_sentences(tokens, sentences):
    """So many sentences of four tokens each, no two alike, each with a rule of its own."""
    names = " ".join(f"t{i}" for i in range(1, tokens + 1))
    bodies = [" ".join(f"t{(i * (k + 1) + k * 7 + i // tokens) % tokens + 1}" for k in range(4)) for i in range(sentences)]
    return f"%token {names}\n%%\ns : " + " | ".join(bodies) + " ;\n"


def wide(rules, symbols):
    """Right sides of the greatest length."""
    side = " ".join(["n"] * symbols)
    return "%%\ns : n ;\nn : 'x' " + f"| {side} " * rules + ";\n"


def layered(nonterminals, bodies, tokens, seed):
    """As many bodies for each nonterminal, the first of them the next nonterminal, the others of up to four symbols."""
    draw = random.Random(seed)
    names = [f"t{i}" for i in range(1, tokens + 1)]
    lines = ["%token " + " ".join(names), "%%"]
    for i in range(1, nonterminals + 1):
        parts = [f"n{i + 1}" if i < nonterminals else "t1"]
        for _ in range(bodies - 1):
            length = draw.randint(1, 4)
            symbols = [draw.choice(names) if draw.random() < 0.5 else f"n{draw.randint(1, nonterminals)}" for _ in range(length)]
            parts.append(" ".join(symbols))
        lines.append(f"n{i} : " + " | ".join(parts) + " ;")
    return "\n".join(lines) + "\n"


def beside_itself(rules):
    """One nonterminal, of whose rules each but the first has it once: so many rules have (rules - 1)^2 * rules chains."""
    names = [f"t{i}" for i in range(1, rules)]
    return f"%token {' '.join(names)}\n%%\ns : 'x'" + "".join(f" | s {name}" for name in names) + " ;\n"


def scanner(tokens=512):
    """A lex file in which each token of the grammars made here is its own name."""
    return "%%\n" + "".join(f"t{i} return t{i};\n" for i in range(1, tokens + 1)) + "[ ]+ ;\n"


def one_mebibyte():
    """A file of just the most bytes: comments, actions and rules."""
    text = "%token NUM\n%%\ns : NUM ;\n"
    piece = "a : NUM { " + "if (x) { y('}'); } /* } */ " * 8 + "} | ;\n"
    text += piece * min(4000, (1048576 - len(text) - 4) // len(piece))
    return text + "/*" + " " * (1048576 - len(text) - 4) + "*/"


ROWS = [
    ("1,048,576 bytes", one_mebibyte),
    ("1,024 nonterminals in a chain", lambda: chain(1024)),
    ("the same, the last one first", lambda: turned_chain(1023)),
    ("8,192 rules of up to 12 symbols", lambda: random_rules(1024, 8, 12, 1)),
    ("8,192 rules of up to 4 symbols", lambda: random_rules(1024, 8, 4, 2)),
    ("4,000 rules of 128 symbols", lambda: wide(4000, 128)),
]
