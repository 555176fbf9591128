"""Made-up grammars of ANTLR 4, and slow matchers of their rules, for tests/antlr_runs.py.

A part of a rule is a letter, a dot, the name of a rule, ("row", parts), ("or", parts) or ("often", part, sign, is_greedy).
"""

# How long the sentences of parser rules are at most.
LONGEST = 4


def made(chance, depth, atoms, is_nullable=True):
    """A made-up part; where it may not be nullable, no part of a loop is."""
    kind = chance.random()
    if depth == 0 or kind < 0.3:
        return chance.choice(atoms)
    if kind < 0.55:
        return "row", [made(chance, depth - 1, atoms, is_nullable) for _ in range(chance.choice((2, 3)))]
    if kind < 0.75:
        return "or", [made(chance, depth - 1, atoms, is_nullable) for _ in range(chance.choice((2, 3)))]
    sign = chance.choice("?*+") if is_nullable else "+"
    return "often", made(chance, depth - 1, atoms, False), sign, chance.random() < 0.5


def spelled(part):
    """A part as a grammar has it."""
    if isinstance(part, str):
        return part if len(part) > 1 else "." if part == "." else f"'{part}'"
    if part[0] == "often":
        return f"({spelled(part[1])}){part[2]}{'' if part[3] else '?'}"
    return "(%s)" % (" " if part[0] == "row" else " | ").join(map(spelled, part[1]))


def steps(rest, is_late):
    """What is still to be matched, with its first letter in front, in the order in which a lexer tries it; a list of parts
    is late behind a loop or an option that isn't greedy."""
    if not rest or isinstance(rest[0], str):
        return [(rest, is_late)]
    part, behind = rest[0], rest[1:]
    if part[0] == "row":
        return steps((*part[1], *behind), is_late)
    if part[0] == "or":
        return [step for each in part[1] for step in steps((each, *behind), is_late)]
    _, inner, sign, is_greedy = part
    if sign == "+":
        return steps((inner, ("often", inner, "*", is_greedy), *behind), is_late)
    is_late = is_late or not is_greedy
    loop = (part, *behind) if sign == "*" else behind
    tried = [steps((inner, *loop), is_late), steps(behind, is_late)]
    return [step for each in (tried if is_greedy else reversed(tried)) for step in each]


def cut(listed):
    """Once the rule's end is met, what is late behind it is dropped."""
    found, has_ended = [], False
    for rest, is_late in listed:
        if not (has_ended and is_late) and (rest, is_late) not in found:
            found.append((rest, is_late))
        has_ended |= not rest
    return found


def matched(part, text):
    """Whether a lexer rule of this part matches the text."""
    lists = cut(steps((part,), False))
    for letter in text:
        behind = [(rest[1:], is_late) for rest, is_late in lists if rest and rest[0] in (".", letter)]
        lists = cut([step for each in behind for step in steps(*each)])
    return any(not rest for rest, _ in lists)


def frozen(part):
    if isinstance(part, str):
        return part
    return (part[0], frozen(part[1]), *part[2:]) if part[0] == "often" else (part[0], tuple(map(frozen, part[1])))


def rows_of(first, second):
    return {left + right for left in first for right in second if len(left) + len(right) <= LONGEST}


def sentences(part, known):
    """The sentences of a part that aren't too long; those of rules are known so far."""
    if isinstance(part, str):
        return {part} if len(part) == 1 else known[part]
    if part[0] == "or":
        return set().union(*(sentences(each, known) for each in part[1]))
    if part[0] == "row":
        found = {""}
        for each in part[1]:
            found = rows_of(found, sentences(each, known))
        return found
    one = sentences(part[1], known)
    found = {""} if part[2] in "?*" else one
    for _ in range(LONGEST if part[2] != "?" else 1):
        found = found | rows_of(found, one)
    return found


def least(parts):
    """The sentences of rules that use each other."""
    known, before = {name: set() for name in parts}, None
    while known != before:
        before, known = known, {name: sentences(part, known) for name, part in parts.items()}
    return known
