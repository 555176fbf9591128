"""What is said of causes, in the words of a grammar."""

SLIPS = {"drop": "left out", "double": "doubled"}


def rule_words(rules, number):
    if not rules:
        return f"rule {number}"
    left, right = rules[number - 1]
    return f"rule {number} ({left} : {' '.join(right) or '%empty'})"


def slip_words(rules, words):
    if words == ["empty"]:
        return "the empty text"
    number, slip, place = int(words[1]), words[2], int(words[3])
    what = f"symbols {place} and {place + 1} swapped" if slip == "swap" else f"symbol {place} {SLIPS[slip]}"
    return f"{rule_words(rules, number)} with {what}"


def rules_words(rules, numbers):
    """Some rules: one whole, of several their numbers and left sides."""
    if len(numbers) == 1:
        return rule_words(rules, numbers[0])
    lefts = ", ".join(dict.fromkeys(rules[number - 1][0] for number in numbers)) if rules else ""
    return f"rules {', '.join(map(str, numbers[:-1]))} and {numbers[-1]}" + (f" ({lefts})" if lefts else "")


def context_words(rules, place, outer, inner):
    return f"{rules_words(rules, inner)} as symbol {place} of {rules_words(rules, outer)}"


def pair_words(left, right):
    if (left, right) == ("<begin>", "<end>"):
        return "the empty text"
    if left == "<begin>":
        return f"{right} at the beginning"
    return f"{left} at the end" if right == "<end>" else f"{left} before {right}"


def place_words(rules, words):
    """What a cause is about: a rule, a rule in context, two neighbours, a slip, an edit, or a case of its own."""
    first, *rest = words
    says = {
        "rule": lambda number: rule_words(rules, number),
        "context": lambda place, outer, inner: context_words(rules, place, outer, inner),
        "pair": pair_words,
        "sides": pair_words,
        "slip": lambda *slip: slip_words(rules, list(slip)),
        "insert": lambda token: f"{token} put in",
        "replace": lambda token: f"{token} in place of another token",
        "delete": lambda left, right: f"a token left out between {left} and {right}",
        "swap": lambda left, right: f"{left} and {right} swapped",
        "more": lambda: "a whole sentence, and then more tokens",
    }
    return says[first](*rest) if first in says else " ".join(words)


def departure(cause):
    """How the parser departed from what is wanted."""
    return f"wrongly {cause.outcome}" if cause.outcome in ("taken", "refused") else cause.outcome


def cause_words(cause, rules):
    return f"{departure(cause)}: {place_words(rules, cause.words)}"



MOST_NAMED = 6


def names_words(names):
    """Some names, the first of many."""
    listed = ", ".join(names[:MOST_NAMED])
    return f"{listed} and {len(names) - MOST_NAMED} more" if len(names) > MOST_NAMED else listed


def missing_words(names):
    """What is said of tokens of which no text is known."""
    these, them, their = ("this token", "it", "its") if len(names) == 1 else ("these tokens", "them", "their")
    return (
        f"{names_words(names)}: no text is known of {these}: no rule is understood to give {them}, or rules above take "
        f"{their} texts (`conform lexical` tells)"
    )
