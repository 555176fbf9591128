"""The yacc file and the lex file that from_antlr writes."""

from antlr_lexer import SKIPPED, UNKNOWN
from antlr_patterns import Spelling
from wording import names_words

# What tools/from_flex writes before actions of which nothing is known.
FOREIGN = b"/*@token not.a.token*/"
# The functions of lex, which aren't read as tokens.
FUNCTIONS = ("REJECT", "BEGIN")
WIDTH = 100


def wrapped(first, words):
    """Words in lines that are not longer than the width, of which the others are indented."""
    lines = [first]
    for word in words:
        if len(lines[-1]) + len(word) >= WIDTH:
            lines.append("   ")
        lines[-1] += " " + word
    return "\n".join(lines)


def rule_text(left, alternatives):
    bodies = (" ".join(alternative) or "%empty" for alternative in alternatives)
    return f"{left}\n    : " + "\n    | ".join(bodies) + "\n    ;\n"


def yacc_text(conversion, start, tokens, unused, whence):
    """The yacc file. Tokens that no rule has stand in one that nothing reaches, so that the scanner may give them."""
    lines = [f"/* The sentences of the rule {start} of {whence}, by from_antlr. */"]
    if tokens:
        lines.append(wrapped("%token", tokens))
    lines += [f"%start {conversion.start}", "%%"]
    rules = [rule_text(*each) for each in conversion.rules.items()]
    if unused:
        rules.append("/* Tokens that stand in no sentence. */\n")
        rules.append(rule_text(conversion.names.new("unused_token"), [(symbol,) for symbol in unused]))
    return ("\n".join(lines) + "\n" + "".join(rules)).encode()


def action(rule):
    if rule.gives is SKIPPED:
        return b";"
    if rule.gives is UNKNOWN:
        return FOREIGN + b" ;"
    returned = f"return {rule.gives};"
    return (returned + (f" /*@token {rule.gives}*/" if rule.gives in FUNCTIONS else "")).encode()


def lex_text(lexer, rules, whence):
    spelling = Spelling(lexer.own_names.new("BEYOND_ASCII"))
    written = [spelling.text(rule.pattern) + b" " + action(rule) for rule in rules]
    definitions = [lexer.names[name].encode() + b" " + spelling.text(pattern) for name, pattern in lexer.definitions.items()]
    if spelling.uses_beyond:
        definitions.append(spelling.beyond.encode() + b" " + spelling.definition())
    lines = [f"/* The scanner of {whence}, by from_antlr. */".encode(), *definitions, b"%%", *written]
    return b"\n".join(lines) + b"\n"


def files(conversion, lexer, start, whence):
    """Both files, and what is to be told of the whole."""
    rules = lexer.lex_rules()
    given = lexer.given()
    unused = [symbol for symbol in given if symbol not in conversion.used]
    in_use = [*dict.fromkeys([*given, *conversion.used])]
    tokens = [symbol for symbol in in_use if not symbol.startswith("'")]
    told = []
    missing = [symbol for symbol in conversion.used if symbol not in given]
    if missing:
        told.append(f"no rule gives these tokens, so sentences with them have no text: {names_words(missing)}")
    if conversion.left_out():
        told.append(f"left out: {start} leads to none of these rules: {names_words(conversion.left_out())}")
    return yacc_text(conversion, start, tokens, unused, whence), lex_text(lexer, rules, whence), told
