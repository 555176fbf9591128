"""Random small yacc files and lex files, each text with what it means by docs/FORMATS.md; and texts to scan by them."""

from math import inf

from model.manifest import edits
from model.scanner import BLANKS, EMPTY, FOREIGN, OWN_BYTE, SKIP, Either, Join, Many, joined, literal, one_of
from model.texts import Choice
from model.trees import ANY, Grammar

NAMES = ["NUM", "ID", "X_1", "a.b", "IF"]
LITERALS = b"+-*()x;,~'\\"
NONTERMINALS = ["s", "t", "u", "v_2", "w.w", "z"]
BETWEEN = [" ", " ", " ", "\n", " /* c ; */ ", " // c |\n"]
SPECIAL = b" \t\r\n\"\\.[()|*+?{^$/<"
CLASSES = {"digit": range(0x30, 0x3A), "lower": range(0x61, 0x7B), "blank": b" \t", "cntrl": [*range(32), 127]}
SIGNS = {"*": (0, None), "+": (1, None), "?": (0, 1)}
REPETITIONS = {**SIGNS, "{2}": (2, 2), "{1,2}": (1, 2), "{0,2}": (0, 2), "{2,}": (2, None)}
SKIPPING = [";", "", "{ count++; }", "/*@skip*/ return 1;", 'puts("return 1;");']
ALL = set(range(256))
OUTSIDE = ["REJECT;", "return 300;", "return UNKNOWN;", "return f(x);", "return 1; return 2;", "/*@token NONE*/"]


def in_hexadecimal(some):
    return "".join(f"\\x{byte:02x}" for byte in some)


def escaped(random, byte):
    """A byte as an escape of C, or as itself where it may stand."""
    forms = [in_hexadecimal([byte]), f"\\{byte:03o}"]
    return random.choice(forms if chr(byte) in "'\\" else [*forms, *[chr(byte)] * 4])


class YaccFile:
    """A yacc file that is written item by item; the tokens are noted as they are spelled."""

    def __init__(self, random):
        self.random, self.parts, self.spelled, self.rules = random, [], [], []
        names = random.sample(NAMES, random.randint(0, 3))
        literals = random.sample(LITERALS, random.randint(0 if names else 1, 3))
        self.tokens = [*names, *map(literal, literals)]
        self.nonterminals = random.sample(NONTERMINALS, random.randint(1, len(NONTERMINALS)))
        self.start = self.nonterminals[0]
        # all bodies of a steep file are three times the next nonterminal, but for the last one's: so trees are large
        self.steep = random.random() < 0.1
        self.declarations(names)
        self.put("%%")
        self.bodies()
        if random.random() < 0.3:
            self.put("%% 'q' NONE")

    def put(self, *items):
        self.parts += [item + self.random.choice(BETWEEN) for item in items]

    def put_symbol(self, symbol):
        if symbol in self.tokens and symbol not in self.spelled:
            self.spelled.append(symbol)
        self.put(f"'{escaped(self.random, ord(symbol[1]))}'" if symbol[0] == "'" else symbol)

    def declarations(self, names):
        begins = ["%{ int x; %}", "%union { int n; }", "%expect 2", "%type <n> s"]
        for item in self.random.sample(begins, self.random.randint(0, len(begins))):
            self.put(item)
        for name in names:
            self.put(self.random.choice(["%token", "%token <n>", "%nonassoc", "%precedence"]))
            self.put_symbol(name)
        for token in self.random.sample(self.tokens, self.random.randint(0, len(self.tokens))):
            self.put(self.random.choice(["%left", "%right"]))
            self.put_symbol(token)
        if self.random.random() < 0.3:
            self.start = self.random.choice(self.nonterminals)
            self.put("%start", self.start)

    def bodies(self):
        lefts = self.nonterminals + self.random.sample(self.nonterminals, self.random.randint(0, 1))
        for left in lefts:
            self.put(left, ":")
            for place in range(1 if self.steep else self.random.randint(1, 4)):
                self.put(*["|"] * (place > 0))
                self.body(left)
            self.put(*[";"] * self.random.choice([0, 1, 1, 1]))

    def body(self, left):
        symbols = self.symbols(left)
        self.put(*["%empty"] * (not symbols and self.random.random() < 0.3))
        for symbol in symbols:
            self.put_symbol(symbol)
            self.put(*["{ if (x) { y = '}'; } }"] * (self.random.random() < 0.1))
        if self.random.random() < 0.1:
            self.put("%prec")
            self.put_symbol(self.random.choice(self.tokens))
        if self.random.random() < 0.05:
            self.put("error")
        else:
            self.rules.append((left, symbols))

    def symbols(self, left):
        below = self.nonterminals[self.nonterminals.index(left) + 1 :]
        if self.steep:
            return below[:1] * 3 or self.random.choices(self.tokens, k=2)
        length = self.random.choice([0, 1, 1, 2, 2, 3, 4])
        return [self.random.choice(self.nonterminals if self.random.random() < 0.45 else self.tokens) for _ in range(length)]

    def text(self):
        return "".join(self.parts)

    def grammar(self):
        used = {symbol for _, body in self.rules for symbol in body}
        return Grammar([token for token in self.spelled if token in used], self.nonterminals, self.rules, self.start)


class Patterns:
    """Random patterns: each call answers a text and the pattern that it spells."""

    def __init__(self, random, bytes_):
        self.random, self.bytes, self.definitions = random, bytes_, {}
        for name in ("d", "D_1", "x-y")[: random.randint(0, 3)]:
            self.definitions[name] = self.pattern(0)

    def pattern(self, depth):
        return self.several(self.branch, "|", Either, 2, depth)

    def branch(self, depth):
        return self.several(self.piece, "", Join, 3, depth)

    def several(self, one, between, kind, most, depth):
        texts, patterns = zip(*(one(depth) for _ in range(self.random.randint(1, most))))
        return between.join(texts), patterns[0] if len(patterns) == 1 else kind(patterns)

    def piece(self, depth):
        text, pattern = self.atom(depth)
        if self.random.random() < 0.75:
            return text, pattern
        # within groups nothing is counted: automata stay small
        sign, (least, most) = self.random.choice([*(REPETITIONS if depth else SIGNS).items()])
        more = (Many(pattern),) if most is None else (Either((pattern, EMPTY)),) * (most - least)
        return text + sign, Join((pattern,) * least + more)

    def atom(self, depth):
        if depth and self.random.random() < 0.3:
            text, pattern = self.pattern(depth - 1)
            return f"({text})", pattern
        if self.definitions and self.random.random() < 0.2:
            name = self.random.choice([*self.definitions])
            return f"{{{name}}}", self.definitions[name][1]
        return self.random.choice([self.byte] * 4 + [self.bracket, self.bracket, self.quoted, self.dot])()

    def byte(self):
        byte = self.random.choice(self.bytes)
        return f"\\{byte:03o}" if byte in SPECIAL else escaped(self.random, byte), one_of([byte])

    def quoted(self):
        some = self.random.choices(self.bytes, k=self.random.randint(0, 2))
        return f'"{in_hexadecimal(some)}"', joined(some)

    def dot(self):
        return ".", one_of(ALL - {10})

    def bracket(self):
        texts, found = [], set()
        for _ in range(self.random.randint(1, 3)):
            text, some = self.random.choice([self.member] * 3 + [self.range, self.named])()
            texts.append(text)
            found |= set(some)
        if self.random.random() < 0.2 and len(found) < 256:
            return f"[^{''.join(texts)}]", one_of(ALL - found)
        return f"[{''.join(texts)}]", one_of(found)

    def member(self):
        byte = self.random.choice(self.bytes)
        return in_hexadecimal([byte]), [byte]

    def range(self):
        first, last = sorted(self.random.choices(self.bytes, k=2))
        return f"{in_hexadecimal([first])}-\\{last:03o}", range(first, last + 1)

    def named(self):
        name = self.random.choice([*CLASSES])
        return f"[:{name}:]", CLASSES[name]


class LexFile:
    """A lex file beside a yacc file: its text, and its rules as patterns with what they give."""

    def __init__(self, random, tokens):
        self.random, self.tokens = random, tokens
        self.literals = [ord(token[1]) for token in tokens if token[0] == "'"]
        self.patterns = Patterns(random, sorted({*b"ab0+-( \xe9", *self.literals}))
        definitions = [f"{name} \t{text}\n" for name, (text, _) in self.patterns.definitions.items()]
        random.shuffle(definitions)
        self.lines, self.rules = [random.choice(["", "%option noyywrap\n", "%{\nint n;\n%}\n"]), *definitions, "%%\n"], []
        for token in random.sample(tokens, random.randint(0, len(tokens))):
            self.own_rule(token)
        for _ in range(random.randint(1, 4)):
            self.rule(*self.patterns.pattern(1), *self.action())
        if random.random() < 0.8:
            self.rule("[ \\n]+", BLANKS, "", SKIP)
        if random.random() < 0.5 and self.literals:
            self.rule(f"[{in_hexadecimal(self.literals)}]", one_of(self.literals), "return yytext[0];", OWN_BYTE)

    def rule(self, text, pattern, action, given):
        if self.random.random() < 0.1:
            # another pattern that does the same
            other, second = self.patterns.pattern(1)
            self.lines.append(f"{other} |\n")
            self.rules.append((second, given))
        self.lines.append(f"{text} {action}\n")
        self.rules.append((pattern, given))

    def own_rule(self, token):
        """The token's own word, or its byte, gives it."""
        word = (token[1] if token[0] == "'" else token).encode()
        self.rule(f'"{in_hexadecimal(word)}"', joined(word), self.returning(token), token)

    def action(self):
        kind = self.random.choice(["token"] * 5 + ["own", "skip", "foreign"])
        if kind == "own":
            return self.random.choice(["return yytext[0];", "return ( *yytext ) ;"]), OWN_BYTE
        if kind == "skip":
            return self.random.choice(SKIPPING), SKIP
        if kind == "foreign":
            return self.random.choice(OUTSIDE), FOREIGN
        token = self.random.choice(self.tokens)
        return self.returning(token), token

    def returning(self, token):
        """An action that gives the token."""
        spelled = f"'{escaped(self.random, ord(token[1]))}'" if token[0] == "'" else token
        # a name with a dot is no word of C
        returned = [f"return {spelled};", f"{{ n = 0; return (/* it */ {spelled}); }}"] if "." not in token else []
        return self.random.choice([*returned, f"/*@token {spelled}*/ yymore();"])

    def text(self):
        return "".join(self.lines)


def options(random):
    """The words of random options, and the choice that they make."""
    criteria = random.sample(["rule", "cdrc", "pair"], random.randint(1, 3))
    operators = random.sample(["delete", "insert", "replace", "swap"], random.randint(0, 4))
    separator = random.choice([b" ", b" ", b"", b"\n", b"a", b"--", b"\xe9"])
    bases, weigh, version = random.choice([0, 1, 2, 5, 16]), random.choice(["nodes", "bytes"]), random.choice([1, 2])
    first = random.choice([None, None, 1, 2, 3, 10, 1000])
    choice = Choice(criteria, operators, bases, separator, weigh, version, first)
    words = [
        f"--criteria={','.join(criteria)}",
        f"--mutate={','.join(operators) or 'none'}",
        f"--bases={bases}",
        f"--separator={in_hexadecimal(separator)}",
        f"--weigh={weigh}",
        f"--format={version}",
        *([f"--first={first}"] if first else []),
    ]
    return random.sample(words, len(words)), choice


def sentence(random, trees):
    """The tokens of a random tree of the start symbol: from some node on the rules are those of chosen trees."""
    grammar, symbols, tokens, freely = trees.grammar, [trees.grammar.start], [], random.randint(0, 12)
    while symbols:
        symbol = symbols.pop()
        if symbol in grammar.tokens:
            tokens.append(symbol)
            continue
        rules = [rule for rule in grammar.rules_of(symbol) if trees.list_cost(ANY, grammar.rules[rule][1]) < inf]
        rule = random.choice(rules) if freely > 0 else trees.chosen(ANY, symbol).rule
        freely -= 1
        symbols += reversed(grammar.rules[rule][1])
    return tokens


def text_of(random, texts):
    """A text for `member`: that of a sentence or of tokens near one, with something else at its end now and then."""
    trees, all_tokens = texts.trees, texts.grammar.tokens
    tokens = random.choices(all_tokens, k=random.randint(0, 4)) if all_tokens else []
    if trees.cost(ANY, texts.grammar.start) < inf:
        tokens = sentence(random, trees)
    if random.random() < 0.5:
        some = [edited for _, edited in edits(tokens, ["delete", "insert", "replace", "swap"], all_tokens)]
        tokens = random.choice(some) if some else tokens
    between = random.choice([b" ", b" ", b" ", b"", b"\n", b"  "])
    text = between.join(texts.lexemes.get(token, b"?") for token in tokens)
    return text + random.choice([b""] * 6 + [b" ", b"\xff", b"ab", b"0"])


def damaged(random, text):
    """A manifest with one line otherwise: with another word, as of a line like it, with another byte, out, doubled or exchanged."""
    lines = text.splitlines(keepends=True)
    kinds = sorted({first_word(line) for line in lines})
    kind = random.choice(kinds)
    like = [place for place, line in enumerate(lines) if first_word(line) == kind]
    place, other = random.choice(like), lines[random.choice(like)]
    line, behind = lines[place], lines[place + 1 : place + 2]
    kind = random.choice(["word"] * 6 + ["byte", "out", "twice", "exchanged"])
    if kind == "word":
        some = [with_word(random, line, other), *behind]
    elif kind == "byte":
        at = random.randrange(len(line))
        some = [line[:at] + bytes([random.choice(b"0123 'x\n\"<abnst")]) + line[at + 1 :], *behind]
    else:
        some = {"out": behind, "twice": [line, line, *behind], "exchanged": [*behind, line]}[kind]
    return b"".join([*lines[:place], *some, *lines[place + 2 :]])


def first_word(line):
    return line.strip().partition(b" ")[0]


def with_word(random, line, other):
    """The line with a word of the other in its place, with a number that is one more or less, or with one more word."""
    words, others = line[:-1].split(b" "), other[:-1].split(b" ")
    apart = [at for at, (word, another) in enumerate(zip(words, others)) if word != another]
    numbers = [at for at, word in enumerate(words) if word.isdigit()]
    if apart and random.random() < 0.5:
        at = random.choice(apart)
        words[at] = others[at]
    elif numbers:
        at = random.choice(numbers)
        words[at] = b"%d" % max(int(words[at]) + random.choice([-1, 1]), 0)
    else:
        words.append(others[-1])
    return b" ".join(words) + b"\n"
