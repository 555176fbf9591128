"""What texts a token may have, guessed of a grammar: of its string, of a comment beside it, and of its name."""

import re
from typing import NamedTuple

from flex_patterns import member_text
from marks import BY_NAME, NAMES, SECOND

# Parts of names that say that it is a token, and nothing of which.
PREFIXES = {"t", "tk", "tok", "token", "kw", "k", "key", "keyword", "lex", "sym", "y", "yy"}
SUFFIXES = {"t", "tk", "tok", "token", "kw", "k", "keyword", "sym", "op"}
# A prefix that isn't among them counts where so many names have it, and such a share of all.
LEAST_NAMES, LEAST_SHARE = 5, 0.15
ASSIGNMENT = ("assign", "asgn", "asg", "equals", "equal", "eq", "set")
# The patterns of classes of texts, and what names tell them, in small letters and without `_`.
CLASSES = {
    "number": (rb"[0-9]+", "number num integer int digits unumber uint inum constant iconst"),
    "real number": (rb"[0-9]+\.[0-9]+", "real float double floating floatingpoint fnum realnumber dnumber fconst"),
    "word": (rb"[A-Za-z_][A-Za-z0-9_]*", "identifier ident id name symbol word variable atom varname idname lname"),
    "string": (rb"\"([^\\\"\n]|\\.)*\"", "string str text quoted dquoted qstring tstring quotedstring cstring sconst"),
    "character": (rb"'([^\\'\n]|\\.)'", "character charconst cconst charcon"),
    "regular expression": (rb"\/([^\\\/\n]|\\.)+\/", "regexp regex re regexpr regularexpression ere"),
}
BY_CLASS_NAME = {name: kind for kind, (_, names) in CLASSES.items() for name in names.split()}
# INT_LITERAL is no keyword `int`: the base of a name that ends so, and its class.
LITERAL = re.compile(r"(.+?)(?:literal|lit|constant|const|value|val|num|number)")
BY_BASE = {**BY_CLASS_NAME, "char": "character", **dict.fromkeys(("long", "short", "unsigned", "decimal"), "number")}
# Names of classes that keywords have too, and ends of names that tell a class.
WEAK = {"name", "symbol", "word", "variable", "atom", "text", "quoted", "constant", "re", "ere", "character"}
CLASS_ENDS = re.compile(r".*(identifier|ident|number|string)")
# Prefixes and suffixes that say that it is no class, and those that say that it is no mark either.
NO_CLASS, NO_MARK = {"kw", "k", "keyword"}, {"kw", "keyword"}
# Names of marks that are keywords of languages too.
MARK_WORDS = {*"and or not xor mod div shl shr at add subtract multiply divide less greater percent period space hash".split()}
# Names of types: where one is there that names no class of texts, those that may be either are keywords.
TYPES = {"int", "integer", "char", "float", "double", "real", "string"}
TYPES_ALONE = {"char", "long", "short", "void", "bool", "boolean", "byte"}
END_OF_TEXT = re.compile(r"endof(?:file|input|text)|(?:yy|t)?eof|eoi|endmarker")
# Of a name that is one of these, or whose last part is one of those, no text is told.
UNTOLD = {"literal", "value", "other", "builtin", "operator"}
UNTOLD_ENDS = {"start", "begin", "end", "text", "func", "fcn", "call", "expr", "exprs", "cmd", "op", "interp", "literal"}


class Guess(NamedTuple):
    """The kind of a guess, its pattern, or none where nothing can be written, and what it was guessed of."""

    kind: str
    pattern: bytes
    source: str


def quoted(text):
    """A pattern that matches this text alone."""
    return b'"%s"' % b"".join(map(quoted_byte, text))


def quoted_byte(byte):
    if byte in b'\\"':
        return b"\\%c" % byte
    return b"%c" % byte if 0x20 <= byte < 0x7F else member_text(byte)


def simple(name):
    return re.sub(r"[^a-z0-9]", "", name.lower())


def parts_of(name):
    """The parts of a name: between `_`, and behind one small letter in front of large ones."""
    return [part.lower() for part in re.split(r"[_.]+|(?<=^[a-z])(?=[A-Z])", name) if part] or [name]


class Names:
    """The names of a grammar's tokens, and what many of them begin with."""

    def __init__(self, names):
        self.parts = {name: parts_of(name) for name in names}
        firsts = [parts[0] for parts in self.parts.values() if len(parts) > 1]
        enough = max(LEAST_NAMES, LEAST_SHARE * len(self.parts))
        self.prefixes = {first for first in firsts if first in PREFIXES or firsts.count(first) >= enough}
        letters = {name[0] for name in names}
        self.has_common_letter = len(letters) == 1 and len(self.parts) >= LEAST_NAMES
        types = {"".join(self.cores(name)[-1]) for name in names} & (TYPES | TYPES_ALONE)
        self.has_types = len(types) > 1 and not types.isdisjoint(TYPES_ALONE)
        self.no_mark = NO_MARK | {part for part in NO_CLASS if self.has_keywords_alone(part)}

    def has_keywords_alone(self, part):
        """Whether names that begin or end with this part are keywords: some tell no mark, and others only by a word."""
        names = [name for name, parts in self.parts.items() if len(parts) > 1 and part in (parts[0], parts[-1])]
        told = [{"".join(core) for core in self.cores(name) if mark_of(core)} for name in names]
        return not all(told) and all(words <= MARK_WORDS for words in told)

    def cores(self, name):
        """The name's parts, then those without a common prefix, then without suffixes too."""
        whole = parts = self.parts[name]
        if len(parts) > 1 and parts[0] in self.prefixes:
            parts = parts[1:]
        elif self.has_common_letter and len(parts[0]) > 1:
            parts = [parts[0][1:], *parts[1:]]
        bare = parts
        while len(bare) > 1 and bare[-1] in SUFFIXES:
            bare = bare[:-1]
        return whole, parts, bare


def mark_of(parts):
    """The mark that a name tells by its whole, by its parts or as an assignment; or None."""
    key = re.sub(r"\d$", "", "".join(parts))
    if key in BY_NAME:
        return BY_NAME[key]
    # In LESS_AND an and is one mark.
    marks = [{"&&": "&", "||": "|", "==": "="}.get(BY_NAME.get(part), BY_NAME.get(part)) for part in parts]
    is_whole = len(parts) > 1 and all(marks)
    if is_whole and all(len(mark) == 1 for mark in marks):
        return "".join(marks)
    assignment = next((BY_NAME[bare] + "=" for bare in bare_operators(key) if bare in BY_NAME), None)
    return assignment or (marks[0] if is_whole else None)


def bare_operators(key):
    for word in ASSIGNMENT:
        if key.endswith(word):
            yield key.removesuffix(word)
        if key.startswith(word):
            yield key.removeprefix(word)


def class_of(parts, has_types):
    """The class of texts that a name tells, or None."""
    key, last = "".join(parts), parts[-1]
    literal = LITERAL.fullmatch(key)
    if literal and literal[1] in BY_BASE:
        return BY_BASE[literal[1]]
    if len(parts) > 1 and LITERAL.fullmatch("x" + parts[0]) and last in BY_BASE:
        return BY_BASE[last]
    if key in BY_CLASS_NAME:
        return None if key in TYPES and has_types else BY_CLASS_NAME[key]
    if len(parts) > 1 and last not in TYPES and last in BY_CLASS_NAME:
        return BY_CLASS_NAME[last]
    ending = CLASS_ENDS.fullmatch(key)
    return BY_CLASS_NAME[ending[1]] if ending else None


def of_name(names, name):
    """What a token's name tells, the likeliest first."""
    whole, parts, bare = cores = names.cores(name)
    if any(map(END_OF_TEXT.fullmatch, ["".join(whole), "".join(parts), *whole])):
        return [Guess("unknown", None, "its name tells the end of the text, which no pattern matches")]
    around = {whole[0], whole[-1]} if len(whole) > 1 else set()
    marks = [] if around & names.no_mark else [mark for mark in map(mark_of, cores) if mark]
    found = [Guess("mark", quoted(text.encode()), "its name") for mark in marks for text in (mark, SECOND.get(mark)) if text]
    is_keyword = bool(around & NO_CLASS)
    kinds = [] if is_keyword else [kind for core in cores if (kind := class_of(core, names.has_types))]
    found += [Guess(kind, CLASSES[kind][0], "its name") for kind in kinds[:1]]
    return found if kinds and "".join(bare) not in WEAK else [*found, of_word(name, parts, bare, is_keyword)]


def of_word(name, parts, bare, is_keyword):
    """What a name tells that is neither a mark's nor a class's: a keyword, behind the mark that it begins with."""
    if not is_keyword and ("".join(bare) in UNTOLD or (len(parts) > 1 and parts[-1] in UNTOLD_ENDS)):
        return Guess("unknown", None, "its name tells no text")
    word = "_".join(bare)
    before, _, behind = name.lower().partition(word) if word in name.lower() else ("", word, "")
    first = BY_NAME.get(before.strip("_"), "")
    behind_what = f" behind {name[: len(before)]}" if before else ""
    before_what = f" before {name[-len(behind) :]}" if behind else ""
    return Guess("keyword", quoted((first + word).encode()), f"its name{behind_what}{before_what}")


def of_string(text, has_types):
    """What a string tells that stands for a token, or None where there is none: its text, or a description of its texts."""
    inner = text[1:-1] if len(text) > 2 and text[:1] + text[-1:] in (b"''", b'""', b"``") else text
    words = re.findall(r"[a-z0-9]+", inner.decode("latin-1").lower())
    is_description = "".join(words) in BY_CLASS_NAME or re.search(rb"\S\s+\S|<.*[a-z].*>|.\.\.\.|\.\.\..", inner)
    # Quotes within the string say that it is the text itself.
    if not is_description or inner != text:
        return Guess("alias", quoted(inner), "its string") if inner else None
    if END_OF_TEXT.fullmatch("".join(words)):
        return Guess("unknown", None, "its string tells the end of the text, which no pattern matches")
    kind = class_of(words, has_types) if words else None
    return Guess(kind, CLASSES[kind][0], "its string") if kind else Guess("unknown", None, "its string tells no text")


def of_comment(text, name):
    """What a comment beside a token tells that is a mark, or the token's name in quotes; else None."""
    found = re.fullmatch(rb"(['\"`]?)(\S+?)['\"`]?", text.strip())
    if not found:
        return None
    beside = found[2].decode("latin-1")
    # A line of one sign is an ornament.
    is_mark = beside in NAMES or (len(beside) < 4 and not beside.isalnum() and (len(beside) < 3 or len(set(beside)) > 1))
    is_word = found[1] and simple(beside) in simple(name)
    return Guess("comment", quoted(found[2]), "the comment beside it") if is_mark or is_word else None


def usual_place(kind, name):
    """How usual a name is for a class of texts, from 0; 0 for what is no class."""
    names = CLASSES[kind][1].split() if kind in CLASSES else []
    key = simple(name)
    return names.index(key) if key in names else len(names)
