"""Patterns over characters, and how a lex file in the profile of docs/FORMATS.md spells them in bytes of UTF-8."""

from dataclasses import dataclass

from flex_patterns import run_text

MOST = 0x10FFFF
# The characters that no UTF-8 holds.
SURROGATES = (0xD800, 0xDFFF)
# Where the UTF-8 of characters changes its length.
LENGTHS = ((0x80, 0x7FF), (0x800, 0xFFFF), (0x10000, MOST))
LETTERS = {9: b"\\t", 10: b"\\n", 13: b"\\r", 34: b'\\"', 92: b"\\\\"}
# How closely the parts of a pattern are bound: alternatives, what stands in a row, one atom.
LOOSE, ROW, ATOM = range(3)


@dataclass(frozen=True)
class Chars:
    """One character of these ranges, which ascend and leave gaps."""

    ranges: tuple


@dataclass(frozen=True)
class Row:
    """Parts one behind the other."""

    parts: tuple


@dataclass(frozen=True)
class Either:
    parts: tuple


@dataclass(frozen=True)
class Often:
    """A part with `?`, `*` or `+`."""

    part: object
    sign: str


@dataclass(frozen=True)
class Named:
    """What a definition stands for."""

    name: str


EMPTY, NOTHING = Row(()), Chars(())


def joined(ranges):
    """The ranges in order, those that meet as one, without surrogates."""
    found = []
    for first, last in sorted(ranges):
        if found and first <= found[-1][1] + 1:
            found[-1] = (found[-1][0], max(found[-1][1], last))
        else:
            found.append((first, last))
    low, high = SURROGATES
    below = ((first, min(last, low - 1)) for first, last in found if first < low)
    above = ((max(first, high + 1), last) for first, last in found if last > high)
    return (*below, *above)


def chars(*ranges):
    return Chars(joined(ranges))


def others(some):
    """The characters that aren't these."""
    edges = [0, *(edge for first, last in some.ranges for edge in (first - 1, last + 1)), MOST]
    return chars(*((first, last) for first, last in zip(edges[::2], edges[1::2]) if first <= last))


ALL = chars((0, MOST))
BEYOND = chars((0x80, MOST))


def text(characters):
    return row(*(chars((ord(each), ord(each))) for each in characters))


def row(*parts):
    """Parts in a row, those of rows among them; `x x*` becomes `x+`."""
    if NOTHING in parts:
        return NOTHING
    found = []
    for part in parts:
        for each in part.parts if isinstance(part, Row) else (part,):
            put_behind(found, each)
    return found[0] if len(found) == 1 else Row(tuple(found))


def put_behind(found, part):
    if isinstance(part, Often) and part.sign == "*":
        inner = list(part.part.parts) if isinstance(part.part, Row) else [part.part]
        if found[-len(inner) :] == inner:
            found[-len(inner) :] = [Often(part.part, "+")]
            return
    found.append(part)


def either(*parts):
    """One of the parts, each once. Characters become one set, and an empty part makes the others `?`."""
    found, ranges, place = [], [], None
    for part in (part for part in parts if part != NOTHING):
        for each in part.parts if isinstance(part, Either) else (part,):
            if isinstance(each, Chars):
                place = len(found) if place is None else place
                ranges += each.ranges
            elif each not in found:
                found.append(each)
    if place is not None:
        found.insert(place, chars(*ranges))
    rest = [each for each in found if each != EMPTY]
    if not found:
        return NOTHING
    if len(rest) < len(found):
        return often(either(*rest), "?") if rest else EMPTY
    return found[0] if len(found) == 1 else Either(tuple(found))


def often(part, sign):
    if part in (EMPTY, NOTHING):
        return part if sign == "+" else EMPTY
    if isinstance(part, Often):
        signs = {part.sign, sign}
        return Often(part.part, sign if len(signs) == 1 else "*")
    return Often(part, sign)


# Bytes


def sequences(first, last):
    """The ranges of bytes, one behind the other, that spell the characters of a range beyond ASCII."""
    found = []
    for low, high in LENGTHS:
        if first <= high and last >= low:
            found += byte_ranges(chr(max(first, low)).encode(), chr(min(last, high)).encode())
    return found


def byte_ranges(first, last):
    """The same, from one spelling to another of the same length."""
    if len(first) == 1 or first[1:] == b"\x80" * (len(first) - 1) and last[1:] == b"\xbf" * (len(last) - 1):
        return [[(first[0], last[0]), *[(0x80, 0xBF)] * (len(first) - 1)]]
    if first[0] == last[0]:
        return [[(first[0], first[0]), *behind] for behind in byte_ranges(first[1:], last[1:])]
    found, low, high = [], first[0], last[0]
    if first[1:] != b"\x80" * (len(first) - 1):
        found += [[(low, low), *behind] for behind in byte_ranges(first[1:], b"\xbf" * (len(first) - 1))]
        low += 1
    tail = []
    if last[1:] != b"\xbf" * (len(last) - 1):
        tail = [[(high, high), *behind] for behind in byte_ranges(b"\x80" * (len(last) - 1), last[1:])]
        high -= 1
    middle = [[(low, high), *[(0x80, 0xBF)] * (len(first) - 1)]] if low <= high else []
    return found + middle + tail


def bracket(ranges):
    """A bracket of ASCII's characters, by those that are in it or, where that is shorter, by those that aren't."""
    plain = b"[" + b"".join(run_text(*each) for each in ranges) + b"]"
    rest = [each for each in others(Chars(tuple(ranges))).ranges if each[0] < 0x80]
    negated = b"[^" + b"".join(run_text(first, min(last, 0x7F)) for first, last in rest) + b"\\x80-\\xff]"
    return negated if ranges[-1][1] == 0x7F and len(negated) < len(plain) else plain


def sequence_text(sequence):
    return b"".join(b"\\x%02x" % low if low == high else b"[\\x%02x-\\x%02x]" % (low, high) for low, high in sequence)


def branches_of(some, beyond):
    """The ways to spell one of these characters; a name stands for all that are beyond ASCII."""
    plain = [(first, min(last, 0x7F)) for first, last in some.ranges if first < 0x80]
    found = [bracket(plain)] if plain else []
    if all(covers(some, each) for each in BEYOND.ranges):
        return [*found, b"{%s}" % beyond.encode()]
    for first, last in some.ranges:
        if last >= 0x80:
            found += [sequence_text(each) for each in sequences(max(first, 0x80), last)]
    return found


def covers(some, wanted):
    return any(first <= wanted[0] and wanted[1] <= last for first, last in some.ranges)


class Spelling:
    """Spells patterns; the names of definitions are given, and that of the one for characters beyond ASCII."""

    def __init__(self, beyond):
        self.beyond, self.uses_beyond = beyond, False

    def definition(self):
        """What the name for characters beyond ASCII stands for."""
        return b"|".join(sequence_text(each) for first, last in BEYOND.ranges for each in sequences(first, last))

    def text(self, pattern, bound=LOOSE):
        """The pattern's text, in parentheses where it must bind more closely."""
        if isinstance(pattern, Named):
            return b"{%s}" % pattern.name.encode()
        if isinstance(pattern, Chars):
            return self.chars_text(pattern, bound)
        if isinstance(pattern, Often):
            return self.text(pattern.part, ATOM) + pattern.sign.encode()
        if isinstance(pattern, Either):
            bounds = (LOOSE if isinstance(part, Chars) else ROW for part in pattern.parts)
            found, own = b"|".join(map(self.text, pattern.parts, bounds)), LOOSE
        else:
            found, own = self.row_text(pattern.parts), ROW
            own = ATOM if len(pattern.parts) == 0 else own
        return b"(%s)" % found if own < bound else found

    def chars_text(self, some, bound):
        if is_one(some):
            return quoted(chr(some.ranges[0][0]))
        found, name = branches_of(some, self.beyond), b"{%s}" % self.beyond.encode()
        self.uses_beyond |= name in found
        own = LOOSE if len(found) > 1 else ATOM if name in found or some.ranges[-1][1] < 0x80 else ROW
        spelled = b"|".join(found)
        return b"(%s)" % spelled if own < bound else spelled

    def row_text(self, parts):
        """Parts in a row; characters that stand alone in it become one quoted text."""
        found, run = [], ""
        for part in parts:
            if is_one(part):
                run += chr(part.ranges[0][0])
                continue
            found += [quoted(run)] if run else []
            run = ""
            found.append(self.text(part, ROW if not isinstance(part, Often) else ATOM))
        return b"".join(found + ([quoted(run)] if run or not parts else []))


def is_one(part):
    return isinstance(part, Chars) and len(part.ranges) == 1 and part.ranges[0][0] == part.ranges[0][1]


def quoted(characters):
    return b'"' + b"".join(quoted_byte(byte) for byte in characters.encode()) + b'"'


def quoted_byte(byte):
    return LETTERS.get(byte) or (b"%c" % byte if 0x20 <= byte < 0x7F else b"\\x%02x" % byte)
