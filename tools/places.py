"""Places in files, for people: lines and columns from 1, columns in characters."""

# How many bytes of a line are shown before a place, and behind it.
WIDTH = 100


def place(text, at):
    start = text.rfind(b"\n", 0, at) + 1
    return text.count(b"\n", 0, at) + 1, len(text[start:at].decode(errors="replace")) + 1


def printed(piece):
    """Bytes of a file as a terminal may have them."""
    return "".join(letter if letter.isprintable() or letter == "\t" else "?" for letter in piece.decode(errors="replace"))


def shown(text, at):
    """The line of an offset, or a part of a long one, with a mark under the place."""
    start = text.rfind(b"\n", 0, at) + 1
    end = text.find(b"\n", at)
    line_end = len(text) if end < 0 else end
    before = ("..." if at - start > WIDTH else "") + printed(text[max(start, at - WIDTH) : at])
    behind = printed(text[at : min(line_end, at + WIDTH)].rstrip(b"\r")) + ("..." if line_end - at > WIDTH else "")
    return before + behind + "\n" + "".join("\t" if letter == "\t" else " " for letter in before) + "^"
