"""The parts of the documents' pages, for the tests that read them: blocks, prose, sentences, tables, code and links."""

import os
import re

TOP = os.path.dirname(os.path.dirname(os.path.abspath(__file__)))
FENCE = re.compile(r"^```(.*)\n((?:.*\n)*?)```$", re.M)
ITEM = re.compile(r"^\s*(?:- |\d+\. )", re.M)
CODE = re.compile(r"`([^`\n]+)`")
LINK = re.compile(r"\[([^][]+)\]\(([^()\s]+)\)")


def read(path):
    """The text of a file of the repository."""
    with open(os.path.join(TOP, path), encoding="utf-8") as file:
        return file.read()


def marked_blocks(text):
    """The words behind opening fences, with the texts between fences, in order."""
    return FENCE.findall(text)


def blocks(text):
    return [block for _, block in marked_blocks(text)]


def proses(text):
    """The texts before, between and behind blocks."""
    return FENCE.split(text)[::3]


def without_blocks(text):
    return "\n".join(proses(text))


def tables(text):
    """The rows of tables as lists of cells; their heads and rules too."""
    for line in without_blocks(text).split("\n"):
        if line.startswith("|"):
            yield [cell.strip() for cell in re.split(r"(?<!\\)\|", line)[1:-1]]


def paragraphs(text):
    """Paragraphs and items of lists, each as one line, without headings and tables."""
    lines = [line for line in without_blocks(text).split("\n") if not line.startswith(("|", "#"))]
    for paragraph in re.split(r"\n\s*\n", "\n".join(lines)):
        yield from (" ".join(item.split()) for item in ITEM.split(paragraph) if item.strip())


def sentences(text):
    """Sentences, which end with a paragraph, an item or a full stop; in a cell of a table with a semicolon too."""
    for paragraph in paragraphs(text):
        yield from re.split(r"(?<=[.!?])[\"')*]*\s+", paragraph)
    for row in tables(text):
        yield from (part for cell in row for part in re.split(r"(?<=[.!?;])\s+", cell))


def words(sentence):
    """How many words a sentence has; a piece of code is one, and a link has those of its text."""
    return len(CODE.sub("code", LINK.sub(r"\1", sentence)).split())


def codes(text):
    """What stands between backquotes outside of blocks."""
    return CODE.findall(without_blocks(text))


def links(text):
    """The places to which links lead, without those of the web."""
    places = [place.split("#")[0] for _, place in LINK.findall(without_blocks(text))]
    return [place for place in places if place and "://" not in place]
