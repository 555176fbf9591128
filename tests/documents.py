#!/usr/bin/env python3
"""Tests the documents against the repository: documents.py. It needs no program.

README.md is a first page of at most 8,000 bytes, and names the kit. A sentence has at most 30 words: headings and
blocks don't count, an item of a list ends a sentence, in a table's cell a semicolon does too, and code between
backquotes is one word. Each link leads to a file; each path, crate, contract, clause and definition that is named is
there; crates stand in tables behind those that they stand on; what README.md has of the gallery's languages their
results have too; and each of twenty questions has its answer in at most two files. It prints what isn't so, and ends
with status 1 where something isn't.
"""

import os
import re
import shutil
import subprocess
import sys

sys.dont_write_bytecode = True

import document_names as names
from document_questions import QUESTIONS
from pages import TOP, blocks, codes, links, proses, read, sentences, words

MOST_BYTES = 8000
MOST_WORDS = 30
NAMING = ["CONTRIBUTING.md", "docs/CLAIMS.md", "docs/DECISIONS.md", "docs/DEFINITIONS.md", "docs/DESIGN.md"]
PAGES = [*NAMING, "README.md", "bench/README.md", "docs/FORMATS.md", "docs/GUIDE.md"]
INDICES = ["docs/DEFINITIONS.md", "docs/DESIGN.md", "docs/FORMATS.md"]
PATH = re.compile(r"\w[\w.-]*(?:/[\w.-]+)+/?$|[\w-]+\.(?:md|py|rt|antt|txt|html|y|l|suite)$")
# what is made, or put in
NO_PATH = re.compile(r"(?:.*/)?(?:NAME|MODULE|FUNCTION|FILE|out|release)\b|(?:.*/)?lists\.tab\.")


def paths():
    """The files and folders of the repository, from its top, without what is built."""
    for folder, folders, files in os.walk(TOP):
        folders[:] = [name for name in folders if name not in ("out", ".git", "__pycache__")]
        yield from ("/" + os.path.relpath(os.path.join(folder, name), TOP) for name in [*folders, *files])


def size_failures():
    size = len(read("README.md").encode())
    if size > MOST_BYTES:
        yield f"README.md: {size} bytes, above {MOST_BYTES}"


def kit_failures():
    """Whether README.md names the kit that rt is of, where that is there."""
    if shutil.which("rt"):
        kit = subprocess.run(["rt", "version"], capture_output=True, text=True).stdout.strip()
        if f"`{kit}`" not in read("README.md"):
            yield f"README.md doesn't name the kit {kit}"


def long_sentences(page):
    for sentence in sentences(read(page)):
        if words(sentence) > MOST_WORDS:
            yield f"{page}: {words(sentence)} words: {sentence}"


def lost_links(page):
    folder = os.path.dirname(os.path.join(TOP, page))
    lost = [link for link in links(read(page)) if not os.path.exists(os.path.join(folder, link))]
    yield from (f"{page}: the link {link} leads nowhere" for link in lost)


def lost_paths(page, known):
    """The paths between backquotes that no file or folder has, nor has at its end."""
    for code in codes(read(page)):
        path = "/" + code.rstrip("/")
        if PATH.match(code) and not NO_PATH.match(code) and not any(other.endswith(path) for other in known):
            yield f"{page}: no {code}"


def changed_files(page):
    """The files that a page shows in the block behind `PATH` is, and that are otherwise."""
    text = read(page)
    for prose, block in zip(proses(text), blocks(text)):
        shown = re.search(r"`([^`]+)` is\s*$", prose)
        if shown and read(shown[1]) != block:
            yield f"{page}: {shown[1]} is otherwise"


def open_questions():
    """The questions to which the words of an answer are missing."""
    for question, answers in QUESTIONS:
        for page, wanted in answers.items():
            text = " ".join(read(page).split())
            yield from (f"{question} {page} doesn't say: {part}" for part in wanted if part not in text)


def page_failures(page, known):
    yield from (*long_sentences(page), *lost_links(page), *lost_paths(page, known), *changed_files(page))


def name_failures():
    words_of_code = names.all_words()
    for page in NAMING:
        yield from names.unknown_names(page, words_of_code)
    for page in INDICES:
        yield from names.index_failures(page)
    yield from names.claim_failures("docs/CLAIMS.md")
    yield from names.rule_failures("docs/DESIGN.md")
    yield from (*names.unindexed("docs/DEFINITIONS.md"), *names.unsorted("docs/DEFINITIONS.md"))
    yield from names.citing_failures("CONTRIBUTING.md")
    yield from names.order_failures("docs/CLAIMS.md", ("test_", *names.SAMPLES))
    yield from names.order_failures("docs/DESIGN.md", ())
    yield from names.found_failures("README.md")


def failures():
    known = [*paths()]
    yield from (*size_failures(), *kit_failures())
    for page in PAGES:
        yield from page_failures(page, known)
    yield from (*name_failures(), *open_questions())


def main():
    failed = [*failures()]
    print("\n".join(failed), file=sys.stderr, end="\n" if failed else "")
    sys.exit(1 if failed else 0)


main()
