"""The names that documents have of the code: contracts and their clauses, definitions, crates in their order."""

import glob
import html
import os
import re

from pages import CODE, TOP, codes, read, tables

SAMPLES = ("cs_samples", "cs_sample_files", "cs_cli")  # of which there are no claims
DEFINED = r"\b(?:fn|struct|enum|trait|const|type|pub|record|data)\s+"
NAME = re.compile(r"[A-Za-z_]\w*(?:::[A-Za-z_]\w*)*$")
BODY = re.compile(r"^\s*\{\}?$|^(?!.*\b(?:ensures|requires)\b).*[{;]$", re.M)
PIECE = re.compile(r"`(?P<code>[^`]+)`|\((?P<clauses>clauses? )?|(?P<closed>\))")


def texts(*patterns):
    """The texts of all files that match, one behind the other."""
    paths = sorted(path for pattern in patterns for path in glob.glob(os.path.join(TOP, pattern), recursive=True))
    return "\n".join(read(path) for path in paths if os.path.isfile(path))


def crate_text(crate):
    crate = crate.partition("::")[0]
    return texts(f"crates/{crate}/src/**/*.rt", f"crates/{crate}/specs/**/*.antt")


def all_words():
    """Each word of the code, of definitions, and of the scripts beside them."""
    code = ("crates/*/src/**/*.rt", "crates/*/specs/**/*.antt", "crates.txt")
    return set(re.findall(r"\w+", texts(*code, "tests/**/*.py", "tools/*", "bench/*.py", "conform")))


def unknown_names(page, words):
    """The names between backquotes that nothing in the repository has."""
    for code in codes(read(page)):
        known = os.path.exists(os.path.join(TOP, code)) or all(part in words for part in code.split("::"))
        if NAME.match(code) and not known:
            yield f"{page}: nothing is called {code}"


def is_defined(text, name):
    return all(re.search(rf"{DEFINED}{part}\b", text) for part in name.split("::"))


def contracts(text, function):
    """The texts between the name of each function that is called so and its body."""
    for begin in re.finditer(rf"\bfn {function.split('::')[-1]}\b", text):
        yield BODY.split(text[begin.end() :], 1)[0]


def has_clause(text, function, clause):
    return any(re.search(rf"\bensures {clause} ", contract) for contract in contracts(text, function))


def missing_in(crate, cell):
    """The contracts, clauses and definitions of a table's cell that the crate doesn't have."""
    text, function, clauses = crate_text(crate), None, False
    for piece in PIECE.finditer(cell):
        name = piece["code"]
        if name is None:
            clauses = piece["clauses"] is not None
        elif clauses:
            if not has_clause(text, function, name):
                yield f"no clause {name} of {function}"
        else:
            function = name
            if not is_defined(text, name):
                yield f"no {name}"


def claims(page):
    """The rows of claims: a crate, and the cell of its contracts."""
    crate = None
    for row in tables(read(page)):
        crate = row[0].strip("`") if row[0].startswith("`") else crate
        if crate and len(row) == 3 and not row[0].startswith("-"):
            yield crate, row[2]


def claim_failures(page):
    for crate, cell in claims(page):
        yield from (f"{page}: {crate} has {missing}" for missing in missing_in(crate, cell))


def index_failures(page):
    """The rows of an index whose last cell is a file, and the one before it what that defines, that aren't so."""
    for row in tables(read(page)):
        path = row[-1].strip("`")
        if path.startswith("crates/"):
            text = read(path) if os.path.exists(os.path.join(TOP, path)) else ""
            missing = [name for name in CODE.findall(row[-2]) if not is_defined(text, name)]
            yield from (f"{page}: {path} doesn't define {name}" for name in missing)


def rule_failures(page):
    """The rows of rules whose function nothing defines, or doesn't have the clauses named behind "its clause"."""
    crates = [crate_text(crate) for crate in needs()]
    for row in tables(read(page)):
        if len(row) == 5 and row[-1].startswith("`crates/"):
            function, *_ = CODE.findall(row[1])
            clauses = CODE.findall(row[2].split("; ")[0]) if row[2].startswith("its clause") else []
            having = [text for text in crates if is_defined(text, function)]
            missing = [clause for clause in clauses if not any(has_clause(text, function, clause) for text in having)]
            yield from (f"{page}: no clause {clause} of {function}" for clause in missing)
            if not having:
                yield f"{page}: no {function}"


def indexed(page):
    """The names that the rows of an index have."""
    rows = [row for row in tables(read(page)) if row[-1].startswith("`crates/")]
    return {name for row in rows for name in CODE.findall(row[-2])}


def unsorted(page):
    """The notions of an index that stand behind one that comes later in the alphabet."""
    notions = [row[0].replace(",", "").lower() for row in tables(read(page)) if row[-1].startswith("`crates/")]
    pairs = [pair for pair in zip(notions, notions[1:]) if pair[0] > pair[1]]
    yield from (f"{page}: {later} stands behind {notion}" for notion, later in pairs)


def unindexed(page):
    """The definitions that a page names, by their capital letter, and its index doesn't have."""
    defined = set(re.findall(r"\bpub (?:data |record )?([A-Z]\w*)", texts("crates/*/specs/**/*.antt")))
    named = defined & set(codes(read(page)))
    yield from (f"{page}: {name} isn't in the index" for name in sorted(named - indexed(page)))


def citing(module):
    """The crates, but for those of tests, whose code, definitions or proofs cite a module of definitions."""
    folders = glob.glob(os.path.join(TOP, "crates", "cs_*"))
    return {os.path.basename(folder) for folder in folders if f"Rattle.{module}." in cited_text(folder)}


def cited_text(folder):
    """The code, definitions and proofs of a crate's folder."""
    return texts(*(os.path.join(folder, part, "**", "*.*t*") for part in ("src", "specs", "proofs")))


def citing_failures(page):
    """The rows of modules of definitions, with the crates that cite them, that aren't so."""
    for row in tables(read(page)):
        for module in re.findall(r"`(\w+\.specs\.\w+(?:\.\w+)?)`", row[0]):
            listed, found = {code.partition("::")[0] for code in CODE.findall(row[1])}, citing(module)
            yield from (f"{page}: {crate} cites {module}, or is said to" for crate in sorted(listed ^ found))


def found_failures(page):
    """The rows of languages whose counts of parsers and of departures, or whose texts, their results don't have."""
    results = map(read, glob.glob(os.path.join(TOP, "gallery", "*", "RESULTS.md")))
    found = {text.split("\n", 1)[0].removeprefix("# "): text for text in results}
    for language, *cells in (row for row in tables(read(page)) if row[0] in found):
        text, wanted = found[language], CODE.findall(cells[-1])
        if cells[:-1] != [str(text.count(mark)) for mark in ("\n## ", "\n| departure |")]:
            yield f"{page}: the counts of {language} are others"
        yield from (f"{page}: {language} has no {code}" for code in wanted if html.escape(code, False) not in text)


def needs():
    """Of each crate those that it stands on."""
    lines = [line for line in read("crates.txt").splitlines() if not line.startswith("#")]
    return {crate: after.split() for crate, after in (line.split(":", 1) for line in lines)}


def crates_of(page):
    """The crates in the first cells of a page's tables, in order."""
    heads = [code.partition("::")[0] for row in tables(read(page)) for code in CODE.findall(row[0])]
    return [crate for crate in reversed(dict.fromkeys(reversed(heads))) if crate in needs()]


def order_failures(page, left_out):
    """Whether a page has each crate once, but for some, behind those that it stands on."""
    below, listed = needs(), crates_of(page)
    wanted = [crate for crate in below if not crate.startswith(left_out)]
    counts = {crate: listed.count(crate) for crate in wanted}
    yield from (f"{page}: {crate} stands there {count} times" for crate, count in counts.items() if count != 1)
    for place, crate in enumerate(listed):
        yield from (f"{page}: {need} stands behind {crate}" for need in below[crate] if need in listed[place:])
