"""What the program writes, read as trials: manifests, and the outputs of its other commands that have lists of tokens
with texts."""

import re
from dataclasses import dataclass, field
from itertools import chain

import manifest
from trials import Trial

PAIR = r"pair (\S+) (\S+) at (\d+)"
SLIP = r"(empty|rule \d+ (?:drop|double|swap) \d+)"
SPELLED = r"(token \S+|skip) goal \d+ size \d+(?: at \d+)?"
# By the first line's word: the line before an entry's indented ones, its kind, and the line at the end.
ENTRIES = {
    "wrong": (rf"(wrong \d+) {SLIP} (?:{PAIR}|outside)", "wrong", r"end slips .* wrong (\d+)"),
    "deep": (rf"(deep \d+) base \d+ {manifest.EDIT}", "deep", r"end bases .* deep (\d+) .*"),
    "spell": (rf"(spelling \d+) {SPELLED}", "spelling", r"end rules \d+ spelled (\d+) .*"),
    "chains": (r"(goal \d+) (chain \d+ \d+ \d+ \d+ \d+) size \d+", "chain", r"end goals \d+ feasible (\d+) .*"),
}
# Lines that stand alone: they have no list.
ALONE = {
    "wrong": r"(?!)",
    "deep": r"base \d+ goal \d+",
    "spell": r"spelling \d+ (?:shadowed|foreign|literal|infeasible|large)",
    "chains": r"(?:token|rule|lexeme|goal) .*",
}


@dataclass
class Output:
    """An output of the program: its form, its trials, those that have no text, and its grammar where it has one."""

    path: str
    form: str
    trials: list = field(default_factory=list)
    without_text: list = field(default_factory=list)
    tokens: list = field(default_factory=list)
    rules: list = field(default_factory=list)
    lexemes: dict = field(default_factory=dict)

    def add(self, trial):
        (self.without_text if trial.text is None else self.trials).append(trial)


def read(path):
    """The output in a file. Damaged where it is none, or isn't whole."""
    with open(path, encoding="latin-1", newline="") as file:
        text = file.read()
    form = text.partition("\n")[0].removeprefix("conform ")
    return read_entries(path, form, text) if form in ENTRIES else of_manifest(path, manifest.of_text(text))


def of_manifest(path, read):
    output = Output(path, read.form, tokens=read.tokens, rules=read.rules, lexemes=read.lexemes)
    is_forbidden = forbidding(read)
    positives = (of_goal(goal) for goal in read.goals if goal.case)
    for trial in chain(positives, (of_negative(negative, is_forbidden) for negative in read.negatives)):
        output.add(trial)
    return output


def of_goal(goal):
    name, sentence = f"goal {goal.number} {' '.join(goal.words)}", goal.case.sentence
    return Trial(name, goal.kind, sentence.tokens, sentence.text, sentence.why, derivation=goal.case.derivation)


def of_negative(negative, is_forbidden):
    edit, sentence = " ".join(negative.edit), negative.sentence
    name = f"negative {negative.number} base {negative.base} {edit} pair {' '.join(negative.pair)} at {negative.at}"
    more = {"pair": negative.pair, "at": negative.at, "edit": negative.edit, "is_forbidden": is_forbidden}
    return Trial(name, negative.kind, sentence.tokens, sentence.text, sentence.why, **more)


def forbidding(read):
    """A function that tells whether a pair stands side by side in no sentence, as far as the manifest knows."""
    if read.behind:
        return lambda pair: pair[1] not in read.behind.get(pair[0], ())
    named = {negative.pair for negative in read.negatives}
    named.update(tuple(goal.words[1:]) for goal in read.goals if goal.kind == "pair" and goal.verdict == "infeasible")
    return named.__contains__


def read_entries(path, form, text):
    lines = manifest.Lines(text)
    lines.need(f"conform {form}")
    if not lines.whole:
        raise manifest.CutShort("the output has no last line: the run that wrote it ended early")
    output = Output(path, form)
    pattern, kind, last = ENTRIES[form]
    while True:
        if found := lines.next(pattern):
            output.add(entry(lines, kind, found))
        elif found := lines.next(last):
            return checked(output, int(found[1]), lines)
        else:
            note_alone(output, lines.need(ALONE[form])[0])


def checked(output, count, lines):
    if count != len(output.trials) + len(output.without_text):
        raise manifest.Damaged("the last line doesn't count what stands before it")
    return output if lines.at == len(lines.lines) else lines.refuse()


def note_alone(output, line):
    words = line.split()
    if words[0] == "lexeme":
        text = line.partition(" ")[2].partition(" ")[2]
        output.lexemes[words[1]] = None if text == "none" else manifest.unquoted(text[1:-1])
    elif words[0] == "token":
        output.tokens.append(words[2])
    elif words[0] == "rule":
        output.rules.append((words[2], words[4:]))


def entry(lines, kind, found):
    """The trial of an entry: its line was found, and its indented ones come."""
    derive = lines.next(r"  derive((?: \d+)*)")
    tokens = lines.need(r"  tokens((?: \S+)*)")[1].split()
    text = lines.next(r'  (?:text "(.*)"|no text (.*))')
    has_pair = kind == "wrong" and found[3] is not None
    name = re.sub(r" size \d+.*", "", found[0])
    return Trial(
        name,
        kind,
        tokens,
        manifest.unquoted(text[1]) if text and text[1] is not None else None,
        text and text[2],
        derivation=[int(number) for number in derive[1].split()] if derive else [],
        pair=found.group(3, 4) if has_pair else None,
        at=int(found[5]) if has_pair else None,
        edit=found[2].split(),
    )


def separator_of(output):
    """What stands between two lexemes of a manifest's texts, or None where no text tells."""
    for trial in output.trials:
        lexemes = [output.lexemes[token] for token in trial.tokens]
        if len(lexemes) > 1:
            length = (len(trial.text) - sum(map(len, lexemes))) // (len(lexemes) - 1)
            return trial.text[len(lexemes[0]) :][:length]
    return None


def lend_texts(outputs):
    """Gives chains that are written without texts the joined lexemes of an output beside them."""
    lender = next((output for output in outputs if output.lexemes), None)
    separator = separator_of(lender) if lender else None
    for output in outputs if separator is not None else ():
        if output.form == "chains" and not output.lexemes:
            lend(output, lender.lexemes, separator)


def lend(output, lexemes, separator):
    bare, output.without_text = output.without_text, []
    for trial in bare:
        found = [lexemes.get(token) for token in trial.tokens]
        trial.text = None if None in found else separator.join(found)
        output.add(trial)
