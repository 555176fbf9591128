"""What is told of trials: the table, each failed case, the Test Anything Protocol, and JUnit's report."""

from collections import Counter
from xml.sax.saxutils import escape, quoteattr

from trials import KINDS, by_text

COLUMNS = ("taken", "refused", "other", "skipped", "known", "failed")
# Columns that most runs don't need.
RARE = ("skipped", "known")
NOUNS = {"wrong": "wrong list", "deep": "deep edit", "spelling": "spelling", "chain": "chain"}


def printed(text):
    """Bytes as a terminal may have them."""
    return "".join(chr(byte) if 0x20 <= byte < 0x7F else f"\\x{byte:02x}" for byte in text)


def story(trial):
    told = f"wanted: {trial.wanted}; the parser: {trial.outcome.told}"
    return f"{told}\ntext: \"{printed(trial.text)}\"\ntokens: {' '.join(trial.tokens)}"


def indented(text, by="  "):
    return by + text.replace("\n", "\n" + by)


def case_lines(trials):
    for trial in trials:
        if trial.failed:
            yield f"{trial.name}\n{indented(story(trial))}"


def columns_of(trials):
    """For each kind that was run how many cases each column counts."""
    counts = {}
    for trial in trials:
        if trial.outcome:
            row = counts.setdefault(trial.kind, Counter())
            row[trial.outcome.kind] += 1
            row["known"] += trial.departs and not trial.failed
            row["failed"] += trial.failed
    return counts


def table_lines(trials):
    counts = columns_of(trials)
    shown = [column for column in COLUMNS if column not in RARE or any(row[column] for row in counts.values())]
    yield f"{'kind':9}" + "".join(f"{column:>9}" for column in shown)
    for kind in KINDS:
        if kind in counts:
            yield f"{kind:9}" + "".join(f"{counts[kind][column]:9}" for column in shown)


def cause_lines(causes, told):
    """Each cause with its shortest text; `told` says it in words."""
    for number, cause in enumerate(causes, 1):
        trial = cause.shortest
        kinds = ", ".join(f"{kind} {count}" for kind, count in cause.kinds)
        yield f"cause {number}: {told(cause)}"
        yield f"  {amount(len(cause.trials), 'case')}: {kinds}; the shortest is {trial.name}"
        yield f"  text: \"{printed(trial.text)}\"\n  tokens: {' '.join(trial.tokens)}".rstrip()
        if cause.wrote:
            yield f"  the parser: {cause.wrote}"


def known_lines(trials):
    """How many cases stand under each reason of a file of known departures."""
    for reason, count in Counter(trial.known for trial in trials if trial.known is not None).items():
        yield f"known: {amount(count, 'case')}: {reason}"


def amount(number, word):
    return f"{number} {word}" + ("" if number == 1 else "s")


def forms_of(trials):
    """How many goals, negatives and the like there are."""
    forms = Counter(NOUNS.get(trial.kind, "goal" if trial.positive else "negative") for trial in trials)
    return ", ".join(amount(count, noun) for noun, count in forms.items())


def textless(trials):
    """How many cases have no text, and of most of them why."""
    reasons = Counter(trial.why for trial in trials if trial.why).most_common(1)
    return f"{len(trials)} without a text" + (f", most for `no text {reasons[0][0]}`" if reasons else "")


def end_line(trials, every, without_text, causes):
    """What was tried of all that there is, and how it went."""
    texts, ran = by_text(every), by_text(trial for trial in trials if trial.outcome)
    failed, known = sum(trial.failed for trial in trials), sum(trial.known is not None for trial in trials)
    tried = "all" if len(ran) == len(texts) else f"{len(ran)} of"
    told = f"{failed} failed" + (f" of {amount(causes, 'cause')}" if causes else "")
    told += f", {known} known" if known else ""
    return f"{forms_of(every)}; {tried} {amount(len(texts), 'different text')} run; {told}; {textless(without_text)}"


def tap_note(trial):
    if trial.outcome is None:
        return " # SKIP not run"
    if trial.outcome.kind == "skipped":
        return " # SKIP by the parser"
    return "" if trial.known is None else f" # TODO {trial.known}"


def tap_lines(trials):
    yield f"TAP version 13\n1..{len(trials)}"
    for number, trial in enumerate(trials, 1):
        passed = trial.outcome is not None and not trial.departs
        name = trial.name.replace("#", "\\#")
        yield f"{'ok' if passed else 'not ok'} {number} - {name}{tap_note(trial)}"
        if trial.failed:
            yield indented(story(trial), "  # ")


def junit_result(trial):
    if trial.outcome is None or trial.outcome.kind == "skipped":
        return "<skipped/>"
    if trial.known is not None:
        return f"<skipped message={quoteattr('known: ' + trial.known)}/>"
    return f"<failure>{escape(story(trial))}</failure>" if trial.failed else ""


def write_junit(trials, path):
    results = [(trial, junit_result(trial)) for trial in trials]
    failed, skipped = (sum(result.startswith(word) for _, result in results) for word in ("<failure", "<skipped"))
    with open(path, "w", encoding="utf-8") as file:
        print('<?xml version="1.0" encoding="UTF-8"?>', file=file)
        print(f'<testsuite name="conform" tests="{len(trials)}" failures="{failed}" skipped="{skipped}">', file=file)
        for trial, result in results:
            names = f"classname={quoteattr(trial.kind)} name={quoteattr(trial.name)}"
            print(f"<testcase {names}>{result}</testcase>", file=file)
        print("</testsuite>", file=file)
