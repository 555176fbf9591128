"""Files of results: what a parser did with each case, and the causes, as JSON with one case on a line.

Texts stand as characters, one for each byte. The outputs stand with their checksums, by which a reader knows them
again.
"""

import hashlib
import json

FORM = "conform results 1"


class Strange(Exception):
    """A file that isn't one of results, or has those of something else."""


def checksum(path):
    with open(path, "rb") as file:
        return hashlib.sha256(file.read()).hexdigest()


def case_row(trial, causes):
    row = {"output": trial.output, "name": trial.name, "kind": trial.kind, "wanted": trial.wanted}
    row["outcome"] = trial.outcome.kind if trial.outcome else None
    row["told"] = trial.outcome.told if trial.outcome else "not run"
    return {**row, "known": trial.known, "cause": causes.get(trial)}


def cause_row(cause, told):
    shortest = cause.shortest
    row = {"told": told, "wrote": cause.wrote, "cases": len(cause.trials), "kinds": dict(cause.kinds)}
    row.update(name=shortest.name, output=shortest.output, text=shortest.text.decode("latin-1"), tokens=shortest.tokens)
    return row


def write(path, outputs, trials, causes, told, command):
    """Writes the results; `told` says a cause in words. Causes count from 1."""
    numbers = {trial: number for number, cause in enumerate(causes, 1) for trial in cause.trials}
    rows = {
        "outputs": [{"path": output.path, "form": output.form, "sha256": checksum(output.path)} for output in outputs],
        "causes": [cause_row(cause, told(cause)) for cause in causes],
        "cases": [case_row(trial, numbers) for trial in trials],
    }
    parts = [f'"form": {json.dumps(FORM)}', f'"command": {json.dumps(command)}']
    for name, found in rows.items():
        parts.append(f'"{name}": [\n' + ",\n".join(map(json.dumps, found)) + "\n]")
    with open(path, "w", encoding="utf-8") as file:
        file.write("{" + ",\n".join(parts) + "}\n")


def read(path):
    with open(path, encoding="utf-8") as file:
        try:
            found = json.load(file)
        except ValueError:
            found = None
    if not isinstance(found, dict) or found.get("form") != FORM:
        raise Strange("it isn't a file that try_parser --results writes")
    return found


def of_output(found, path):
    """The place among the results' outputs of the one in a file."""
    known = [output["sha256"] for output in found["outputs"]]
    if checksum(path) not in known:
        raise Strange(f"its results aren't those of {path}: try_parser was given another output")
    return known.index(checksum(path))
