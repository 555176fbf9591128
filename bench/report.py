#!/usr/bin/env python3
"""Writes figures and the machine that they are of into README.md: bench/report.py [--program PROGRAM] [SCRIPT..].

Without names it runs the scripts that need the built program alone. The figures of a script take the place of its
older ones; those of the scripts that aren't run stay. Nothing here is part of the gate.
"""

import argparse
import datetime
import os
import re
import subprocess
import sys

HERE = os.path.dirname(os.path.abspath(__file__))
PAGE = os.path.join(HERE, "README.md")
SCRIPTS = ["limits.py", "hostile.py", "suite.py", "summaries.py"]
ROW = re.compile(r"(?P<name>.+): (?P<figure>\S+) (?P<unit>\w+), at most (?P<most>\S+) \w+(?P<passed>  PASSED)?$")
HEAD = "## Figures\n"


def first_match(path, pattern):
    with open(path) as file:
        found = re.search(pattern, file.read())
    return found[1] if found else "unknown"


def machine():
    """The processor, memory and load of this machine, and the day."""
    gigabytes = int(first_match("/proc/meminfo", r"MemTotal:\s+(\d+)")) / 2**20
    name = first_match("/proc/cpuinfo", r"model name\s*: (.+)")
    day = datetime.date.today().isoformat()
    return f"{name}, {os.cpu_count()} processors, {gigabytes:.0f} GB, load {os.getloadavg()[0]:.1f}, {day}"


def rows(output):
    """The rows of a table: what is measured, the figure, its bound. An indented line is of the last that isn't."""
    about = ""
    for line in output.splitlines():
        row, name = ROW.match(line), line.split(": ")[0]
        if row:
            title = f"{about}: {row['name'].strip()}" if line.startswith(" ") else row["name"]
            figure, most, unit = (row[part] for part in ("figure", "most", "unit"))
            yield f"| {title} | {figure} {unit} | {most} {unit} | {'above it' if row['passed'] else 'within'} |"
        if not line.startswith(" "):
            about = name


def section(script, program):
    """The part of the page that has what a script measures, or None where it prints no row."""
    done = subprocess.run([sys.executable, os.path.join(HERE, script), *program], capture_output=True, text=True)
    table = [*rows(done.stdout)]
    if not table:
        sys.exit(f"{script}: no figures; status {done.returncode}, {done.stderr}")
    head = ["| What | Figure | Bound | |", "|---|---|---|---|"]
    return "\n".join([f"### {script}", "", machine() + ".", "", *head, *table, ""])


def sections(page):
    """The parts of the figures by their scripts, in order."""
    parts = re.split(r"^(?=### )", page.split(HEAD, 1)[1], flags=re.M)[1:]
    return {part.split("\n", 1)[0].removeprefix("### "): part.strip() + "\n" for part in parts}


def main():
    parser = argparse.ArgumentParser(prog="report.py", description=__doc__.split("\n\n")[0])
    parser.add_argument("--program", nargs=1, default=[], help="what is measured, in place of the built program")
    parser.add_argument("scripts", nargs="*", default=SCRIPTS)
    asked = parser.parse_args()
    for script in asked.scripts:
        made = section(script, asked.program)
        with open(PAGE, encoding="utf-8") as file:
            page = file.read()
        figures = {**sections(page), script: made}
        with open(PAGE, "w", encoding="utf-8") as file:
            file.write(page.split(HEAD, 1)[0] + HEAD + "\n" + "\n".join(figures.values()))


if __name__ == "__main__":
    main()
