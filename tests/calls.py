"""What the runs of tools share: calls, files of a folder, and texts with a mark at a place."""

import os
import subprocess
import sys

TOP = os.path.dirname(os.path.dirname(os.path.abspath(__file__)))
TOOLS = os.path.join(TOP, "tools")
PROGRAM = os.path.abspath(sys.argv[1]) if len(sys.argv) > 1 else os.path.join(TOP, "crates", "cs_cli", "out", "cs_cli")
BUILT = os.path.exists(PROGRAM)
MARK = "«".encode()


def call(command, folder, **environment):
    done = subprocess.run(command, cwd=folder, capture_output=True, env={**os.environ, **environment}, timeout=60)
    return done.returncode, done.stdout, done.stderr


def tool(folder, name, *words):
    """The status of a tool, what it wrote and what it said."""
    status, out, said = call([sys.executable, os.path.join(TOOLS, name), *words], folder)
    return status, out.decode(errors="replace"), said.decode(errors="replace")


def written(folder, name, text):
    path = os.path.join(folder, name)
    with open(path, "wb") as file:
        file.write(text if isinstance(text, bytes) else text.encode())
    return path


def marked(text):
    """The text without its mark, and the mark's offset and its line and column from 1."""
    raw = text.encode()
    at = raw.index(MARK)
    before = raw[:at].decode()
    return raw.replace(MARK, b"", 1), at, (before.count("\n") + 1, len(before) - (before.rfind("\n") + 1) + 1)
