"""The function json_valid of SQLite."""

import sqlite3

from batch import serve

database = sqlite3.connect(":memory:")


def parse(text):
    if not database.execute("select json_valid(cast(? as text))", (text,)).fetchone()[0]:
        raise ValueError


serve(parse, ValueError)
