"""dot_python.py MODULE: pydot or pydotplus, whose answer is nothing, or which raises, where they refuse."""

import contextlib
import importlib
import io
import sys

from batch import serve

module = importlib.import_module(sys.argv[1])


def parse(text):
    with contextlib.redirect_stdout(io.StringIO()):
        if not module.graph_from_dot_data(text.decode()):
            raise ValueError


serve(parse, ValueError)
