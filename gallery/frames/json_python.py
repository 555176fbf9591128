"""json_python.py MODULE: a module of Python that has `loads`."""

import importlib
import sys

from batch import serve

module = importlib.import_module(sys.argv[1])
serve(module.loads, ValueError)
