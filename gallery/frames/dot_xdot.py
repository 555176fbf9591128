"""The lexer and the parser of xdot. Its packages open a window when imported, so bare ones stand for them."""

import importlib.util
import os
import sys
from types import ModuleType

from batch import serve

TOP = os.path.dirname(importlib.util.find_spec("xdot").origin)


def bare(name, folder):
    package = ModuleType(name)
    package.__path__ = [folder]
    sys.modules[name] = package


bare("xdot", TOP)
bare("xdot.ui", os.path.join(TOP, "ui"))

from xdot.dot.lexer import ParseError
from xdot.dot.parser import DotLexer, DotParser


def parse(text):
    DotParser(DotLexer(buf=text)).parse()


serve(parse, ParseError)
