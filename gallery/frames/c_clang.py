"""c_clang.py, with the words of each.py: clang's own parser by its library, in one process. A text at which that dies
is given to the command."""

import re
import sys

from clang.cindex import Diagnostic, Index, TranslationUnit, TranslationUnitLoadError

from each import Each, serve


class Clang(Each):
    """The library, with the command's options, and the command."""

    def __init__(self, asked, folder):
        super().__init__(asked, folder)
        self.index = Index.create()
        self.options = [word for word in asked.command if re.match("-(?:std|pedantic|f)", word)]

    def answer(self, text):
        files = [("text.c", text.decode())]
        try:
            unit = TranslationUnit.from_source("text.c", self.options, files, index=self.index)
        except TranslationUnitLoadError:
            return super().answer(text)
        errors = (f"error: {found.spelling}" for found in unit.diagnostics if found.severity >= Diagnostic.Error)
        return "refused" if any(re.search(self.asked.message, error) for error in errors) else "taken"


serve(sys.argv[1:], Clang)
