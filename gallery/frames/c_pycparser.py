"""The parser of pycparser, without a preprocessor. It is made anew for each text, since it remembers names of types."""

from pycparser.c_parser import CParser, ParseError

from batch import serve

serve(lambda text: CParser().parse(text.decode("latin-1")), ParseError)
