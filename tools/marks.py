"""The names that tokens and files have for marks: `+` is plus, and LBRACE is `{`."""

# Of each mark the names that grammars use for it, in small letters and without `_`; the first one names files.
NAMES = {
    "+": "plus add addop",
    "-": "minus sub dash hyphen subtract",
    "*": "star times mul mult asterisk multiply mulop multop",
    "/": "slash div divide divideby",
    "%": "percent mod modulo modulus percentsign",
    "=": "equals equal assign equalsign assignop asgnop",
    "<": "less lt lessthan langle leftangle relop cmpop compop",
    ">": "greater gt greaterthan rangle rightangle",
    "!": "bang not exclamation excl exclam lnot logicalnot exclamationmark",
    "&": "ampersand amp bitand band bitwiseand bitandop",
    "|": "bar pipe bitor vbar verticalbar bitwiseor bitorop",
    "^": "caret xor hat bitxor bxor bitwisexor uparrow",
    "~": "tilde bitnot compl complement bnot",
    "?": "question questionmark quest qmark",
    ":": "colon",
    ";": "semicolon semi semicol",
    ",": "comma",
    ".": "dot period fullstop",
    "(": "lparen leftparen openparen lpar oparen parenopen leftparenthesis lround openround",
    ")": "rparen rightparen closeparen rpar cparen parenclose rightparenthesis rround closeround",
    "[": "lbracket leftbracket openbracket lbrack lsquare leftsquare obracket bracketopen lsqb opensquare lbox",
    "]": "rbracket rightbracket closebracket rbrack rsquare rightsquare cbracket bracketclose rsqb closesquare rbox",
    "{": "lbrace leftbrace openbrace lcurly leftcurly obrace braceopen opencurly",
    "}": "rbrace rightbrace closebrace rcurly rightcurly cbrace braceclose closecurly",
    "@": "at atsign snail",
    "#": "hash sharp pound numbersign",
    "$": "dollar dollarsign",
    "\\": "backslash bslash",
    "'": "quote apostrophe singlequote",
    '"': "doublequote dquote quotationmark",
    "`": "backquote backtick bquote",
    "_": "underscore",
    " ": "space",
    "\n": "newline eol nl lf linefeed endofline lineend linebreak endline",
    "\t": "tab",
    "\r": "cr carriagereturn",
    "==": "eq eqeq equalequal isequal equalto equ eqop equop equality doubleequals",
    "===": "identical isidentical strictequal",
    "!=": "ne neq notequal noteq notequalto isnotequal notequals unequal inequality",
    "!==": "notidentical strictnotequal isnotidentical",
    "<=": "le leq lte lesseq lessequal lessorequal lessthanequal lessthanorequal lessthanorequalto issmallerorequal",
    ">=": "ge geq gte greatereq greaterequal greaterorequal greaterthanequal greaterthanorequal greaterthanorequalto",
    "<=>": "spaceship lessequalgreater threeway",
    "&&": "and andand land logicaland booleanand",
    "||": "or oror lor logicalor booleanor",
    "++": "inc incr increment plusplus",
    "--": "dec decr decrement minusminus",
    "<<": "shl lshift leftshift leftop shiftleft lsh shiftop ls sl",
    ">>": "shr rshift rightshift rightop shiftright rsh rs sr",
    "->": "arrow ptr ptrop rarrow rightarrow objectoperator minusgt",
    "=>": "fatarrow doublearrow darrow",
    "<-": "larrow leftarrow",
    "::": "coloncolon doublecolon dcolon dblcolon paamayimnekudotayim",
    ":=": "coloneq colonequal colonequals becomes",
    "..": "dotdot",
    "...": "ellipsis dotdotdot threedots yadayada",
    "**": "starstar pow power powop exponent doublestar dstar",
    "//": "slashslash dor dordor doubleslash",
    "??": "coalesce",
    ";;": "semisemi dsemi",
}
BY_NAME = {name: mark for mark, names in reversed(NAMES.items()) for name in names.split()}
# What a name may tell where another token has the first mark.
SECOND = {"=": ":=", "&&": "&", "||": "|", "==": "=", "&": "&&", "|": "||", "**": "^", "^": "**", "!": "~"}


def name_of(byte):
    """A word for a byte in the name of a file."""
    names = NAMES.get(byte, "").split()
    return names[0] if names else f"x{ord(byte):02x}"
