"""One sentence for each line that the program writes on its error output: what is meant, and what to do."""

import os

with open(os.path.join(os.path.dirname(__file__), "usage.txt"), encoding="utf-8") as file:
    USAGE = file.read()

# By the line without its numbers. Names of refusals are those of docs/FORMATS.md.
SENTENCES = {
    "yacc: Length": (
        "The yacc file is too long: a file has at most 1,048,576 bytes, so take text out that is no grammar, "
        "as the part behind the second %%."
    ),
    "yacc: BadItem": (
        "Nothing of a yacc file begins so: write a name, a literal in single quotes, a directive, or a block "
        "in braces."
    ),
    "yacc: Unended": "What begins here is never closed: close it.",
    "yacc: UnknownDirective": (
        "This directive isn't read: write one of those that docs/FORMATS.md lists, or take it out."
    ),
    "yacc: Syntax": "This may not stand here: look at what stands before it.",
    "yacc: SecondStart": "This is a second %start: keep one, and make a file for each start symbol.",
    "yacc: TokenOnLeft": (
        "A token has rules: take it out of the lists of tokens, or give the left side another name."
    ),
    "yacc: Undefined": (
        "This name is neither a declared token nor a left side: correct it, declare it with %token, or write "
        "rules for it."
    ),
    "yacc: StartNotNonterminal": "The start symbol has no rules: name a left side behind %start.",
    "yacc: Limit Tokens": "The rules use too many tokens: leave rules out, or split the grammar.",
    "yacc: Limit Nonterminals": "The grammar has too many left sides: leave some out, or split the grammar.",
    "yacc: Limit Rules": "The grammar has too many rules: leave some out, or split the grammar.",
    "yacc: Limit RightSide": "A rule has too many symbols: put a part of it into a rule of its own.",
    "lex: Length": (
        "The lex file is too long: a file has at most 1,048,576 bytes, so take text out that is no rule, as "
        "the part behind the second %%."
    ),
    "lex: Unended": "What begins here is never closed: close it.",
    "lex: Layout": (
        "This line is no definition, or defines a name a second time, or %% is missing: write NAME PATTERN, "
        "or %% before the rules."
    ),
    "lex: UnknownDirective": (
        "This % line isn't read: take it out, or write one of those that docs/FORMATS.md lists."
    ),
    "lex: UnknownOption": "This option isn't read: take it out where it changes nothing of what is matched.",
    "lex: StartCondition": (
        "Start conditions are left out, since what matches then depends on actions: take the line and its "
        "rules out."
    ),
    "lex: NoRules": "The rules section is empty: write rules behind the first %%.",
    "lex: DanglingBar": "The action `|` means the next rule's, and there is none: write an action here.",
    "lex: Limit Rules": "The lex file has too many rules: leave some out.",
    "lex: Limit Positions": "The patterns of all rules are too large together: take large repetitions out.",
    "lex: Pattern Anchor": (
        "The anchors ^ and $ are left out: take it out, or put a backslash before it where the byte itself is "
        "meant."
    ),
    "lex: Pattern Trailing": (
        "Trailing context is left out: take it out, or put a backslash before the / where the byte itself is "
        "meant."
    ),
    "lex: Pattern Condition": (
        "Start conditions are left out: take <NAME> out, or put a backslash before the < where the byte "
        "itself is meant."
    ),
    "lex: Pattern Collation": (
        "Collating symbols and equivalence classes are left out: list the bytes that are meant."
    ),
    "lex: Pattern Syntax": (
        "The pattern can't go on here: close what is open, quote the byte, or put something before the "
        "repetition."
    ),
    "lex: Pattern UndefinedName": (
        "No definition has this name: define it before the first %%, or correct it."
    ),
    "lex: Pattern DefinitionCycle": (
        "This name leads back to the definition that it stands in: take it out of one of them."
    ),
    "lex: Pattern TooDeep": "Too many groups, names and repetitions stand around one part: take some away.",
    "lex: Pattern TooManyPositions": (
        "The pattern is too large once names and repetitions are written out: make the repetitions smaller."
    ),
    "lex: States": (
        "The patterns together need too large an automaton: make repetitions of large sets smaller."
    ),
    "text: Length": "The text is too long: a text has at most 65,536 bytes.",
    "text: Stops": (
        "The scanner takes nothing here, or what it takes gives a token that isn't known: `conform lexical` says what "
        "each of its rules takes."
    ),
    "text: Tokens": "The text has too many tokens: try a shorter one.",
    "manifest: Length": "The manifest is too long: one that is checked has at most 67,108,864 bytes.",
    "chains: Limit Goals": (
        "The grammar has too many goals of three rules: leave rules out, or write those with many alternatives shorter."
    ),
    "usage": "This word may not stand here.",
    "read fault: yacc": "The yacc file can't be read.",
    "read fault: lex": "The lex file can't be read.",
    "read fault: text": "The text can't be read.",
    "read fault: manifest": "The manifest can't be read.",
    "write fault": (
        "The output can't be written: look whether the disk is full, or whether who reads it has ended."
    ),
    "out of memory": "The system gave no more memory: free some, or raise the limit.",
}
# Status 7 has no line.
NO_WORDS = "The system didn't give the program its words: write the file's name in UTF-8."
# What a line of a manifest lacks, by the fault that `check` names.
FAULTS = {
    "Form": "No such line may stand here, or it has another number than is due.",
    "Head": "This isn't the yacc file's, or names what isn't there: check the suite beside the files that it is of.",
    "Unclosed": "The closed lines are no closed sets: a name is missing in one of them.",
    "Derive": "These rules derive nothing from the start symbol.",
    "Size": "The case above has another size than this derivation.",
    "Yield": "These aren't the tokens of the derivation, or of the edited base.",
    "Scan": "The text doesn't scan to the tokens above it.",
    "Goal": "This goal isn't due, goals before this line are missing, or what is said of its cases isn't so.",
    "Infeasible": "The closed lines don't exclude this goal.",
    "Base": "The goal isn't a feasible one above, or the base isn't the last one.",
    "Edit": "The edit doesn't fit the base.",
    "Pair": "The pair doesn't stand at this place, or the closed lines don't exclude it.",
    "Totals": "The lines above are others in number: put the numbers right.",
}
