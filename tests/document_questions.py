"""What a reader of the documents asks, and the files, at most two, that answer it, each with words of the answer."""

DESIGN, FORMATS, CLAIMS, DEFINITIONS = "docs/DESIGN.md", "docs/FORMATS.md", "docs/CLAIMS.md", "docs/DEFINITIONS.md"
CONTRIBUTING = "CONTRIBUTING.md"

QUESTIONS = [
    ("Where is the rule for the longest spelling of an item defined?", {
        DESIGN: [
            "| an item of a yacc file is the longest spelling |",
            "`BeginsItem` | `crates/cs_yacc/specs/Items/Items.antt`",
        ],
    }),
    ("Where is that implemented?", {DESIGN: ["| an item of a yacc file is the longest spelling | `front_at` |"]}),
    ("By what are the two tied?", {DESIGN: ["| `front_at` | its clause `front`; `read_items` |"]}),
    ("Where does the number 10,000 live?", {
        FORMATS: ["| size of a derivation, by nodes | 10,000 |"],
        DESIGN: [
            "| the limits of 10,000 nodes and 100,000 bytes | the constants `LIMIT` and `BYTE_LIMIT` |",
            "`crates/cs_grammar/specs/Weights.antt`",
        ],
    }),
    ("What may know a tree?", {
        CONTRIBUTING: ["What may know a tree is settled by what a crate cites.", "`cs_grammar.specs.Tree`"],
    }),
    ("Where is the order of goals fixed?", {
        DESIGN: [
            "| which goals there are, in which order | `Goals::next` |",
            "`crates/cs_goals/specs/Goals.antt`",
        ],
    }),
    ("Which contract makes `large` exact?", {
        DESIGN: ["| `infeasible`, `large` and the least size | `judge` |"],
        DEFINITIONS: ["It is `Large` where one does and each that does is larger than the limit of the weights."],
    }),
    ("Where is a command added?", {
        CONTRIBUTING: ["## To add a command", "`crates/cs_words/specs/Commands.antt`"],
    }),
    ("Where is a directive added?", {
        CONTRIBUTING: ["## To add a directive of the yacc file", "`crates/cs_yacc/specs/Items/Directives.antt`"],
    }),
    ("What is proved again then?", {
        CONTRIBUTING: ["Proved again are `cs_words`,", "Proved again are these two crates"],
    }),
    ("What does the error output hold after a failing write?", {
        FORMATS: ["the error output then holds a beginning of the line, perhaps none of it"],
        DESIGN: ["| what the error output holds, after a failing write too | `finish` |"],
    }),
    ("What of FolderDesk is proved?", {
        CLAIMS: [
            "`FolderDesk::read` (clauses `within`, `never_missing`, `fault`, `no_fault`)",
            "- `FolderDesk` on a real file",
        ],
    }),
    ("Which expected values come from outside?", {
        CONTRIBUTING: [
            "Where expected values come from:",
            "| bison's own reports, where bison is installed |",
        ],
    }),
    ("How is a bug planted?", {
        CONTRIBUTING: ["## To plant a bug", "`rt must-fail cs_grammar` tries those of the crate"],
    }),
    ("What is an edit?", {
        DEFINITIONS: ["An edit deletes a token, inserts one, replaces one or exchanges two neighbours"],
        DESIGN: ["| what an edit makes of a list | `apply` |"],
    }),
    ("Why is `first` written?", {
        FORMATS: ["So a user who wants few sentences runs the cases behind `first` alone, and misses no goal."],
    }),
    ("How long does the gate take?", {
        CONTRIBUTING: ["| `rt ci` from nothing | some 320 processor minutes", "| `rt ci NAME` where the crate changed |"],
    }),
    ("What is trusted?", {
        CLAIMS: ["## Trusted", "- The Rattle toolchain, the C library and the operating system."],
    }),
    ("Where is a lexeme's leastness?", {
        DESIGN: ["| a lexeme is the least text | `Lexemes::new` |", "`crates/cs_scanner/specs/Lexeme/Lexeme.antt`"],
    }),
    ("Where is its tie-break?", {
        DESIGN: [
            "| which of two texts is less, and their ties | `is_before` |",
            "| which of two bytes comes first there | `rank` |",
        ],
    }),
]
