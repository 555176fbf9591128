"""What the programs share that judge goals: pieces of their text, and the crates that they stand on."""

LIBRARIES = "cs_verdicts cs_goals cs_yacc cs_choices cs_io cs_grammar"

HELPERS = """\
fn verdict(alloc: Global, tables: &Tables, goal: &Goal) -> Option<Verdict> {
    if fits_goal(tables.grammar(), goal) {
        judge(alloc, tables, goal).ok()
    } else {
        None
    }
}

fn named_file(alloc: Global, desk: &mut impl Desk, name: &str) -> Option<YaccFile> {
    match desk.read(alloc, name, MOST_BYTES) {
        Ok(bytes) => read_file(alloc, &bytes),
        Err(_) => None,
    }
}

fn read_file(alloc: Global, bytes: &[u8]) -> Option<YaccFile> {
    if bytes.len() <= MOST_BYTES {
        read_yacc(alloc, bytes).ok()
    } else {
        None
    }
}
"""


def program_text(text):
    """The text of a program, with the shared functions in place of their mark."""
    return text.replace("@HELPERS@\n", HELPERS)
