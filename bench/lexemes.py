#!/usr/bin/env python3
"""Times the lexemes of all tokens at the limits: bench/lexemes.py [PROGRAM].

Each row is a yacc file and a lex file with 16,384 sets of positions, for 512 tokens: the processor seconds for all their
lexemes, without the automaton, and the greatest memory while they are made, beside their bounds. It ends with status 1 where a
bound is passed. No command makes lexemes alone, so a program that does is proved in a copy of this repository, and stays as
bench/out/lexemes. Nothing here is part of the gate.
"""

import os
import tempfile

from measure import Bounds, least, program_of

LIBRARIES = "cs_scanner cs_lex cs_yacc cs_io cs_grammar cs_pattern_parts"

MAIN = """\
//! Makes the automaton of the yacc file and the lex file that its first two arguments name, and as often as there are words
//! behind them the lexemes of all tokens.
#![tactic(auto)]

ghost use Rattle.std.specs.Prelude.{◌≡◌, length};

use cs_io::{Desk, FolderDesk};
use cs_lex::{LexFile, read_lex};
use cs_scanner::{Automaton, AutomatonError, Lexemes, Scanner};
use cs_yacc::{MOST_BYTES, YaccFile, read_yacc};
use std::alloc::Global;
use std::{env, io};

fn yacc_file(alloc: Global, bytes: &[u8]) -> Option<YaccFile> {
    if bytes.len() <= MOST_BYTES {
        read_yacc(alloc, bytes).ok()
    } else {
        None
    }
}

fn lex_file(alloc: Global, bytes: &[u8], yacc: &YaccFile) -> Option<LexFile> {
    if bytes.len() <= MOST_BYTES {
        read_lex(alloc, bytes, yacc).ok()
    } else {
        None
    }
}

/// The bytes of all lexemes, and how many tokens have one.
fn sums(lexemes: &Lexemes, tokens: u16) -> (u64, u64)
    requires { length lexemes.now ≡ tokens }
{
    let mut bytes = 0u64;
    let mut count = 0u64;
    for i in 0..tokens {
        if let Some(lexeme) = lexemes.get(i + 1) {
            bytes = bytes.saturating_add(lexeme.len() as u64);
            count = count.saturating_add(1);
        }
    }
    (bytes, count)
}

/// Makes the lexemes so many times, and says what is summed of them.
fn make(rt: &HostRuntime, scanner: &Scanner<'_>, tokens: u16, times: usize) -> io::Result<()> {
    let alloc = rt.alloc();
    let states = scanner.automaton.state_count();
    println!(rt; "{tokens} {states}")?;
    for _ in 0..times {
        let lexemes = Lexemes::new(alloc, scanner, tokens)?;
        let (bytes, count) = sums(&lexemes, tokens);
        println!(rt; "{count} {bytes}")?;
    }
    Ok(())
}

/// Makes the automaton, and the lexemes so many times.
fn run(rt: &HostRuntime, yacc: &YaccFile, lex: &LexFile, times: usize) -> Result<io::Result<()>, AutomatonError> {
    let automaton = Automaton::new(rt.alloc(), lex.patterns())?;
    let scanner = Scanner {
        automaton: &automaton,
        kinds: lex.kinds(),
        literals: lex.literals(),
    };
    Ok(make(rt, &scanner, yacc.grammar().tokens(), times))
}

fn main(rt: HostRuntime) -> io::Result<()> {
    let alloc = rt.alloc();
    let mut desk = FolderDesk::new(&rt);
    let words: Vec<String> = env::args(&rt)?.collect(alloc)?;
    if words.len() < 3 {
        return Ok(());
    }
    let Ok(bytes) = desk.read(alloc, words[1].as_str(), MOST_BYTES) else {
        return Ok(());
    };
    let Ok(more) = desk.read(alloc, words[2].as_str(), MOST_BYTES) else {
        return Ok(());
    };
    let Some(yacc) = yacc_file(alloc, &bytes) else {
        return Ok(());
    };
    let Some(lex) = lex_file(alloc, &more, &yacc) else {
        return Ok(());
    };
    match run(&rt, &yacc, &lex, words.len() - 3) {
        Ok(done) => done,
        Err(_) => Ok(()),
    }
}
"""

TOKENS = 512
# the start stands beside the sets
STATES = 16384 + 1
OWN = 200
MEGABYTES = 100
# the least of so many runs counts
RUNS = 3


def by_rank():
    """The bytes in the order of lexemes, without 0, which is no literal."""
    first = b"abcdefghijklmnopqrstuvwxyz0123456789ABCDEFGHIJKLMNOPQRSTUVWXYZ"
    marks = bytes(byte for byte in range(0x21, 0x7F) if byte not in first)
    front = first + marks + b" \n\t"
    return front + bytes(byte for byte in range(1, 256) if byte not in front)


def yacc_file(literals):
    """A grammar of 512 tokens: these bytes, and as many names as it takes."""
    names = [f"T{number}" for number in range(1, TOKENS - len(literals) + 1)]
    bodies = [f"'\\{byte:03o}'" for byte in literals] + names
    return "%token " + " ".join(names) + "\n%%\ns : " + "\n  | ".join(bodies) + "\n  ;\n"


def lex_file(rules):
    return "%%\n" + "".join(f"{pattern} return {value};\n" for pattern, value in rules)


def one_rule():
    """One token has a lexeme, of fourteen letters."""
    return yacc_file(b""), lex_file([("(a|b)*a(a|b){13}", "T1")]), 1, 14


def all_rules():
    """Each of the 512 tokens has its own last nine letters, behind an a and any four."""
    rules = []
    for number in range(TOKENS):
        letters = "".join("ab"[number >> place & 1] for place in range(9))
        rules.append((f"(a|b)*a(a|b){{4}}{letters}", f"T{number + 1}"))
    return yacc_file(b""), lex_file(rules), TOKENS, TOKENS * 14


def own_bytes(first, second):
    """Own bytes alone. Each is in one of two sets, which stand for the letters a and b, and leads to all states."""
    x, y = ("[" + "".join(f"\\{byte:03o}" for byte in part) + "]" for part in (first, second))
    rules = [(f"({x}|{y})*{x}({x}|{y}){{13}}", "yytext[0]")]
    return yacc_file(first + second), lex_file(rules), OWN, len(first) * 14 + len(second) * 15


def halves():
    own = by_rank()[:OWN]
    return own_bytes(own[: OWN // 2], own[OWN // 2 :])


def in_turn():
    own = by_rank()[:OWN]
    return own_bytes(own[::2], own[1::2])


# how often a run makes the lexemes (the automaton of 512 rules takes seconds), and the most seconds for one time; in the last
# row no two bytes that follow each other by rank lead to one state
ROWS = [
    ("one rule", one_rule, 100, 0.1),
    ("512 rules", all_rules, 1000, 0.1),
    ("200 own bytes, two sets one behind the other", halves, 10, 1),
    ("200 own bytes, of two sets in turn", in_turn, 2, 1),
]


def measured(path, folder, row, times):
    """Seconds for all lexemes, made so many times in one run, and the greatest memory in MB without them and with them."""
    yacc, lex, lexemes, size = row
    for name, text in (("g.y", yacc), ("g.l", lex)):
        with open(os.path.join(folder, name), "w") as file:
            file.write(text)
    _, without, used = least(path, folder, ["g.y", "g.l"], RUNS)
    told, made, used_made = least(path, folder, ["g.y", "g.l"] + ["make"] * times, RUNS)
    told = told.splitlines()
    if told != [f"{TOKENS} {STATES}"] + [f"{lexemes} {size}"] * times:
        raise SystemExit(f"{told[:2]} in place of {TOKENS} tokens, {STATES} states, {lexemes} lexemes of {size} bytes")
    if made <= without:
        raise SystemExit(f"no figure: {without:.3g} s without the lexemes and {made:.3g} s with them, {times} times")
    return (made - without) / times, used, used_made


def main():
    path, bounds = program_of("lexemes", MAIN, LIBRARIES), Bounds()
    with tempfile.TemporaryDirectory() as folder:
        for name, make, times, most in ROWS:
            seconds, used, used_made = measured(path, folder, make(), times)
            bounds.row(f"{name}, lexemes", seconds, most, "s")
            bounds.row(f"{name}, memory ({used:.3g} MB of it without the lexemes)", used_made, MEGABYTES, "MB")
    print(f"load average {os.getloadavg()[0]:.3g}")
    bounds.end()


if __name__ == "__main__":
    main()
