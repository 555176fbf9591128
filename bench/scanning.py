#!/usr/bin/env python3
"""Times automata at the limits, and the scan of a text: bench/scanning.py [PROGRAM].

Each row is two patterns: the processor seconds for their automaton, and the greatest memory while it is made, beside their
bounds; then the processor seconds in which a text of 1 MiB is read and scanned. It ends with status 1 where a bound is passed. No command
does this alone, so a program that does is proved in a copy of this repository, and stays as bench/out/scanning. Nothing here is
part of the gate.
"""

import os
import tempfile

from measure import Bounds, least, program_of

LIBRARIES = "cs_scanner cs_pattern cs_pattern_parts cs_io"

MAIN = """\
//! Reads the two patterns in its arguments, makes their automaton, and scans the files that are named behind.
#![tactic(auto)]

ghost use Rattle.std.specs.Prelude.{◌≤◌, IfOk, map};
ghost use Rattle.cs_pattern_parts.specs.Tree.Pattern.{leaves, regex};
ghost use Rattle.cs_pattern_parts.specs.Tree.Scannable.{AreScannable, IsScannable};

use cs_io::{Desk, FolderDesk};
use cs_pattern::{Definitions, MOST_BYTES, Pattern, PatternError, read_pattern};
use cs_scanner::{Automaton, longest};
use std::alloc::Global;
use std::{env, io};

fn rule(alloc: Global, text: &str) -> Result<Pattern, PatternError>
    ensures scannable { IfOk result (λ pattern. IsScannable (regex pattern)) }
    ensures leaves { IfOk result (λ pattern. leaves (regex pattern) ≤ 8192) }
{
    let Ok(none) = Definitions::new(alloc).check() else {
        return Err(PatternError::Memory);
    };
    let bytes = text.as_bytes();
    if bytes.len() > MOST_BYTES {
        return Err(PatternError::Memory);
    }
    read_pattern(alloc, bytes, &none)
}

/// How many matches stand one behind the other.
fn matches(automaton: &Automaton<'_>, text: &[u8]) -> u64 {
    let mut count = 0u64;
    let mut at = 0;
    for _ in 0..text.len() {
        if at > text.len() {
            break;
        }
        let Some((_, size)) = longest(automaton, text, at) else {
            break;
        };
        at = at.saturating_add(size);
        count = count.saturating_add(1);
    }
    count
}

/// Makes the automaton of the rules, and scans the files that are named behind the third word.
fn run(rt: &HostRuntime, rules: &[Pattern; 2], words: &[String]) -> io::Result<()>
    requires { AreScannable (map regex rules.now) }
{
    let alloc = rt.alloc();
    let mut desk = FolderDesk::new(rt);
    let Ok(automaton) = Automaton::new(alloc, rules) else {
        return Ok(());
    };
    println!(rt; "made")?;
    for i in 4..words.len() {
        if let Ok(text) = desk.read(alloc, words[i].as_str(), MOST_BYTES) {
            let count = matches(&automaton, &text);
            println!(rt; "{count}")?;
        }
    }
    Ok(())
}

fn main(rt: HostRuntime) -> io::Result<()> {
    let alloc = rt.alloc();
    let words: Vec<String> = env::args(&rt)?.collect(alloc)?;
    if words.len() < 3 {
        return Ok(());
    }
    let (Ok(one), Ok(two)) = (rule(alloc, words[1].as_str()), rule(alloc, words[2].as_str())) else {
        return Ok(());
    };
    println!(&rt; "read")?;
    if words.len() > 3 {
        run(&rt, &[one, two], &words)?;
    }
    Ok(())
}
"""

MEGABYTES = 100
TEXT_BYTES = 1 << 20
SCAN_SECONDS = 0.02
# the least of so many runs counts, and a run scans the text so often
RUNS = 3
SCANS = 10

# two patterns, the most seconds for their automaton, what the text that is scanned repeats, and how many matches it has; the two
# patterns of the first row are one, so each set of the one is a set of the other too, and there are 16,384
ROWS = [
    ("16,384 sets", "(a|b)*a(a|b){13}", "(a|b)*a(a|b){13}", 0.1, b"", 0),
    ("16,000 leaves", "(a?){1000}{4}", "(b?){1000}{4}", 1, b"", 0),
    ("words", "if", "[a-z]+|[ ]", 0.1, b"if iffy ", TEXT_BYTES // 2),
    ("one word", "if", "[a-z]+|[ ]", 0.1, b"abcdefgh", 1),
]


def measured(path, folder, first, second, text):
    """Seconds for the automaton and for one scan of the text, how many matches it has, and the greatest memory in MB."""
    with open(os.path.join(folder, "text"), "wb") as file:
        file.write(text)
    _, read, _ = least(path, folder, [first, second], RUNS)
    told, made, used = least(path, folder, [first, second, "make"], RUNS)
    if told.split() != ["read", "made"]:
        raise SystemExit(f"no automaton of {first} and {second}")
    told, scanned, _ = least(path, folder, [first, second, "make"] + ["text"] * SCANS, RUNS)
    return max(made - read, 0), (scanned - made) / SCANS, told.split()[2:], used


def main():
    path, bounds = program_of("scanning", MAIN, LIBRARIES), Bounds()
    with tempfile.TemporaryDirectory() as folder:
        for name, first, second, most, piece, count in ROWS:
            text = piece * (TEXT_BYTES // len(piece)) if piece else b""
            made, scanned, matches, used = measured(path, folder, first, second, text)
            if matches != [str(count)] * SCANS or text and scanned <= 0:
                raise SystemExit(f"{name}: {matches} in place of {count} matches, or no figure: {scanned:.3g} s")
            print(f"{name}: {count} matches")
            bounds.row("  automaton", made, most, "s")
            bounds.row("  memory", used, MEGABYTES, "MB")
            if text:
                bounds.row("  1 MiB read and scanned", scanned, SCAN_SECONDS, "s")
    bounds.end()


if __name__ == "__main__":
    main()
