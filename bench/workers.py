#!/usr/bin/env python3
"""Times the rendering of 10,000 lists of 1,000 tokens by 1, 2 and 4 workers: bench/workers.py [PROGRAM].

Each row is two or four workers: which part of the wall time of one theirs is, beside its bound, and in its words both times. The
bounds are for four free processors, so the load average stands below. It ends with status 1 where one is passed. No command takes
a number of workers, so a program that does is proved in a copy of this repository, and stays as bench/out/workers. Nothing here is
part of the gate.
"""

import os
import subprocess

from measure import Bounds, program_of

LIBRARIES = "cs_texts cs_fan cs_scanner cs_lex cs_yacc cs_grammar cs_pattern_parts"

MAIN = """\
//! Renders 10,000 lists of 1,000 tokens by as many workers as its argument says, and times them.
#![tactic(auto)]

ghost use Rattle.std.specs.Prelude.{◌≡◌, ◌<◌, ◌≤◌, All, IfOk, IfSome, length, replicate};
ghost use Rattle.cs_texts.specs.Work.Renders.{TakesTokens};

use cs_fan::{Counter, OpenGate, fan};
use cs_lex::{LexFile, MOST_BYTES, read_lex};
use cs_scanner::{Automaton, AutomatonError, Lexemes, Scanner};
use cs_texts::{RenderWork, Rendered};
use cs_yacc::read_yacc;
use std::alloc::{AllocError, Global};
use std::thread::Threads;
use std::time::Instant;
use std::{env, io};

const SUMS: &[u8] = b"%token NUM\\n%%\\ne : e '+' t | t ;\\nt : NUM | '(' e ')' ;\\n";

const LEXEMES: &[u8] = b"%%\\n[0-9]+ return NUM;\\n[-+*/()] return yytext[0];\\n[ \\\\t\\\\n]+ ;\\n";

fn file(alloc: Global) -> Option<LexFile> {
    if SUMS.len() > MOST_BYTES || LEXEMES.len() > MOST_BYTES {
        return None;
    }
    let yacc = read_yacc(alloc, SUMS).ok()?;
    read_lex(alloc, LEXEMES, &yacc).ok()
}

/// 1,000 times NUM.
fn numbers(alloc: Global) -> Result<Vec<u16>, AllocError>
    ensures { IfOk result (λ tokens. tokens.items ≡ replicate 1000 1) }
{
    vec![in alloc; 1; 1_000]
}

/// The same as a list that can be rendered.
#[tactic(auto, using(crate::proofs::Takes::takes))]
fn list(alloc: Global, work: &RenderWork<'_>) -> Result<Vec<u16>, AllocError>
    requires tokens { length work.now.lexemes.now ≡ 4 }
    ensures { IfOk result (λ list. TakesTokens work.now list.items) }
{
    numbers(alloc)
}

/// 10,000 such lists.
fn lists(alloc: Global, work: &RenderWork<'_>) -> Result<Vec<Vec<u16>>, AllocError>
    requires tokens { length work.now.lexemes.now ≡ 4 }
    ensures { IfOk result (λ lists. All (λ list. TakesTokens work.now list.items) lists.items) }
{
    let mut lists = Vec::new(alloc);
    for _ in 0..10_000 {
        let tokens = list(alloc, work)?;
        lists.push(tokens)?;
    }
    Ok(lists)
}

/// How many bytes their texts have.
fn bytes(answers: &[Rendered]) -> u64 {
    let mut bytes = 0u64;
    for answer in answers {
        if let Rendered::Text(text) = answer {
            bytes = bytes.saturating_add(text.len() as u64);
        }
    }
    bytes
}

/// The workers that the word asks for.
fn workers(word: &str) -> Option<u16>
    ensures { IfSome result (λ n. (0 < n) × (n ≤ 4)) }
{
    match word {
        "1" => Some(1),
        "2" => Some(2),
        "4" => Some(4),
        _ => None,
    }
}

/// What comes of the lists by so many workers.
fn render_all<R: Threads + Sync>(
    rt: &R,
    alloc: Global,
    work: &RenderWork<'_>,
    lists: &[Vec<u16>],
    workers: u16,
) -> Result<Vec<Rendered>, AllocError>
    requires takes { All (λ list. TakesTokens work.now list.items) lists.now }
    requires count { length lists.now ≡ 10000 }
    requires some { 0 < workers }
    requires few { workers ≤ 4 }
{
    let (counter, mut seat) = Counter::new(alloc, 10_000, workers)?;
    fan(rt, alloc, lists, work, &OpenGate, &counter, &mut seat)
}

/// Says how many bytes came of the lists by so many workers, and after how many microseconds.
fn timed<R: Threads + Sync>(
    threads: &R,
    rt: &HostRuntime,
    work: &RenderWork<'_>,
    workers: u16,
) -> io::Result<()>
    requires tokens { length work.now.lexemes.now ≡ 4 }
    requires some { 0 < workers }
    requires few { workers ≤ 4 }
{
    let alloc = rt.alloc();
    let lists = lists(alloc, work)?;
    if lists.len() != 10_000 {
        return Ok(());
    }
    let begin = Instant::now(rt)?;
    let answers = render_all(threads, alloc, work, &lists, workers)?;
    let taken = begin.elapsed(rt)?.as_micros();
    let count = bytes(&answers);
    println!(rt; "{count} {taken}")
}

/// Makes the scanner and the lexemes, and times so many workers.
fn run<R: Threads + Sync>(
    threads: &R,
    rt: &HostRuntime,
    file: &LexFile,
    workers: u16,
) -> Result<io::Result<()>, AutomatonError>
    requires some { 0 < workers }
    requires few { workers ≤ 4 }
{
    let alloc = rt.alloc();
    let automaton = Automaton::new(alloc, file.patterns())?;
    let scanner = Scanner {
        automaton: &automaton,
        kinds: file.kinds(),
        literals: file.literals(),
    };
    let lexemes = Lexemes::new(alloc, &scanner, 4)?;
    let work = RenderWork {
        scanner: &scanner,
        lexemes: &lexemes,
        separator: b" ",
    };
    Ok(timed(threads, rt, &work, workers))
}

fn main(rt: HostRuntime) -> io::Result<()> {
    let alloc = rt.alloc();
    let words: Vec<String> = env::args(&rt)?.collect(alloc)?;
    if words.len() < 2 {
        return Ok(());
    }
    let (Some(file), Some(workers)) = (file(alloc), workers(words[1].as_str())) else {
        return Ok(());
    };
    match run(&rt, &rt, &file, workers) {
        Ok(done) => done,
        Err(_) => Ok(()),
    }
}
"""

PROOFS = {
    "proofs/Lib.antt": """\
mod Takes
""",
    "proofs/Takes.antt": """\
-- A list of ones can be rendered where there are four tokens.
use Rattle.std.proofs.Common.{◌≡◌, ◌<◌, ◌≤◌, List, ℕ, length, replicate, arith, sym, subst}
use Rattle.std.proofs.lemmas.List.{length-replicate}
use Rattle.std.proofs.lemmas.List.Elements.{All-replicate}
use Rattle.cs_texts.specs.Work.Renders.{TakesTokens}
use Rattle.cs_texts.specs.declared.rendering.render_work.RenderWork.{RenderWork}

pub takes : (work : RenderWork) (tokens : List ℕ) (count : ℕ) → length work.lexemes.now ≡ 4 → count ≤ 1000 → tokens ≡ replicate count 1 → TakesTokens work tokens
takes work tokens count four few ones =
    let each = All-replicate (λ token. (0 < token) × (token ≤ length work.lexemes.now)) count 1 (omega arith, omega (arith, four)) in
    let short : length (replicate count 1) ≤ 1000001 = omega (arith, few, length-replicate {A = ℕ} count 1) in
    subst (λ t. TakesTokens work t) (sym ones) (record { tokens_of = each; few = short })
""",
    "proofs/lists/Answers.antt": """\
use Rattle.std.proofs.lemmas.List.Elements.{All-push}
use Rattle.cs_texts.specs.Work.Renders.{TakesTokens}
use Rattle.bench_program.proofs.lists.Goals as goal

pub loop-preserved : goal.loop-preserved
loop-preserved c =
    rw c.in_ok-push.ensures.items (All-push (λ list. TakesTokens c.args.work.now list.items) c.loop.lists.items c.in_ok-tokens.tokens c.loop.invariant c.in_ok-tokens.ensures)
""",
    "proofs/lists/Invariants.antt": """\
use Rattle.std.proofs.Common.{All}
use Rattle.cs_texts.specs.Work.Renders.{TakesTokens}
use Rattle.bench_program.proofs.lists.Given as goal

abbrev pub invariant-loop : goal.invariant-loop
invariant-loop l = All (λ list. TakesTokens l.work list.items) l.lists.items
""",
}

LISTS = 10_000
TOKENS = 1_000
# `0` for each token, and a space between two
BYTES = LISTS * (2 * TOKENS - 1)
# the least of so many runs counts
RUNS = 5
# how many workers, and what their time may be of that of one
PARTS = [(2, 0.7), (4, 0.4)]


def rendered(path, workers):
    """The least wall time in seconds of so many workers."""
    least = None
    for _ in range(RUNS):
        told = subprocess.run([path, str(workers)], capture_output=True, text=True, check=True).stdout.split()
        if len(told) != 2 or int(told[0]) != BYTES:
            raise SystemExit(f"{workers} workers: {told} in place of {BYTES} bytes and a time")
        seconds = int(told[1]) / 1_000_000
        least = seconds if least is None else min(least, seconds)
    return least


def main():
    path, bounds = program_of("workers", MAIN, LIBRARIES, PROOFS), Bounds()
    one = rendered(path, 1)
    for workers, most in PARTS:
        several = rendered(path, workers)
        bounds.row(f"{workers} workers, {several:.3g} s of {one:.3g} s", several / one, most, "parts")
    print(f"{os.cpu_count()} processors, load average {os.getloadavg()[0]:.3g}")
    bounds.end()


if __name__ == "__main__":
    main()
