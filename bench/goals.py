#!/usr/bin/env python3
"""Times the verdicts of all goals on grammars at the limits: bench/goals.py [PROGRAM].

Each row is a grammar: the milliseconds for all its tables, and those for the tables and the verdicts of all context goals, or
of all pair goals, with their derivations, beside their bounds; then the tables and the pair goals for four sizes, which shows how
time grows: the bounds are those of the greatest. It ends with status 1 where a bound is passed. No command does this alone, so a
program that does is proved in a copy of this repository, and stays as bench/out/goals. Two grammars
of limits.py are left out: the wide one, which has billions of context goals, and the one that is mostly comments. Nothing here is
part of the gate.
"""

import os
import tempfile

from grammars import ROWS, random_rules
from judging import LIBRARIES, program_text
from measure import Bounds, program_of, ran

MAIN = """\
//! Judges the goals of a kind of the grammar in each file, and counts their verdicts.
#![tactic(auto)]

use cs_choices::Criteria;
use cs_goals::{Goal, Goals, fits_goal};
use cs_grammar::Weights;
use cs_io::{Desk, FolderDesk};
use cs_verdicts::{Tables, Verdict, judge};
use cs_yacc::{MOST_BYTES, YaccFile, read_yacc};
use std::alloc::Global;
use std::time::Instant;
use std::{env, io};

@HELPERS@

fn feasible(alloc: Global, tables: &Tables, criteria: Criteria) -> u64 {
    let mut goals = Goals::new(tables.grammar(), criteria);
    let mut count = 0u64;
    for _ in 0..u64::MAX {
        let Some(goal) = goals.next() else {
            break;
        };
        if let Some(Verdict::Feasible { .. }) = verdict(alloc, tables, &goal) {
            count = count.saturating_add(1);
        }
    }
    count
}

fn timed(rt: &HostRuntime, name: &str, file: &YaccFile) -> io::Result<()> {
    let alloc = rt.alloc();
    let begin = Instant::now(rt)?;
    if let Ok(weights) = Weights::nodes(alloc, file.grammar().tokens()) {
        if let Ok(tables) = Tables::new(alloc, file.grammar(), &weights) {
            let made = begin.elapsed(rt)?.as_micros();
            let contexts = feasible(alloc, &tables, Criteria { rule: false, cdrc: true, pair: false });
            let judged = begin.elapsed(rt)?.as_micros();
            let pairs = feasible(alloc, &tables, Criteria { rule: false, cdrc: false, pair: true });
            let all = begin.elapsed(rt)?.as_micros();
            println!(rt; "{name} {made} {judged} {all} {contexts} {pairs}")?;
        }
    }
    Ok(())
}

fn main(rt: HostRuntime) -> io::Result<()> {
    let alloc = rt.alloc();
    let mut desk = FolderDesk::new(&rt);
    let words: Vec<String> = env::args(&rt)?.collect(alloc)?;
    for name in words.iter() {
        if let Some(file) = named_file(alloc, &mut desk, name.as_str()) {
            timed(&rt, name.as_str(), &file)?;
        }
    }
    Ok(())
}
"""

# the milliseconds that the tables, and all context goals or all pair goals with them, may take
RANDOM = (800, 2000)
BOUNDS = {
    "1,024 nonterminals in a chain": (1000, 3000),
    "the same, the last one first": (1000, 3000),
    "8,192 rules of up to 12 symbols": RANDOM,
    "8,192 rules of up to 4 symbols": (1000, 3000),
}
MEGABYTES = 40


def measured(path, folder, text):
    """Milliseconds for the tables, for contexts and for pairs, how many are feasible, and the greatest memory in MB."""
    with open(os.path.join(folder, "g.y"), "w") as file:
        file.write(text)
    told, _, used = ran(path, folder, ["g.y"])
    made, judged, all_judged, contexts, pairs = (int(figure) for figure in told.split()[1:])
    return made / 1000, (judged - made) / 1000, (all_judged - judged) / 1000, contexts, pairs, used


def best(path, folder, text):
    """The least of three runs, figure by figure."""
    return [min(figures) for figures in zip(*(measured(path, folder, text) for _ in range(3)))]


def main():
    path, bounds = program_of("goals", program_text(MAIN), LIBRARIES), Bounds()
    with tempfile.TemporaryDirectory() as folder:
        for name, (tables_most, goals_most) in BOUNDS.items():
            made, context, pair, contexts, pairs, used = best(path, folder, dict(ROWS)[name]())
            print(f"{name}: {contexts} context goals and {pairs} pair goals are feasible")
            bounds.row("  tables", made, tables_most, "ms")
            bounds.row("  tables and contexts", made + context, goals_most, "ms")
            bounds.row("  tables and pairs", made + pair, goals_most, "ms")
            bounds.row("  memory", used, MEGABYTES, "MB")
        for nonterminals in (128, 256, 512, 1024):
            made, _, pair, _, pairs, _ = best(path, folder, random_rules(nonterminals, 8, 12, 1))
            print(f"{nonterminals * 8} rules of up to 12 symbols: {pairs} pair goals are feasible")
            bounds.row("  tables", made, RANDOM[0], "ms")
            bounds.row("  tables and pairs", made + pair, RANDOM[1], "ms")
    bounds.end()


if __name__ == "__main__":
    main()
