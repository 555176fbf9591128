#!/usr/bin/env python3
"""Compares the verdicts of all goals, with the codes of their derivations, with those of the program before its tables were
made by worklists: bench/answers.py [PROGRAM].

Each row is a grammar, and whether its checksums, one for each kind of goals, are those of that program; it ends with status 1
where one differs. The checksums in answers.txt were made at the commit 3173a07. The wide grammar has billions of context goals,
which are left out.

A program that judges all goals is proved in a copy of this repository, and stays as bench/out/answers. Nothing here is part of the
gate.
"""

import os
import sys
import tempfile

from grammars import ROWS
from judging import LIBRARIES, program_text
from measure import TOP, program_of, ran

sys.dont_write_bytecode = True
sys.path.insert(0, os.path.join(TOP, "tests"))

from model.generated import yacc_file

HERE = os.path.dirname(os.path.abspath(__file__))

MAIN = """\
//! Judges the goals of a kind of the grammar in a file, and makes a checksum of their verdicts.
#![tactic(auto)]

use cs_choices::Criteria;
use cs_goals::{Goal, Goals, fits_goal};
use cs_grammar::Weights;
use cs_io::{Desk, DeskError, FolderDesk};
use cs_verdicts::{Tables, Verdict, judge};
use cs_yacc::{MOST_BYTES, YaccFile, read_yacc};
use std::alloc::Global;
use std::{env, io};

fn mixed(sum: u64, number: u64) -> u64 {
    (sum ^ number).wrapping_mul(1_099_511_628_211)
}

fn with_verdict(sum: u64, verdict: &Verdict) -> u64 {
    match verdict {
        Verdict::Infeasible => mixed(sum, 1),
        Verdict::Large => mixed(sum, 2),
        Verdict::Feasible { size, derivation } => with_rules(mixed(mixed(sum, 3), u64::from(*size)), derivation.rules()),
    }
}

fn with_rules(sum: u64, rules: &[u16]) -> u64 {
    let mut sum = sum;
    for rule in rules {
        sum = mixed(sum, u64::from(*rule));
    }
    sum
}

@HELPERS@

fn summed(alloc: Global, tables: &Tables, criteria: Criteria) -> u64 {
    let mut goals = Goals::new(tables.grammar(), criteria);
    let mut sum = 14_695_981_039_346_656_037u64;
    for _ in 0..u64::MAX {
        let Some(goal) = goals.next() else {
            break;
        };
        if let Some(verdict) = verdict(alloc, tables, &goal) {
            sum = with_verdict(sum, &verdict);
        }
    }
    sum
}

fn sums(alloc: Global, file: &YaccFile, has_contexts: bool) -> Option<(u64, u64, u64)> {
    let weights = Weights::nodes(alloc, file.grammar().tokens()).ok()?;
    let tables = Tables::new(alloc, file.grammar(), &weights).ok()?;
    let rule = summed(alloc, &tables, Criteria { rule: true, cdrc: false, pair: false });
    let context = summed(alloc, &tables, Criteria { rule: false, cdrc: has_contexts, pair: false });
    let pair = summed(alloc, &tables, Criteria { rule: false, cdrc: false, pair: true });
    Some((rule, context, pair))
}

fn main(rt: HostRuntime) -> io::Result<()> {
    let alloc = rt.alloc();
    let mut desk = FolderDesk::new(&rt);
    let words: Vec<String> = env::args(&rt)?.collect(alloc)?;
    for name in words.iter() {
        if let Some(file) = named_file(alloc, &mut desk, name.as_str()) {
            let has_contexts = !name.as_str().contains("wide");
            if let Some((rule, context, pair)) = sums(alloc, &file, has_contexts) {
                println!(rt; "{name} {rule} {context} {pair}")?;
            }
        }
    }
    Ok(())
}
"""


def rows():
    for number in range(1, 21):
        yield f"generated{number}.y", yacc_file(number)
    for number, (name, make) in enumerate(ROWS):
        yield f"{'wide' if '128 symbols' in name else 'row'}{number}.y", make()


def main():
    with open(os.path.join(HERE, "answers.txt")) as file:
        wanted = dict(line.rstrip("\n").split(" ", 1) for line in file)
    path, names = program_of("answers", program_text(MAIN), LIBRARIES), []
    with tempfile.TemporaryDirectory() as folder:
        for name, text in rows():
            names.append(name)
            with open(os.path.join(folder, name), "w") as file:
                file.write(text)
        told, _, _ = ran(path, folder, names)
    found = dict(line.split(" ", 1) for line in told.splitlines())
    differ = [name for name in names if found.get(name) != wanted.get(name)]
    for name in names:
        print(f"{name}: {'differs' if name in differ else 'the same'}")
    sys.exit(1 if differ else 0)


if __name__ == "__main__":
    main()
