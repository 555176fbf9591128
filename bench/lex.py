#!/usr/bin/env python3
"""Times the reading of lex files of up to 1 MiB: bench/lex.py [PROGRAM].

Each row is a file, how it is answered, and the milliseconds that `read_lex` takes beside their bound. Ends with status 1 where one
is passed. No command reads a lex file alone, so a program that does is proved in a copy of this repository, and stays as
bench/out/lex. Nothing here is part of the gate.
"""

import os
import random
import string
import tempfile

from measure import Bounds, program_of, ran

LIBRARIES = "cs_lex cs_yacc cs_io"
MOST_BYTES = 1_048_576
BOUND = 1000
LETTERS = string.ascii_letters + string.digits

MAIN = """\
//! Reads the lex files in its arguments beside a yacc file, and tells how long each takes.
#![tactic(auto)]

use cs_io::{Desk, FolderDesk};
use cs_lex::{MOST_BYTES, read_lex};
use cs_yacc::{YaccFile, read_yacc};
use std::alloc::Global;
use std::time::Instant;
use std::{env, io};

fn yacc(alloc: Global) -> Option<YaccFile> {
    let text = b"%token NUM\\n%%\\ns : NUM ;\\n";
    if text.len() > MOST_BYTES {
        return None;
    }
    read_yacc(alloc, text).ok()
}

/// Whether the bytes are accepted.
fn reads(alloc: Global, bytes: &[u8], yacc: &YaccFile) -> bool {
    bytes.len() <= MOST_BYTES && read_lex(alloc, bytes, yacc).is_ok()
}

fn main(rt: HostRuntime) -> io::Result<()> {
    let alloc = rt.alloc();
    let mut desk = FolderDesk::new(&rt);
    let words: Vec<String> = env::args(&rt)?.collect(alloc)?;
    for i in 1..words.len() {
        let name = words[i].as_str();
        if let (Some(yacc), Ok(bytes)) = (yacc(alloc), desk.read(alloc, name, MOST_BYTES)) {
            let begin = Instant::now(&rt)?;
            let accepted = reads(alloc, &bytes, &yacc);
            let took = begin.elapsed(&rt)?.as_millis();
            println!(rt; "{name} {took} {accepted}")?;
        }
    }
    Ok(())
}
"""


def filled(head, line, tail):
    """The line as often as fits between the two."""
    return head + line * ((MOST_BYTES - len(head) - len(tail)) // len(line)) + tail


def names_in_a_row(order):
    """60,000 definitions, each naming the next."""
    count = 60_000
    lines = [f"D{i:05} {{D{i + 1:05}}}" for i in range(count - 1)] + [f"D{count - 1:05} a"]
    return "\n".join(order(lines)) + "\n%%\na ;\n"


def name(number):
    """A name of three letters and digits for each number below 190,000."""
    first, rest = divmod(number, 62 * 62)
    return LETTERS[first] + LETTERS[rest // 62] + LETTERS[rest % 62]


def great_cycle():
    """100,000 definitions, each naming the next, and the last the first."""
    count = 100_000
    lines = [f"{name(i)} {{{name((i + 1) % count)}}}" for i in range(count)]
    return "\n".join(lines) + "\n%%\na ;\n"


def cycles_and_ways():
    """100,000 definitions, each naming the next; each 1,000th names the one before it too. Those on no cycle stand first."""
    count = 100_000
    ways, cycles = [], []
    for i in range(count):
        then = f"{{{name(i + 1)}}}" if i + 1 < count else "a"
        if i % 1000 == 999:
            cycles.append(f"{name(i)} {then}{{{name(i - 1)}}}")
        else:
            (cycles if i % 1000 == 998 else ways).append(f"{name(i)} {then}")
    return "\n".join(ways + cycles) + "\n%%\na ;\n"


def names_before_itself():
    """A definition that names another 90,000 times before itself, and 55,000 definitions behind it in a row."""
    count = 55_000
    head = f"{name(0)} " + f"{{{name(1)}}}" * 90_000 + f"{{{name(0)}}}"
    lines = [f"{name(i)} {{{name(i + 1)}}}" for i in range(1, count)] + [f"{name(count)} a"]
    return "\n".join([head] + lines) + "\n%%\na ;\n"


def rules_beside_definitions():
    """2,048 rules, each with a name of one of 80,000 definitions."""
    count = 80_000
    lines = [f"{name(i)} {{{name(i + 1)}}}" if i % 4 < 3 else f"{name(i)} b" for i in range(count)]
    rules = [f"{{{name(i * 39)}}}{i} ;" for i in range(2048)]
    return "\n".join(lines) + "\n%%\n" + "\n".join(rules) + "\n"


def shuffled(lines):
    random.Random(1).shuffle(lines)
    return lines


ROWS = {
    "rules as people write them": "D [0-9]\n%%\n"
    + "".join(f'"word{i}" {{ count(); /* {"x" * 440} */ return(NUM); }}\n' for i in range(2000)),
    "300,000 open brackets": "%%\n" + "(" * 300_000 + "a" + ")" * 300_000 + " ;\n",
    "definitions that name the next": names_in_a_row(lambda lines: lines),
    "the same turned round": names_in_a_row(lambda lines: lines[::-1]),
    "the same shuffled": names_in_a_row(shuffled),
    "one great cycle of definitions": great_cycle(),
    "small cycles with long ways between them": cycles_and_ways(),
    "a definition that names itself last": names_before_itself(),
    "2,048 rules beside 80,000 definitions": rules_beside_definitions(),
    "2,047 bars": "%%\n" + "a |\n" * 2047 + "a return NUM;\n",
    "a million bytes of comment": filled("%%\na ; /*", "x", "*/\n"),
    "quote marks that aren't closed": filled("%%\na ", "\\'", "\n"),
    "named parts that aren't closed": filled("%%\n[", "[:", "\n"),
    "open braces": filled("%%\na ", "{", "\n"),
    "loose lines with quote marks": filled("%%\na ;\n", " '\"\n", ""),
    "returns with brackets": filled("%%\na return", "(", "\n"),
    "blocks": filled("%%\na ;\n", "%{\n%}\n", ""),
    "words of options": filled("%option", " warn", "\n%%\na ;\n"),
}


def main():
    path, bounds = program_of("lex", MAIN, LIBRARIES), Bounds()
    names = {f"{number}.l": title for number, title in enumerate(ROWS)}
    with tempfile.TemporaryDirectory() as folder:
        for name, title in names.items():
            with open(os.path.join(folder, name), "w") as file:
                file.write(ROWS[title])
        told, _, _ = ran(path, folder, list(names))
    rows = [line.split() for line in told.splitlines()]
    if [name for name, _, _ in rows] != list(names):
        raise SystemExit(f"{len(rows)} of {len(names)} files were read")
    for name, took, accepted in rows:
        answer = "accepted" if accepted == "true" else "refused"
        bounds.row(f"{names[name]}, {len(ROWS[names[name]])} bytes, {answer}", int(took), BOUND, "ms")
    bounds.end()


if __name__ == "__main__":
    main()
