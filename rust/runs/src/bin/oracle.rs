//! Sources with the Rust's answers, as `crates/replay` reads them.
//!
//!     oracle SEED COUNT
//!
//! A case is a line of seven decimal numbers: the lengths of source, indent and answer, then
//! `width_set`, `width`, `line_ending` and `final_newline`. After it stand the source, the
//! indent, the answer and LF. `list.sh` puts a header before the cases.

use runs::call::Call;
use runs::compare::Check;
use runs::stages::{self, Stage};
use std::collections::HashSet;
use std::io::{self, Write};

/// Longer sources and answers are not stored.
const LONGEST_SOURCE: usize = 1000;
const LONGEST_ANSWER: usize = 4000;

/// A case, if the Rust has an answer to it and both are short enough.
fn case(call: &Call) -> Option<Vec<u8>> {
    let options = call.options().filter(|o| !o.never)?.rust;
    let source = str::from_utf8(&call.source).ok()?;
    if source.len() > LONGEST_SOURCE || upstream::format_blocks(source, &options).any {
        return None;
    }
    let answer = upstream::format_with(source, &options);
    if answer.len() > LONGEST_ANSWER {
        return None;
    }
    let numbers = [
        call.source.len() as u64,
        call.indent.len() as u64,
        answer.len() as u64,
        call.width_set,
        call.width,
        call.line_ending,
        call.final_newline,
    ];
    // the program reads numbers of up to eight digits
    if numbers.iter().any(|n| *n >= 100_000_000) {
        return None;
    }
    let line = numbers.map(|n| n.to_string()).join(" ");
    Some(
        [
            line.as_bytes(),
            b"\n",
            &call.source,
            &call.indent,
            answer.as_bytes(),
            b"\n",
        ]
        .concat(),
    )
}

/// The stages that a case is taken from.
fn has_cases(name: &str) -> bool {
    name != stages::LONG
        && ![&stages::BLOCKS[..], &stages::RULED, &stages::TABLED]
            .concat()
            .contains(&name)
}

/// How many cases of a stage stand in a row: the random stages have more.
fn share(stage: &Stage) -> u64 {
    if stage.count.is_some() { 1 } else { 6 }
}

/// The first `count` cases that differ from each other, some of every stage that formats.
fn cases(seed: u64, count: usize, out: &mut impl Write) -> io::Result<()> {
    let stages = stages::all(seed);
    let mut seen = HashSet::new();
    for round in 0.. {
        for stage in stages.iter().filter(|stage| has_cases(&stage.name)) {
            for number in share(stage) * round..share(stage) * (round + 1) {
                if seen.len() == count {
                    return Ok(());
                }
                if stage.count.is_some_and(|n| number >= n) {
                    continue;
                }
                let Check::Format(call) = stage.beside_rust(number) else {
                    continue;
                };
                let Some(case) = case(&call) else {
                    continue;
                };
                if seen.insert(case.clone()) {
                    out.write_all(&case)?;
                }
            }
        }
    }
    Ok(())
}

fn main() -> io::Result<()> {
    let numbers: Vec<u64> = std::env::args().skip(1).flat_map(|n| n.parse()).collect();
    let [seed, count] = numbers[..] else {
        eprintln!("oracle SEED COUNT");
        std::process::exit(2);
    };
    cases(
        seed,
        count as usize,
        &mut io::BufWriter::new(io::stdout().lock()),
    )
}
