//! Times `classify`, spacing and `scan_brackets` beside the Rust's, on a mebibyte of each
//! text: nanoseconds a byte, the least of 40 runs. The lines are trimmed, as the line step
//! hands them on. The Rust's are decoded and, but for `classify`, classified before its time
//! is taken. `parts` compares the answers.

#[path = "../wrappers.rs"]
mod wrappers;

use runs::texts;
use std::hint::black_box;
use std::time::Instant;
use upstream::Prepared;
use wrappers::{Open, classify, is_spaced, normalize_spacing, scan_brackets};

/// A line's bytes, and a buffer of its own whose front holds its class bytes.
struct Line<'a> {
    bytes: &'a [u8],
    scratch: Vec<u8>,
}

fn space(line: &mut Line) -> u64 {
    if is_spaced(line.bytes, &line.scratch) {
        return line.bytes.len() as u64;
    }
    normalize_spacing(line.bytes, &mut line.scratch)
}

fn brackets(line: &mut Line) -> u64 {
    scan_brackets(line.bytes, &mut line.scratch, 0)
}

fn least(bytes: usize, mut run: impl FnMut() -> u64) -> f64 {
    let mut best = f64::MAX;
    for _ in 0..40 {
        let start = Instant::now();
        black_box(run());
        best = best.min(start.elapsed().as_secs_f64());
    }
    best * 1e9 / bytes as f64
}

const CODE: Open = Open { carry: 0, depth: 0 };

fn main() {
    println!("| text | classify: Rust | ours | spacing: Rust | ours | brackets: Rust | ours |");
    println!("|---|---|---|---|---|---|---|");
    for (name, text) in texts::texts() {
        let trimmed: Vec<&str> = text.split('\n').map(str::trim).collect();
        let n = text.len();
        let prepared: Vec<Prepared> = trimmed.iter().map(|l| Prepared::new(l)).collect();
        let mut lines: Vec<Line> = trimmed
            .iter()
            .map(|l| {
                let mut scratch = vec![0; 3 * l.len() + 1];
                classify(l.as_bytes(), CODE, &mut scratch);
                Line {
                    bytes: l.as_bytes(),
                    scratch,
                }
            })
            .collect();
        let mut room = vec![0; n];
        let mut stack = Vec::new();
        let times = [
            least(n, || Prepared::classify_all(&prepared) as u64),
            least(n, || {
                let all = lines.iter();
                all.fold(CODE, |open, l| classify(l.bytes, open, &mut room))
                    .carry
            }),
            least(n, || {
                let all = prepared.iter();
                all.map(|l| l.normalize_spacing().len() as u64).sum()
            }),
            least(n, || lines.iter_mut().map(space).sum()),
            least(n, || {
                let mut depth = 0;
                for line in &prepared {
                    stack.clear();
                    line.scan_brackets(&mut stack);
                    depth += stack.len() as u64;
                }
                depth
            }),
            least(n, || lines.iter_mut().map(brackets).sum()),
        ];
        let cells: Vec<String> = times.iter().map(|t| format!("{t:.2}")).collect();
        println!("| {name} | {} |", cells.join(" | "));
    }
}
