//! Inner functions beside the Rust's: `classify`, `normalize_spacing` and `scan_brackets`. They are
//! reached through the test wrappers of `src/wrappers.rs`.
//!
//!     parts [SOURCES]

#[path = "../wrappers.rs"]
mod wrappers;

use runs::random::Random;
use runs::{argument, grammar, sources};
use upstream::Carry;
use wrappers::Open;

fn classify(line: &str, open: Open) -> (Vec<u8>, Open) {
    let mut classes = vec![9; line.len()];
    let after = wrappers::classify(line.as_bytes(), open, &mut classes);
    (classes, after)
}

fn normalize_spacing(line: &str, classes: &[u8]) -> Vec<u8> {
    let mut scratch = classes.to_vec();
    scratch.resize(3 * line.len(), 0);
    let length = wrappers::normalize_spacing(line.as_bytes(), &mut scratch);
    scratch[line.len()..line.len() + length as usize].to_vec()
}

fn scan_brackets(line: &str, classes: &[u8], stack: &[bool]) -> Vec<bool> {
    let mut scratch = classes.to_vec();
    scratch.extend(stack.iter().flat_map(|adds| [u8::from(*adds), 0, 0]));
    scratch.resize(line.len() + 3 * (line.len() + stack.len()), 0);
    let depth = wrappers::scan_brackets(line.as_bytes(), &mut scratch, stack.len() as u64);
    scratch[line.len()..line.len() + 3 * depth as usize]
        .chunks_exact(3)
        .map(|entry| entry[0] != 0)
        .collect()
}

fn open_of(carry: Carry) -> Open {
    let (carry, depth) = match carry {
        Carry::Code => (0, 0),
        Carry::Block(depth) => (1, u64::from(depth)),
        Carry::Prefab => (2, 0),
    };
    Open { carry, depth }
}

/// The Rust's class of each character, for each of its bytes.
fn by_bytes(line: &str, classes: &[u8]) -> Vec<u8> {
    line.chars()
        .zip(classes)
        .flat_map(|(c, class)| std::iter::repeat_n(*class, c.len_utf8()))
        .collect()
}

/// Compares both functions on the lines of a source; gives how many there were.
fn compare(source: &str) -> u64 {
    let mut carry = Carry::Code;
    let mut stack = Vec::new();
    let mut lines = 0;
    for line in source.split('\n') {
        let (classes, after) = upstream::classify(line, carry);
        let rust = (by_bytes(line, &classes), open_of(after));
        let ours = classify(line, open_of(carry));
        assert_eq!(ours, rust, "classify of {line:?} after {carry:?}");
        if carry == Carry::Code {
            let respaced = normalize_spacing(line, &rust.0);
            let wanted = upstream::normalize_spacing(line, &classes);
            assert_eq!(respaced, wanted.as_bytes(), "normalize_spacing of {line:?}");
            if wrappers::is_spaced(line.as_bytes(), &rust.0) {
                assert_eq!(line, wanted, "is_spaced of {line:?}");
            }
        }
        let ours = scan_brackets(line, &rust.0, &stack);
        upstream::scan_brackets(line, &classes, 0, &mut stack);
        assert_eq!(ours, stack, "scan_brackets of {line:?}");
        carry = after;
        lines += 1;
    }
    lines
}

fn main() {
    let most = argument(1, 200_000);
    let mut lines = 0;
    for (_, alphabet) in sources::ALPHABETS {
        for length in 0..=4 {
            for number in 0..sources::count(alphabet, length).min(most) {
                lines += compare(&sources::nth(alphabet, length, number));
            }
        }
    }
    let mut random = Random::new(1);
    for _ in 0..most {
        let source = if random.one_in(2) {
            sources::short(&mut random)
        } else {
            grammar::source(&mut random, 300, 6)
        };
        lines += compare(&source);
    }
    println!("{lines} lines agree");
}
