//! The open brackets that `wirescript_format` lists beside a model: the lines that the Rust's own
//! formatter leaves open, for every length of the list around their count.
//!
//!     opened [SOURCES]
//!
//! Each source is formatted with lists of every length up to two more than there are open brackets
//! (of a source with many, of the lengths around their count), and refused in four ways. The text is
//! the Rust's whatever the list, and the words beside the list stay as they were.

use runs::call::Chosen;
use runs::random::Random;
use runs::{argument, grammar, sources};
use upstream::{Counted, FormatOptions};
use wirescript_format::Options;
use wirescript_format::raw::{self, Answer, Choices};

const GUARD: u64 = 0xc5c5_c5c5_c5c5_c5c5;

/// What matters to open brackets.
const ALPHABET: [&str; 12] = [
    "(", ")", "{", "]", "\n", "\\", "\"", "//", "/*", "*/", "a ,", "else",
];

/// Further pieces of random sources.
const PIECES: [&str; 12] = [
    "[",
    "}",
    "(",
    "\r\n",
    "\n",
    "${",
    "$```",
    "```",
    "// fmt-ignore\n",
    "\u{e9}",
    "\n\n",
    "if a {",
];

/// One call with a list of `room` lines: what it answers, and the list, whose guards are checked.
fn call(
    source: &[u8],
    s: Choices,
    output: &mut [u8],
    room: usize,
    scratch: usize,
) -> (Answer, Vec<u64>) {
    let mut list = vec![GUARD; room + 4];
    list[2..room + 2].fill(7);
    let mut work = vec![0x5a; scratch];
    let answer = raw::format(source, s, output, &mut list[2..room + 2], &mut work);
    assert!(work.iter().all(|b| *b == 0), "{source:?}");
    let beside = [list[0], list[1], list[room + 2], list[room + 3]];
    assert_eq!(beside, [GUARD; 4], "{source:?} {room}");
    (answer, list[2..room + 2].to_vec())
}

fn needed(source: &[u8]) -> usize {
    12 * source.len() + 256
}

/// An accepted call: the text is the Rust's, the list has the oldest that fit and then zeros, and
/// the count is of all.
fn accepted(source: &[u8], counted: &Counted, room: usize) {
    let mut output = vec![0x5a; counted.text.len()];
    let options = Options::new();
    let (answer, list) = call(source, options.choices(), &mut output, room, needed(source));
    let mut must = counted.open_lines.clone();
    must.resize(room, 0);
    let shown = String::from_utf8_lossy(source);
    assert_eq!(list, must, "{shown:?} {room}");
    assert_eq!(answer.refusal, 0, "{shown:?} {room}");
    assert_eq!(
        answer.open_brackets,
        counted.open_lines.len() as u64,
        "{shown:?} {room}"
    );
    assert_eq!(output, counted.text.as_bytes(), "{shown:?} {room}");
}

/// A refused call: number and place, count 0, and a list of zeros.
fn refused(source: &[u8], s: Choices, output: usize, scratch: usize, must: (u64, usize)) {
    let mut output = vec![0x5a; output];
    let (answer, list) = call(source, s, &mut output, 5, scratch);
    let wanted = Answer {
        refusal: must.0,
        place: must.1 as u64,
        ..Answer::default()
    };
    assert_eq!(answer, wanted, "{:?}", String::from_utf8_lossy(source));
    assert_eq!(list, [0; 5]);
}

/// Gives how many calls there were.
fn check(text: &str) -> u64 {
    let source = text.as_bytes();
    let counted = Chosen::from(FormatOptions::default()).format(text);
    let count = counted.open_lines.len();
    let from = if count < 8 { 0 } else { count - 3 };
    for room in from..=count + 2 {
        accepted(source, &counted, room);
    }
    let length = counted.text.len();
    let options = Options::new();
    let defaults = options.choices();
    refused(source, defaults, length - 1, needed(source), (5, length));
    let sum = needed(source);
    refused(source, defaults, length, sum - 1, (3, sum));
    let bad = Choices {
        line_ending: 3,
        ..defaults
    };
    refused(source, bad, length, sum, (2, 0));
    let mut broken = source.to_vec();
    broken.push(0xff);
    let at = source.len();
    refused(&broken, defaults, length, needed(&broken), (4, at));
    (count + 3 - from + 4) as u64
}

fn random_source(random: &mut Random) -> String {
    let pieces = 1 + random.below(60);
    (0..pieces)
        .map(|_| {
            if random.below(2) == 0 {
                ALPHABET[random.below(ALPHABET.len())]
            } else {
                PIECES[random.below(PIECES.len())]
            }
        })
        .collect()
}

fn main() {
    let count = argument(1, 100_000);
    let mut random = Random::new(20);
    let mut calls = 0;
    for length in 0..=5 {
        for n in 0..sources::count(&ALPHABET, length) {
            calls += check(&sources::nth(&ALPHABET, length, n));
        }
    }
    for _ in 0..count {
        calls += check(&random_source(&mut random));
        let size = 1 + random.below(400);
        calls += check(&grammar::source(&mut random, size, 8));
    }
    // lines far apart: numbers of one, two and three bytes
    for lines in [0, 1, 127, 128, 255, 256, 65_535, 65_536, 131_072, 1_000_000] {
        let text = "(".to_owned() + &"\n".repeat(lines) + "[\n{";
        calls += check(&text);
    }
    let long = vec![b'('; (1 << 20) + 1];
    refused(
        &long,
        Options::new().choices(),
        0,
        needed(&long),
        (1, 1 << 20),
    );
    println!("{} calls agree", calls + 1);
}
