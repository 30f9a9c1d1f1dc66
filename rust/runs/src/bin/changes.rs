//! `wirescript_format_changes` beside a model written from the request: the answer, the text, the
//! list, and the zeros and the elements around the buffers; and the list carried out on the source.
//!
//!     changes [LETTERS] [SOURCES]
//!
//! Every source of at most LETTERS letters, and SOURCES random ones, each with lists around the
//! length that is needed.

use runs::call::Call;
use runs::lent::Lent;
use runs::random::Random;
use runs::{argument, model, sources};
use std::ops::Range;
use wirescript_format::raw::{self, ChangesAnswer};

/// What matters to a gap: white space of one to three bytes, both endings, commas, imports.
const ALPHABET: [&str; 12] = [
    "a", ",", " ", "\n", "\r\n", "\t", "\u{3000}", "\u{a0}", "\u{e9}", "{", "}", "import {",
];

/// The gaps of a text, in bytes: before each character that is neither white space nor comma, and
/// behind the last.
fn gaps(text: &str) -> Vec<Range<usize>> {
    let mut gaps = Vec::new();
    let mut start = 0;
    for (at, c) in text.char_indices() {
        if !c.is_whitespace() && c != ',' {
            gaps.push(start..at);
            start = at + c.len_utf8();
        }
    }
    gaps.push(start..text.len());
    gaps
}

/// The changes as numbers.
fn changes(source: &str, text: &str) -> Vec<u64> {
    let (from, to) = (gaps(source), gaps(text));
    assert_eq!(from.len(), to.len(), "the Rust keeps the letters");
    from.into_iter()
        .zip(to)
        .filter(|(f, t)| source[f.clone()] != text[t.clone()])
        .flat_map(|(f, t)| [f.start, f.len(), t.start, t.len()].map(|n| n as u64))
        .collect()
}

/// The list carried out on the source's bytes. It must ascend without overlap.
fn carried_out(source: &[u8], text: &[u8], list: &[u64]) -> Vec<u8> {
    let mut result = Vec::new();
    let mut at = 0;
    for entry in list.chunks_exact(4) {
        let [start, removed, from, put] = [0, 1, 2, 3].map(|field| entry[field] as usize);
        result.extend_from_slice(&source[at..start]);
        result.extend_from_slice(&text[from..from + put]);
        at = start + removed;
    }
    result.extend_from_slice(&source[at..]);
    result
}

/// What a call leaves by the request: the answer, the text and the list's front.
fn must(
    call: &Call,
    found: &Result<upstream::Counted, (u64, u64)>,
    room: usize,
    numbers: usize,
) -> (ChangesAnswer, Vec<u8>, Vec<u64>) {
    let outcome = model::outcome(found, room);
    let refused = |refusal, place| {
        let answer = ChangesAnswer {
            refusal,
            place,
            ..ChangesAnswer::default()
        };
        (answer, Vec::new(), Vec::new())
    };
    if outcome.answer.refusal > 0 {
        return refused(outcome.answer.refusal, outcome.answer.place);
    }
    let source = std::str::from_utf8(&call.source).expect("accepted");
    let text = std::str::from_utf8(&outcome.text).expect("the Rust's text");
    let list = changes(source, text);
    let count = list.len() / 4;
    if numbers / 4 < count {
        return refused(16, count as u64);
    }
    let answer = ChangesAnswer {
        refusal: 0,
        place: 0,
        length: outcome.answer.length,
        imports_split: outcome.answer.imports_split,
        blank_names: outcome.answer.blank_names,
        changes: count as u64,
    };
    (answer, outcome.text, list)
}

/// A call with lists around the length that is needed.
fn check(call: &Call) -> u64 {
    let found = model::text_of(call);
    let room = call.output.of(model::length(&found));
    let scratch = call.scratch_length();
    let whole = must(call, &found, room, usize::MAX).2.len();
    let lengths = [
        0,
        whole.saturating_sub(4),
        whole.saturating_sub(1),
        whole,
        whole + 3,
        whole + 4,
    ];
    for numbers in lengths {
        let (mut output, mut work) = (Lent::new(room), Lent::new(scratch));
        let mut list = Lent::new(numbers);
        let answer = raw::format_changes(
            &call.source,
            call.choices(),
            output.lend(),
            list.lend(),
            work.lend(),
        );
        let (must, text, entries) = must(call, &found, room, numbers);
        let what = || {
            let source = String::from_utf8_lossy(&call.source);
            format!("{source:?} {:?} {numbers}", call.choices())
        };
        assert_eq!(answer, must, "{}", what());
        assert!(output.holds(&text), "the output of {}", what());
        assert!(list.holds(&entries), "the list of {}", what());
        assert!(work.holds(&[]), "the scratch of {}", what());
        if answer.refusal == 0 {
            let given = &list.lend()[..4 * answer.changes as usize];
            assert_eq!(
                carried_out(&call.source, &text, given),
                text,
                "carried out: {}",
                what()
            );
            assert!(call.source != text || given.is_empty(), "{}", what());
        }
    }
    lengths.len() as u64
}

fn main() {
    let mut checks = 0;
    for length in 0..=argument(1, 5) as u32 {
        for n in 0..sources::count(&ALPHABET, length) {
            let source = sources::nth(&ALPHABET, length, n);
            checks += check(&Call::new(source, &sources::moving(n)));
        }
    }
    println!("{checks} lists of short sources agree");
    let mut random = Random::new(24);
    let mut more = 0;
    for n in 0..argument(2, 40_000) {
        more += check(&sources::longer(&mut random, n));
    }
    println!("{more} lists of longer sources agree");
}
