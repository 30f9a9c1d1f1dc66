//! `wirescript_format_caret` beside a model written from the request: the answer, the text, and the
//! zeros and the bytes around the buffers.
//!
//!     caret [LETTERS] [SOURCES]
//!
//! Every source of at most LETTERS letters is asked for every place, and some past its lines and its
//! end; each of SOURCES random ones for some places.

use runs::call::{self, Call};
use runs::lent::Lent;
use runs::random::Random;
use runs::{argument, model, sources};
use upstream::FormatOptions;
use wirescript_format::raw::{self, CaretAnswer};

/// What matters to a caret: letters of one to four bytes, two UTF-16 units among them.
const ALPHABET: [&str; 12] = [
    "a", ",", " ", "\n", "\r", "\u{3000}", "\u{e9}", "😀", "{", "}", "import {", "\u{2028}",
];

fn counted(c: char) -> bool {
    !c.is_whitespace() && c != ','
}

/// How many characters stand before a place, if the source has it.
fn place(source: &str, line: u64, column: u64) -> Option<usize> {
    let mut before = 0;
    for (number, piece) in source.split('\n').enumerate() {
        if number as u64 == line {
            let shown = piece.strip_suffix('\r').unwrap_or(piece);
            return (column <= shown.chars().count() as u64).then(|| before + column as usize);
        }
        before += piece.chars().count() + 1;
    }
    None
}

/// The line and the column of the caret in the text.
fn caret(source: &str, text: &str, line: u64, column: u64) -> Option<(u64, u64)> {
    let at = place(source, line, column)?;
    let source: Vec<char> = source.chars().collect();
    let text: Vec<char> = text.chars().collect();
    let count = source[..at].iter().filter(|c| counted(**c)).count();
    // where each counted character of the text stands
    let letters: Vec<usize> = (0..text.len()).filter(|i| counted(text[*i])).collect();
    let to = if source.get(at).is_some_and(|c| counted(*c)) {
        letters[count]
    } else if count > 0 {
        letters[count - 1] + 1
    } else {
        0
    };
    let lines = text[..to].iter().filter(|c| **c == '\n').count();
    let columns = text[..to].iter().rev().take_while(|c| **c != '\n').count();
    Some((lines as u64, columns as u64))
}

/// What a call leaves by the request: the answer and the text.
fn must(
    call: &Call,
    found: &Result<upstream::Counted, (u64, u64)>,
    room: usize,
    (line, column): (u64, u64),
) -> (CaretAnswer, Vec<u8>) {
    let outcome = model::outcome(found, room);
    let refused = |refusal, place| CaretAnswer {
        refusal,
        place,
        ..CaretAnswer::default()
    };
    if outcome.answer.refusal > 0 {
        return (
            refused(outcome.answer.refusal, outcome.answer.place),
            Vec::new(),
        );
    }
    let source = std::str::from_utf8(&call.source).expect("accepted");
    let text = std::str::from_utf8(&outcome.text).expect("the Rust's text");
    match caret(source, text, line, column) {
        None => (refused(6, 0), Vec::new()),
        Some((line, column)) => (
            CaretAnswer {
                refusal: 0,
                place: 0,
                length: outcome.answer.length,
                imports_split: outcome.answer.imports_split,
                blank_names: outcome.answer.blank_names,
                line,
                column,
            },
            outcome.text,
        ),
    }
}

/// A call at each of some places.
fn check(call: &Call, places: &[(u64, u64)]) -> u64 {
    let found = model::text_of(call);
    let room = call.output.of(model::length(&found));
    let scratch = call.scratch_length();
    for &(line, column) in places {
        let (mut output, mut work) = (Lent::new(room), Lent::new(scratch));
        let answer = raw::format_caret(
            &call.source,
            call.choices(),
            line,
            column,
            output.lend(),
            work.lend(),
        );
        let (must, text) = must(call, &found, room, (line, column));
        let what = || {
            let source = String::from_utf8_lossy(&call.source);
            format!("{source:?} {:?} {line} {column}", call.choices())
        };
        assert_eq!(answer, must, "{}", what());
        assert!(output.holds(&text), "the output of {}", what());
        assert!(work.holds(&[]), "the scratch of {}", what());
    }
    places.len() as u64
}

/// Every place of a source, and some that aren't.
fn all_places(text: &str) -> Vec<(u64, u64)> {
    let mut places = Vec::new();
    let lines: Vec<&str> = text.split('\n').collect();
    for line in 0..=lines.len() {
        let columns = lines.get(line).map_or(0, |l| l.chars().count());
        places.extend((0..columns + 2).map(|column| (line as u64, column as u64)));
        places.push((line as u64, u64::MAX));
    }
    places.extend([(u64::MAX, 0), (u64::MAX, u64::MAX)]);
    places
}

fn main() {
    let mut checks = 0;
    for length in 0..=argument(1, 5) as u32 {
        for n in 0..sources::count(&ALPHABET, length) {
            let source = sources::nth(&ALPHABET, length, n);
            let places = all_places(&source);
            checks += check(&Call::new(source, &sources::moving(n)), &places);
        }
    }
    println!("{checks} places of short sources agree");
    let mut random = Random::new(11);
    let mut moved = 0;
    for n in 0..argument(2, 40_000) {
        let call = sources::longer(&mut random, n);
        let shown = String::from_utf8_lossy(&call.source);
        let all = all_places(&shown);
        let some: Vec<_> = (0..6).map(|_| all[random.below(all.len())]).collect();
        moved += check(&call, &some);
    }
    let needed = very_long();
    println!("{moved} places of longer sources agree; a text of {needed} bytes is refused");
}

/// 5 comes before 6, also where the text is very long. It gives the text's length.
fn very_long() -> u64 {
    let source = "{\n".repeat(1 << 19);
    let indent = [b'\t'; 8];
    let options = FormatOptions::default();
    let choices = raw::Choices {
        indent: &indent,
        ..call::choices_of(&options)
    };
    let mut scratch = vec![0; call::scratch_needed(source.as_bytes())];
    let (line, column) = (u64::MAX, u64::MAX);
    let answer = raw::format_caret(
        source.as_bytes(),
        choices,
        line,
        column,
        &mut [0; 16],
        &mut scratch,
    );
    assert_eq!(answer.refusal, 5, "{answer:?}");
    // line k of 2^19 has k levels of 8 bytes, a brace and LF
    assert_eq!(answer.place, 8 * (1 << 18) * ((1 << 19) - 1) + (1 << 20));
    answer.place
}
