//! Calls beside the one that each is measured against, on tidy sources of the grammar.

use super::best;
use super::inputs::written;
use super::table::told;
use std::hint::black_box;
use wirescript_format::{Formatter, Options};

pub const HEAD: &str = "\
| call | source | time | beside | its time | quotient | target | met |
|---|--:|--:|---|--:|--:|--:|--:|";

/// How many places `text_kinds` is asked for.
pub const PLACES: usize = 5000;

/// Times in seconds, of a call and of the one beside it; `most` is what their quotient may be.
struct Compared {
    call: &'static str,
    source: usize,
    time: f64,
    beside: &'static str,
    base: f64,
    most: Option<f64>,
}

impl Compared {
    fn print(&self) {
        let quotient = self.time / self.base;
        println!(
            "| {} | {} | {:.3} ms | {} | {:.3} ms | {quotient:.3} | {} | {} |",
            self.call,
            self.source,
            self.time * 1e3,
            self.beside,
            self.base * 1e3,
            self.most.map_or(String::new(), |most| most.to_string()),
            self.most.map_or("", |most| told(Some(quotient <= most))),
        );
    }
}

/// Places of a source, in order.
pub fn places(source: &str) -> Vec<(u64, u64)> {
    let lines = source.lines().count();
    let place = |k: usize| (k * lines / PLACES, k * lines % PLACES * 40 / PLACES);
    (0..PLACES)
        .map(place)
        .map(|(line, column)| (line as u64, column as u64))
        .collect()
}

/// The time of formatting.
fn format(source: &str, formatter: &mut Formatter) -> f64 {
    let options = Options::new();
    best(|| {
        black_box(formatter.format(black_box(source), &options)).expect("accepted");
    })
}

/// The time with a caret at the source's end.
pub fn caret(source: &str, formatter: &mut Formatter) -> f64 {
    let options = Options::new();
    let line = source.split('\n').count() as u64 - 1;
    best(|| {
        let moved = formatter.format_with_caret(black_box(source), &options, line, 0);
        black_box(moved).expect("accepted");
    })
}

/// The time of finding the changes.
pub fn changes(source: &str, formatter: &mut Formatter) -> f64 {
    let options = Options::new();
    best(|| {
        let found = formatter.format_changes(black_box(source), &options);
        black_box(found).expect("accepted");
    })
}

/// The time of one place's text kind.
pub fn kind(source: &str, (line, column): (u64, u64), formatter: &mut Formatter) -> f64 {
    best(|| {
        let found = formatter.text_kind_at(black_box(source), line, column);
        black_box(found).expect("accepted");
    })
}

/// The time of the text kinds of many places.
pub fn kinds(source: &str, places: &[(u64, u64)], formatter: &mut Formatter) -> f64 {
    best(|| {
        let found = formatter.text_kinds(black_box(source), places.iter().copied());
        black_box(found).expect("accepted");
    })
}

/// The calls at one size. Their buffers have that size too: a list of changes is cleared whole.
pub fn rows(size: usize) {
    let source = written(size, 0);
    let formatter = &mut Formatter::new();
    let base = format(&source, formatter);
    let beside_format = |call, time| Compared {
        call,
        source: source.len(),
        time,
        beside: "`format`",
        base,
        most: Some(1.5),
    };
    beside_format("`format_with_caret`", caret(&source, formatter)).print();
    beside_format("`format_changes`", changes(&source, formatter)).print();
    let places = places(&source);
    Compared {
        call: "`text_kinds`, 5,000 places",
        source: source.len(),
        time: kinds(&source, &places, formatter),
        beside: "`text_kind_at` at the last",
        base: kind(&source, places[PLACES - 1], formatter),
        most: Some(1.3),
    }
    .print();
    check::rows(size, formatter);
}

/// `is_formatted` beside `format`, each in a formatter that keeps its buffers.
mod check {
    use super::{Compared, best, black_box, written};
    use wirescript_format::{Formatter, LineEnding, Options, format};

    const WRONG: &str = "f(a ,b)\n";

    /// With a fixed ending, without which the call is refused.
    fn options() -> Options {
        Options::new().line_ending(LineEnding::Lf)
    }

    /// A source that formatting leaves as it is, with room for a line before it.
    fn formatted(size: usize) -> String {
        let options = options();
        let mut source = written(size, 0);
        // a text may be longer than its source, and once is not always enough
        for _ in 0..10 {
            let mut text = format(&source, &options).expect("accepted").text;
            let room = &text.as_bytes()[..text.len().min(size - WRONG.len())];
            let end = room.iter().rposition(|&byte| byte == b'\n');
            text.truncate(end.map_or(0, |end| end + 1));
            if text == source {
                return source;
            }
            source = text;
        }
        panic!("formatting ten times doesn't come to rest");
    }

    fn checking(source: &str, expected: bool, formatter: &mut Formatter) -> f64 {
        let options = options();
        assert_eq!(formatter.is_formatted(source, &options), Ok(expected));
        best(|| {
            black_box(formatter.is_formatted(black_box(source), &options)).expect("accepted");
        })
    }

    /// The time of clearing a scratch, as the call does.
    fn clearing(source: &str) -> f64 {
        let mut scratch = vec![0_u8; 12 * source.len() + 256];
        best(|| {
            black_box(&mut scratch).fill(0);
        })
    }

    pub fn rows(size: usize, formatter: &mut Formatter) {
        let source = formatted(size);
        let options = options();
        let base = best(|| {
            let formatted = formatter.format(black_box(&source), &options);
            black_box(formatted.expect("accepted").text.len());
        });
        let row = |call, time, most| Compared {
            call,
            source: source.len(),
            time,
            beside: "`format`",
            base,
            most,
        };
        row(
            "`is_formatted`, yes",
            checking(&source, true, formatter),
            Some(1.0),
        )
        .print();
        let wrong = format!("{WRONG}{source}");
        let (whole, apart) = (checking(&wrong, false, formatter), clearing(&wrong));
        row("`is_formatted`, first line wrong", whole, None).print();
        row("clearing the scratch alone", apart, None).print();
        // below zero where what is left is less than the times vary
        row(
            "first line wrong, clearing apart",
            whole - apart,
            Some(0.01),
        )
        .print();
    }
}
