//! What an editor does to colour a file: asks for the text kind of every character in one call.
//!
//!     colours FILE
//!
//! Prints the file with strings in green and comments in grey, by the colours of a terminal.

use std::error::Error;

use wirescript_format::{TextKind, text_kinds};

fn colour(kind: TextKind) -> &'static str {
    match kind {
        TextKind::Code => "\x1b[0m",
        TextKind::Str => "\x1b[32m",
        TextKind::Comment => "\x1b[90m",
    }
}

/// Line and column of each character; a line's ending has none.
fn places(source: &str) -> Vec<(u64, u64)> {
    let columns = |(line, text): (u64, &str)| -> Vec<(u64, u64)> {
        (0..)
            .zip(text.chars())
            .map(|(column, _)| (line, column))
            .collect()
    };
    (0..).zip(source.lines()).flat_map(columns).collect()
}

fn main() -> Result<(), Box<dyn Error>> {
    let file = std::env::args().nth(1).ok_or("usage: colours FILE")?;
    let source = std::fs::read_to_string(file)?;
    let mut kinds = text_kinds(&source, &places(&source))?.into_iter();
    for line in source.lines() {
        let mut shown = String::new();
        let mut last = TextKind::Code;
        for (character, kind) in line.chars().zip(kinds.by_ref()) {
            if kind != last {
                shown.push_str(colour(kind));
            }
            shown.push(character);
            last = kind;
        }
        if last != TextKind::Code {
            shown.push_str(colour(TextKind::Code));
        }
        println!("{shown}");
    }
    Ok(())
}
