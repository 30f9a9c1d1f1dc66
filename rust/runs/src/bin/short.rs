//! What the program `short_sources` prints, beside the Rust: every source over the twelve characters,
//! shorter ones first, then in the order of the characters.
//!
//!     short_sources | short [GREATEST]
//!     short --expected GREATEST
//!
//! The first form compares standard input with the Rust's texts, source by source; the sources have
//! at most GREATEST characters, 6 if it isn't given. The first difference is printed, with status 1.
//! The second form prints what the program must print, with the Rust's texts:
//! `crates/short_sources/stdout`.

use runs::sources::TWELVE;
use std::io::{self, BufReader, BufWriter, Read, Write};
use std::process::ExitCode;
use upstream::{FormatOptions, format_with};

/// Calls `f` with `text` and `left` more characters, each such text in order, until it gives false.
fn each(
    text: &mut String,
    left: usize,
    f: &mut impl FnMut(&str) -> io::Result<bool>,
) -> io::Result<bool> {
    if left == 0 {
        return f(text);
    }
    for letter in TWELVE {
        let before = text.len();
        text.push_str(letter);
        let more = each(text, left - 1, f)?;
        text.truncate(before);
        if !more {
            return Ok(false);
        }
    }
    Ok(true)
}

/// Calls `f` with each text of at most `greatest` characters, in order, until it gives false.
fn every(greatest: usize, f: &mut impl FnMut(&str) -> io::Result<bool>) -> io::Result<bool> {
    for length in 0..=greatest {
        if !each(&mut String::new(), length, f)? {
            return Ok(false);
        }
    }
    Ok(true)
}

/// The text's length in bytes, LF and the text.
fn printed(source: &str, options: &FormatOptions) -> String {
    let text = format_with(source, options);
    format!("{}\n{text}", text.len())
}

fn expect(greatest: usize, out: &mut impl Write) -> io::Result<()> {
    let options = FormatOptions::default();
    every(greatest, &mut |source| {
        out.write_all(printed(source, &options).as_bytes())?;
        Ok(true)
    })?;
    out.flush()
}

/// Whether `input` is what must be printed; says so.
fn compare(greatest: usize, input: &mut impl Read) -> io::Result<bool> {
    let options = FormatOptions::default();
    let mut number = 0;
    let agree = every(greatest, &mut |source| {
        let wanted = printed(source, &options);
        let mut found = Vec::new();
        input.take(wanted.len() as u64).read_to_end(&mut found)?;
        if found == wanted.as_bytes() {
            number += 1;
            return Ok(true);
        }
        println!("source {number}, {source:?}, differs");
        println!("  the Rust:      {wanted:?}");
        println!("  short_sources: {:?}", String::from_utf8_lossy(&found));
        Ok(false)
    })?;
    if !agree {
        return Ok(false);
    }
    if input.read(&mut [0])? != 0 {
        println!("more is printed after the last source");
        return Ok(false);
    }
    println!("short_sources: {number} sources of at most {greatest} characters, all as the Rust's");
    Ok(true)
}

fn main() -> io::Result<ExitCode> {
    let words: Vec<String> = std::env::args().skip(1).collect();
    let words: Vec<&str> = words.iter().map(String::as_str).collect();
    let (expected, digit) = match words[..] {
        [] => (false, "6"),
        [digit] => (false, digit),
        ["--expected", digit] => (true, digit),
        _ => (false, ""),
    };
    let Ok(greatest @ 0..=6) = digit.parse::<usize>() else {
        eprintln!(
            "short [GREATEST], or short --expected GREATEST; GREATEST is a digit from 0 to 6"
        );
        return Ok(ExitCode::from(2));
    };
    if expected {
        expect(greatest, &mut BufWriter::new(io::stdout().lock()))?;
    } else if !compare(greatest, &mut BufReader::new(io::stdin().lock()))? {
        return Ok(ExitCode::FAILURE);
    }
    Ok(ExitCode::SUCCESS)
}
