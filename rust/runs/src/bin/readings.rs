//! The cases of document 01 and the readings, taken from the lists that `crates/rules/proofs`
//! proves: the library and the Rust must both give the text and the counts that stand there.
//!
//!     readings [FILE...]

use runs::call::{Call, Chosen};
use runs::compare::{Buffers, Check};
use runs::library::Linked;
use std::process::ExitCode;
use upstream::FormatOptions;

const LISTS: [&str; 3] = ["Examples.antt", "Readings.antt", "RulerExamples.antt"];

/// The string literal that starts after the first quote of `rest`, and what follows it.
fn literal(rest: &str) -> Option<(String, &str)> {
    let (_, rest) = rest.split_once('"')?;
    let mut text = String::new();
    let mut chars = rest.char_indices();
    while let Some((i, c)) = chars.next() {
        match c {
            '"' => return Some((text, &rest[i + 1..])),
            '\\' => match chars.next()?.1 {
                'n' => text.push('\n'),
                'r' => text.push('\r'),
                't' => text.push('\t'),
                'u' => {
                    let code: String = chars
                        .by_ref()
                        .map(|(_, c)| c)
                        .skip(1)
                        .take_while(|c| *c != '}')
                        .collect();
                    text.push(char::from_u32(u32::from_str_radix(&code, 16).ok()?)?);
                }
                c => text.push(c),
            },
            c => text.push(c),
        }
    }
    None
}

fn options_of(word: &str) -> Option<Chosen> {
    let mut options = FormatOptions::default();
    match word.split_once(' ') {
        None if word == "defaults" => {}
        None if word == "never" => return Some(Chosen::from(options).never()),
        None if word == "no_final_newline" => options.insert_final_newline = false,
        Some(("at_width", width)) => options.print_width = Some(width.parse().ok()?),
        Some(("ruled", rest)) => return ruled(rest),
        _ => return None,
    }
    Some(options.into())
}

/// A ruler, a print width and an indent.
fn ruled(words: &str) -> Option<Chosen> {
    let (ruler, rest) = words.split_once(' ')?;
    let (width, rest) = rest.split_once(' ')?;
    let options = FormatOptions {
        indent: literal(rest)?.0,
        print_width: Some(width.parse().ok()?),
        ..FormatOptions::default()
    };
    Some(Chosen {
        ruler: ruler.parse().ok()?,
        ..options.into()
    })
}

/// A line of a list: options, source, text, imports split, blank names.
fn case(line: &str) -> Option<(Chosen, String, String, usize, usize)> {
    let (_, rest) = line.split_once('(')?;
    let (word, rest) = rest.split_once(',')?;
    let options = options_of(word)?;
    let (source, rest) = literal(rest)?;
    let (text, rest) = literal(rest)?;
    let mut counts = rest.trim_end().trim_end_matches(')').split(',').skip(1);
    let imports = counts.next()?.trim().parse().ok()?;
    let blanks = counts.next()?.trim().parse().ok()?;
    Some((options, source, text, imports, blanks))
}

fn is_case(line: &str) -> bool {
    let line = line.trim_start().trim_start_matches('∷').trim_start();
    line.starts_with('(') && line.contains('"')
}

fn main() -> ExitCode {
    let folder = concat!(env!("CARGO_MANIFEST_DIR"), "/../../crates/rules/proofs/");
    let mut files: Vec<String> = std::env::args().skip(1).collect();
    if files.is_empty() {
        files = LISTS.iter().map(|f| format!("{folder}{f}")).collect();
    }
    let (mut run, mut wrong) = (0, 0);
    for file in files {
        let list = std::fs::read_to_string(&file).expect("a list of cases");
        for line in list.lines().filter(|l| is_case(l)) {
            let (options, source, text, imports, blanks) =
                case(line).unwrap_or_else(|| panic!("not a case: {line}"));
            let rust = options.format(&source);
            let stands = (rust.text.as_str(), rust.imports_split, rust.blank_names)
                == (text.as_str(), imports, blanks);
            let check = Check::Format(Call::chosen(source, &options));
            let differs = Buffers::default().check(&Linked, &check);
            if !stands || differs.is_some() {
                println!(
                    "{line}\n  the Rust {:?}\n  {}",
                    rust.text,
                    differs.unwrap_or_default()
                );
                wrong += 1;
            }
            run += 1;
        }
    }
    println!("{run} cases, {wrong} wrong");
    if wrong == 0 && run > 0 {
        ExitCode::SUCCESS
    } else {
        ExitCode::FAILURE
    }
}
