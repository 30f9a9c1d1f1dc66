//! The benchmark: the proved library, through the crate that a host uses, and the Rust,
//! on the same inputs in one run. Prints a markdown table, with the targets and whether they are met.
//!
//!     bench [--only NAME] [--small] [--svg FILE]
//!     bench --names | --once NAME
//!
//! `--only` takes a part of an input's name, `edits`, or `calls`: the calls that have another of the library's as
//! their measure, in a table of their own (`is_formatted` with the feature `check`). `--svg` writes a plot of the
//! speeds on the inputs at 256 KiB, or with `--small` at 64 KiB. `--names` prints the inputs' names, and `--once` has
//! the library format one of them at 64 KiB, once: `counts.sh` and `where.sh` count the instructions of that call.
//!
//! Times are the best of several runs. The formatter's buffers are kept between runs, and
//! each call clears them itself. A run of the Rust that may take over a few seconds, judged
//! by the size before it, is left out. Texts are compared with the Rust's, or where a marker protects blocks (C-15)
//! with those of its loop that keeps them; on such an input the two sides write different texts, and the table is
//! followed by its name.

use runs::bench::best;
use runs::bench::calls;
use runs::bench::inputs::{INPUTS, Input, written};
use runs::bench::plot::{self, Pair};
use runs::bench::table::{LARGE, MIDDLE, Row, Table, least};
use std::fs::File;
use std::hint::black_box;
use std::io::Write;
use upstream::{FormatOptions, format_blocks, format_with, text_kind_at};
use wirescript_format::{Formatter, Options};

/// The smallest size of an input.
const SMALL: usize = 64 << 10;

/// Seconds that one run of the Rust may take.
const MOST: f64 = 4.0;

/// The text where a marker protects a block (C-15), which the Rust doesn't do.
fn with_blocks(source: &str, theirs: &FormatOptions) -> Option<String> {
    let marked = source.contains("fmt-ignore");
    let blocks = marked.then(|| format_blocks(source, theirs));
    Some(blocks.filter(|blocks| blocks.any)?.counted.text)
}

/// Formatting one input at each size. Texts are compared with the Rust's.
fn format_rows(input: &Input, sizes: &[usize], formatter: &mut Formatter, table: &mut Table) {
    let mut last = 0.0;
    for &size in sizes {
        let source = input.source(size);
        let (options, theirs) = (input.options(size), input.theirs(size));
        // four times the source may take sixteen times as long
        let runs = last * 16.0 < MOST;
        let rust = runs.then(|| best(|| drop(black_box(format_with(black_box(&source), &theirs)))));
        let ours = best(|| {
            black_box(formatter.format(black_box(&source), &options)).expect("accepted");
        });
        let text = formatter.format(&source, &options).expect("accepted").text;
        if runs {
            let blocks = with_blocks(&source, &theirs);
            let expected = blocks.unwrap_or_else(|| format_with(&source, &theirs));
            assert!(text == expected, "{}", input.name);
        }
        table.add(Row {
            name: input.name,
            size,
            source: source.len(),
            text: text.len(),
            rust,
            ours,
            least: Some(least(input.name)),
        });
        last = rust.unwrap_or(MOST);
    }
}

/// A row of text kinds, which have no text.
fn kind_row(name: &'static str, size: usize, source: &str, rust: f64, ours: f64) -> Row {
    Row {
        name,
        size,
        source: source.len(),
        text: 0,
        rust: Some(rust),
        ours,
        least: Some(least(name)),
    }
}

/// The text kind at the source's end.
fn kind_rows(sizes: &[usize], formatter: &mut Formatter, table: &mut Table) {
    for &size in sizes {
        let source = written(size, 0);
        let line = source.lines().count() - 1;
        let rust = best(|| {
            black_box(text_kind_at(black_box(&source), line, 0));
        });
        let ours = calls::kind(&source, (line as u64, 0), formatter);
        table.add(kind_row("text kind at the end", size, &source, rust, ours));
    }
}

/// 5,000 places of a source of 1 MiB: the library's list beside single calls of both sides. Of the
/// single calls every hundredth is made.
fn list_rows(formatter: &mut Formatter, table: &mut Table) {
    let source = written(LARGE, 0);
    let places = calls::places(&source);
    let some: Vec<(u64, u64)> = places.iter().copied().step_by(100).collect();
    let rust = 100.0
        * best(|| {
            for &(line, column) in &some {
                black_box(text_kind_at(
                    black_box(&source),
                    line as usize,
                    column as usize,
                ));
            }
        });
    let single = 100.0
        * best(|| {
            for &(line, column) in &some {
                black_box(formatter.text_kind_at(&source, line, column)).expect("accepted");
            }
        });
    let list = calls::kinds(&source, &places, formatter);
    let row = |name, ours| kind_row(name, LARGE, &source, rust, ours);
    table.add(row("5,000 places, a call each", single));
    table.add(row("5,000 places, one list", list));
}

/// What an editor asks beside the text: the caret at the source's end, and the changes.
fn edit_rows(sizes: &[usize], formatter: &mut Formatter, table: &mut Table) {
    for &size in sizes {
        let source = written(size, 0);
        let caret = calls::caret(&source, formatter);
        let changes = calls::changes(&source, formatter);
        let formatted = formatter.format(&source, &Options::new());
        let text = formatted.expect("accepted").text.len();
        let row = |name, ours| Row {
            name,
            size,
            source: source.len(),
            text,
            rust: None,
            ours,
            least: None,
        };
        table.add(row("grammar, tidy, with a caret", caret));
        table.add(row("grammar, tidy, as changes", changes));
    }
}

/// The library alone, once.
fn once(name: &str) {
    let input = INPUTS.iter().find(|input| input.name == name);
    let input = input.unwrap_or_else(|| panic!("no input is called {name}"));
    let source = input.source(SMALL);
    let options = input.options(SMALL);
    let mut formatter = Formatter::new();
    black_box(formatter.format(&source, &options)).expect("accepted");
}

/// Writes the plot of the inputs at one size.
fn plot(rows: &[Row], size: usize, mut file: File) {
    let pair = |row: &Row| Pair {
        name: row.name,
        rust: row.rust.map(|time| row.speed(time)),
        ours: row.speed(row.ours),
    };
    let pairs: Vec<Pair> = rows
        .iter()
        .filter(|row| row.size == size)
        .map(pair)
        .collect();
    let title = format!("Formatting a source of {} KiB", size >> 10);
    match plot::svg(&title, &pairs) {
        Some(drawn) => file
            .write_all(drawn.as_bytes())
            .expect("the plot is written"),
        None => eprintln!("no input was measured: the plot is empty"),
    }
}

/// Names the inputs on which the Rust writes another text.
fn print_blocks(inputs: &[&Input]) {
    for input in inputs {
        if with_blocks(&input.source(SMALL), &input.theirs(SMALL)).is_some() {
            let name = input.name;
            println!(
                "\n`{name}`: a marker protects blocks (C-15), and the Rust writes another text."
            );
        }
    }
}

/// Prints the tables, and writes the plot.
fn measure(only: Option<&str>, sizes: &[usize], svg: Option<File>) {
    let asked = |name: &str| only.is_none_or(|only| only == name);
    let named = |input: &&Input| only.is_none_or(|part| input.name.contains(part));
    let inputs: Vec<&Input> = INPUTS.iter().filter(named).collect();
    let (mut formatter, mut table) = (Formatter::new(), Table::default());
    if only != Some("calls") {
        println!("{}", Table::HEAD);
    }
    for input in &inputs {
        format_rows(input, sizes, &mut formatter, &mut table);
    }
    if let Some(file) = svg {
        plot(&table.rows, sizes[sizes.len() / 2], file);
    }
    if asked("edits") {
        edit_rows(sizes, &mut formatter, &mut table);
    }
    if only.is_none() {
        kind_rows(sizes, &mut formatter, &mut table);
        list_rows(&mut formatter, &mut table);
    }
    print_blocks(&inputs);
    if asked("calls") {
        println!("\n{}", calls::HEAD);
        sizes.iter().copied().for_each(calls::rows);
    }
}

fn main() {
    let arguments: Vec<String> = std::env::args().skip(1).collect();
    let given = |flag: &str| arguments.iter().any(|a| a == flag);
    let after = |flag: &str| {
        let place = arguments.iter().position(|a| a == flag)?;
        arguments.get(place + 1)
    };
    if given("--names") {
        for input in INPUTS {
            println!("{}", input.name);
        }
        return;
    }
    if let Some(name) = after("--once") {
        once(name);
        return;
    }
    let small = given("--small");
    let all = [SMALL, MIDDLE, LARGE];
    let sizes = if small { &all[..1] } else { &all };
    // before the minutes of measuring
    let svg = given("--svg").then(|| {
        let path = after("--svg").expect("a file behind --svg");
        File::create(path).expect("the plot's file is made")
    });
    measure(after("--only").map(String::as_str), sizes, svg);
}
