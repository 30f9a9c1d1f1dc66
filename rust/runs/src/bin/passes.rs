//! How many texts change when they are formatted again, and why.
//!
//!     passes [SOURCES] [SEED]
//!
//! Takes so many sources, 100,000 by default, of each stage of `diff` that formats, with their options, and formats
//! each by the library until nothing changes, at most six times. Refused calls are left out, as are the two stages
//! around the limits of length. Then the sources of the grammar with the default options. The cause is told from the
//! first line that a pass changes. Of each cause an example is shown: of the first sources found, each made as small as
//! it gets, the shortest. Status 1 where a change has none of the causes, or the last pass still changes something.

use runs::call::Call;
use runs::compare::Check;
use runs::shrink::smallest;
use runs::sources::OPERATORS;
use runs::stages::{self, Stage};
use std::collections::BTreeMap;
use std::process::ExitCode;
use upstream::FormatOptions;
use wirescript_format::{FinalNewline, Formatter, LineEnding, Options};

/// What the first line that changes shows.
#[derive(Clone, Copy, Debug, PartialEq, Eq, PartialOrd, Ord)]
enum Cause {
    Outdented,
    BrokenAgain,
    BlankLine,
    Import,
    Else,
    CarriageReturn,
    Other,
}

impl Cause {
    fn words(self) -> &'static str {
        match self {
            Self::Outdented => {
                "a piece of a broken operation is no continuation, and loses its level"
            }
            Self::BrokenAgain => "such a piece is too wide, and is broken before its own operator",
            Self::BlankLine => "an operator at a line's start left a blank line",
            Self::Import => {
                "the names of an import that was spread are lines with brackets, operators or strings"
            }
            Self::Else => "an `else` was joined to its line",
            Self::CarriageReturn => "a CR at the end of a kept line is part of an ending",
            Self::Other => "another",
        }
    }
}

/// The line without white space and commas: what it was before it was spaced.
fn letters(line: &str) -> String {
    line.chars()
        .filter(|c| !c.is_whitespace() && *c != ',')
        .collect()
}

/// A pass: the text before it, and what it and the next one give.
struct Passes<'a> {
    before: &'a str,
    first: Vec<&'a str>,
    second: Vec<&'a str>,
    imports_split: u64,
}

impl Passes<'_> {
    fn cause(&self) -> Cause {
        let lines = self.first.iter().zip(&self.second);
        let at = lines.take_while(|(a, b)| a == b).count();
        let line = self.first.get(at).copied().unwrap_or("");
        let after = self.second.get(at).copied().unwrap_or("");
        if line.trim_end_matches('\r') == after.trim_end_matches('\r') {
            Cause::CarriageReturn
        } else if self.in_import(at) {
            Cause::Import
        } else if self.joined(line) {
            Cause::Else
        } else if let Some(cause) = self.operation(at, line.trim(), after.trim()) {
            cause
        } else {
            self.above(at)
        }
    }

    /// A line to whose end the first pass joined an `else`: no line before it holds both.
    fn joined(&self, line: &str) -> bool {
        let both = letters(line);
        let mut lines = self.before.split('\n');
        line.contains("} else") && lines.all(|before| !letters(before).contains(&both))
    }

    /// A line between those of an import that was spread, or its last.
    fn in_import(&self, at: usize) -> bool {
        let mut above = self.first[..at.min(self.first.len())]
            .iter()
            .rev()
            .map(|line| line.trim());
        let header = |line: &str| line.starts_with("import") && line.ends_with(" {");
        let written = |header: &str| {
            self.before
                .split('\n')
                .any(|line| letters(line) == letters(header))
        };
        let found = above.find(|line| line.starts_with('}') || header(line));
        found.is_some_and(|line| header(line) && !written(line))
    }

    fn operation(&self, at: usize, line: &str, after: &str) -> Option<Cause> {
        let operator = |line: &str| OPERATORS.iter().any(|operator| line.starts_with(operator));
        let next = self.first.get(at + 1).map_or("", |next| next.trim());
        if line.is_empty() && operator(next) {
            Some(Cause::BlankLine)
        } else if operator(line) && line == after {
            Some(Cause::Outdented)
        } else if operator(line) && line.starts_with(after) {
            Some(Cause::BrokenAgain)
        } else {
            None
        }
    }

    /// What was made further up and tells only here, where a level or a blank line changes.
    fn above(&self, at: usize) -> Cause {
        if self.imports_split > 0 {
            Cause::Import
        } else if self.first.iter().take(at).any(|line| self.joined(line)) {
            Cause::Else
        } else {
            Cause::Other
        }
    }
}

fn options(call: &Call) -> Option<Options> {
    let chosen = call.options()?;
    let ending = [LineEnding::Kept, LineEnding::Lf, LineEnding::Crlf];
    let newline = [
        FinalNewline::AsSource,
        FinalNewline::Always,
        FinalNewline::Never,
    ];
    Some(
        Options::new()
            .indent(chosen.rust.indent)
            .width(chosen.rust.print_width.map(|width| width as u64))
            .line_ending(ending[call.line_ending as usize])
            .final_newline(newline[call.final_newline as usize])
            .ruler_tab(call.ruler_tab)
            .strengths(call.strengths.clone()),
    )
}

/// The passes that are made at most.
const MOST: usize = 6;

/// The source of a call and the texts of its passes, up to the first that changes nothing.
struct Texts {
    texts: Vec<String>,
    /// By pass.
    imports_split: Vec<u64>,
}

impl Texts {
    /// `None` for a call that is refused, at any pass.
    fn of(formatter: &mut Formatter, call: &Call, most: usize) -> Option<Self> {
        let options = options(call)?;
        let mut texts = vec![String::from_utf8(call.source.clone()).ok()?];
        let mut imports_split = Vec::new();
        while texts.len() <= most {
            let source = texts.last()?;
            let formatted = formatter.format(source, &options).ok()?;
            let text = formatted.text.to_owned();
            imports_split.push(formatted.imports_split);
            let done = texts.len() > 1 && text == *source;
            texts.push(text);
            if done {
                break;
            }
        }
        Some(Self {
            texts,
            imports_split,
        })
    }

    /// Whether a pass, counted from 1, changes the text of the one before.
    fn changes(&self, pass: usize) -> bool {
        pass < self.texts.len() && self.texts[pass] != self.texts[pass - 1]
    }

    /// Why a pass changes the text of the one before, if it does.
    fn cause(&self, pass: usize) -> Option<Cause> {
        self.changes(pass).then(|| {
            let lines = |pass: usize| self.texts[pass].split('\n').collect();
            Passes {
                before: &self.texts[pass - 2],
                first: lines(pass - 1),
                second: lines(pass),
                imports_split: self.imports_split[pass - 2],
            }
            .cause()
        })
    }
}

/// What is counted.
#[derive(Default)]
struct Counts {
    sources: u64,
    /// How many change, by pass.
    changed: [u64; MOST + 1],
    causes: BTreeMap<Cause, Row>,
}

#[derive(Default)]
struct Row {
    second: u64,
    third: u64,
    examples: Vec<Call>,
}

/// How many sources of a cause are made small.
const EXAMPLES: usize = 30;

impl Counts {
    fn take(&mut self, formatter: &mut Formatter, call: &Call) {
        let Some(texts) = Texts::of(formatter, call, MOST) else {
            return;
        };
        self.sources += 1;
        for (pass, changed) in self.changed.iter_mut().enumerate().skip(2) {
            *changed += u64::from(texts.changes(pass));
        }
        if let Some(cause) = texts.cause(2) {
            let row = self.causes.entry(cause).or_default();
            row.second += 1;
            if row.examples.len() < EXAMPLES {
                row.examples.push(small(formatter, call, cause));
            }
        }
        if let Some(cause) = texts.cause(3) {
            self.causes.entry(cause).or_default().third += 1;
        }
    }

    fn stage(&mut self, formatter: &mut Formatter, stage: &Stage, most: u64) {
        let before = (self.sources, self.changed[2], self.changed[3]);
        for call in calls(stage, most) {
            self.take(formatter, &call);
        }
        let sources = self.sources - before.0;
        if sources > 0 {
            let (second, third) = (self.changed[2] - before.1, self.changed[3] - before.2);
            println!(
                "{}: {sources} sources, {second} change at the second pass, {third} at the third",
                stage.name
            );
        }
    }

    fn print(&self, formatter: &mut Formatter) {
        println!("{} sources", self.sources);
        for (pass, changed) in self.changed.iter().enumerate().skip(2) {
            println!("pass {pass} changes {changed}");
        }
        for (cause, row) in &self.causes {
            println!(
                "{} at the second pass, {} at the third: {}",
                row.second,
                row.third,
                cause.words()
            );
            let shortest = row.examples.iter().min_by_key(|call| call.source.len());
            if let Some(call) = shortest {
                println!("    {}", shown(formatter, call));
            }
        }
    }
}

/// The smallest source and options that the second pass changes for the same cause.
fn small(formatter: &mut Formatter, call: &Call, cause: Cause) -> Call {
    let mut same = |check: &Check| match check {
        Check::Format(call) => {
            Texts::of(formatter, call, 2).and_then(|texts| texts.cause(2)) == Some(cause)
        }
        _ => false,
    };
    match smallest(Check::Format(call.clone()), &mut same) {
        Check::Format(call) => call,
        _ => call.clone(),
    }
}

fn shown(formatter: &mut Formatter, call: &Call) -> String {
    let texts = Texts::of(formatter, call, MOST).map(|texts| texts.texts);
    let texts: Vec<String> = texts
        .iter()
        .flatten()
        .map(|text| format!("{text:?}"))
        .collect();
    let width = if call.width_set == 1 {
        call.width.to_string()
    } else {
        "none".into()
    };
    let indent = String::from_utf8_lossy(&call.indent);
    format!(
        "width {width}, indent {indent:?}, line_ending {}, final_newline {}, ruler_tab {}: {}",
        call.line_ending,
        call.final_newline,
        call.ruler_tab,
        texts.join(" -> ")
    )
}

/// The calls of a stage that format.
fn calls(stage: &Stage, most: u64) -> impl Iterator<Item = Call> {
    let numbers = 0..stage.count.map_or(most, |count| count.min(most));
    numbers.filter_map(|number| match stage.check(number) {
        Check::Format(call) => Some(call),
        _ => None,
    })
}

fn main() -> ExitCode {
    let (most, seed) = (runs::argument(1, 100_000), runs::argument(2, 1));
    let mut formatter = Formatter::new();
    let (mut counts, mut defaults) = (Counts::default(), Counts::default());
    for stage in stages::all(seed) {
        if ![stages::LONG, stages::LIMITS].contains(&stage.name.as_str()) {
            counts.stage(&mut formatter, &stage, most);
        }
        if stage.name == "grammar" {
            for call in calls(&stage, most) {
                let call = Call::new(call.source, &FormatOptions::default());
                defaults.take(&mut formatter, &call);
            }
        }
    }
    println!("ALL STAGES");
    counts.print(&mut formatter);
    println!("THE GRAMMAR WITH THE DEFAULT OPTIONS");
    defaults.print(&mut formatter);
    let told = !counts.causes.contains_key(&Cause::Other);
    ExitCode::from(u8::from(
        !told || counts.changed[MOST] > 0 || counts.changed[2] == 0,
    ))
}

#[cfg(test)]
mod tests {
    use super::*;

    /// Why the second pass changes the text of a source at a width; every text is the Rust's too.
    fn cause(source: &str, print_width: Option<usize>) -> Option<Cause> {
        let options = FormatOptions {
            print_width,
            ..FormatOptions::default()
        };
        let call = Call::new(source, &options);
        let texts = Texts::of(&mut Formatter::new(), &call, MOST).expect("no refusal");
        for pair in texts.texts.windows(2) {
            assert_eq!(pair[1], upstream::format_with(&pair[0], &options));
        }
        texts.cause(2)
    }

    /// The examples of docs/DIFFERENCES.md.
    #[test]
    fn examples() {
        let examples = [
            ("a-b", Some(2), Cause::Outdented),
            ("a*b", Some(0), Cause::BrokenAgain),
            ("<a<b", Some(3), Cause::BlankLine),
            ("(\n<b", Some(0), Cause::BlankLine),
            ("import {a, {}", Some(9), Cause::Import),
            ("import {a-b, c}", Some(4), Cause::Import),
            ("// }\nelse {\na\n}", None, Cause::Else),
            ("in a {}\nelse\n\nin b", None, Cause::Else),
            ("x // fmt-ignore\r\r\ny\n", None, Cause::CarriageReturn),
        ];
        for (source, width, why) in examples {
            assert_eq!(cause(source, width), Some(why), "{source:?}");
        }
    }

    #[test]
    fn texts_that_stay() {
        assert_eq!(cause("a + b", Some(2)), None);
        assert_eq!(cause("}\nelse {\na\n}", None), None);
        assert_eq!(cause("import {a,b,c} from \"d\"", Some(9)), None);
    }
}
