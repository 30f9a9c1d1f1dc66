//! What is told of a file.

use std::io;

use wirescript_format::{Formatter, MAX_INDENT, MAX_SOURCE, Position, Refusal};

/// A refusal in words, for whom a call's own options and buffers mean nothing.
pub fn words(refusal: Refusal) -> String {
    match refusal {
        Refusal::BadOption => format!("an indent is at most {MAX_INDENT} spaces or tabs"),
        Refusal::OutputShort { needed } => {
            let most = Formatter::MOST >> 20;
            format!("the text would take {needed} bytes, and {most} MiB is the most")
        }
        other => other.to_string(),
    }
}

/// How a run ends; the worst counts.
#[derive(Clone, Copy, Debug, Default, PartialEq, Eq, PartialOrd, Ord)]
pub enum Status {
    #[default]
    Fine = 0,
    WouldChange = 1,
    Trouble = 2,
}

/// What stands in the way of formatting a file.
#[derive(Clone, Debug, PartialEq, Eq)]
pub struct Trouble {
    place: Position,
    pub what: String,
}

impl Trouble {
    /// One about a file as a whole, which stands at its start.
    pub fn whole(what: impl Into<String>) -> Self {
        Self {
            place: Position::default(),
            what: what.into(),
        }
    }

    pub fn io(what: &str, error: &io::Error) -> Self {
        Self::whole(format!("{what}: {error}"))
    }

    /// A refusal of a source, in words and with its place.
    pub fn refused(refusal: Refusal, source: &[u8]) -> Self {
        let what = match refusal {
            Refusal::SourceTooLong if source.len() <= MAX_SOURCE => {
                return Self::whole("a pass makes it longer than 1 MiB, which the next can't take");
            }
            Refusal::SourceTooLong => "it goes on behind 1 MiB (1048576 bytes)".to_owned(),
            Refusal::NotUtf8 { .. } => "it is not UTF-8 from here on".to_owned(),
            Refusal::NotExpression { .. } => "this is not an expression from here on".to_owned(),
            Refusal::TooDeep { .. } => "this bracket stands deeper than 64".to_owned(),
            other => words(other),
        };
        let place = refusal.position(source).unwrap_or_default();
        Self { place, what }
    }
}

/// What is told of a file.
#[derive(Default)]
pub struct Report {
    /// For standard output.
    pub output: Vec<u8>,
    /// For standard error.
    pub messages: String,
    pub status: Status,
}

impl Report {
    /// Adds a message in the form `file:line:column: what`.
    pub fn tell(&mut self, name: &str, trouble: &Trouble, status: Status) {
        let Position { line, column, .. } = trouble.place;
        let (line, column, what) = (line + 1, column + 1, &trouble.what);
        let message = format!("{name}:{line}:{column}: {what}\n");
        self.messages.push_str(&message);
        self.status = self.status.max(status);
    }
}
