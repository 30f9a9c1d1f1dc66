//! What is compared with the Rust.

use crate::call::{Call, Chosen, Outcome, Size};
use crate::model;
use crate::safe::{self, SafeCall, Told};
use wirescript_format::Formatter;
use wirescript_format::raw::{self, Answer, Choices, Kind, Resolved, Settings};

/// What a formatting call is lent.
pub struct Room<'a> {
    pub output: &'a mut [u8],
    pub opened: &'a mut [u64],
    pub scratch: &'a mut [u8],
}

/// The functions that a host can reach.
pub trait Library: Sync {
    fn format(&self, source: &[u8], s: Choices, room: Room) -> Answer;
    fn text_kind_at(&self, source: &[u8], line: u64, column: u64, scratch: &mut [u8]) -> Kind;
    fn indent_with(&self, s: Choices, tabs: u64, size: u64, output: &mut [u8]) -> Settings;
    fn editorconfig(&self, s: Choices, values: Resolved, output: &mut [u8]) -> Settings;
    fn safe(&self, call: &SafeCall, most: Option<usize>, formatter: &mut Formatter) -> Told;

    /// Whether a text that doesn't fit takes it no longer than one that does.
    fn goes_far(&self) -> bool {
        true
    }
}

/// The proved library.
pub struct Linked;

impl Library for Linked {
    fn format(&self, source: &[u8], s: Choices, room: Room) -> Answer {
        raw::format(source, s, room.output, room.opened, room.scratch)
    }

    fn text_kind_at(&self, source: &[u8], line: u64, column: u64, scratch: &mut [u8]) -> Kind {
        raw::text_kind_at(source, line, column, scratch)
    }

    fn indent_with(&self, s: Choices, tabs: u64, size: u64, output: &mut [u8]) -> Settings {
        raw::indent_with(s, tabs, size, output)
    }

    fn editorconfig(&self, s: Choices, values: Resolved, output: &mut [u8]) -> Settings {
        raw::editorconfig(s, values, output)
    }

    fn safe(&self, call: &SafeCall, most: Option<usize>, formatter: &mut Formatter) -> Told {
        safe::told(call, most, formatter)
    }
}

/// Something that the runs must find.
#[derive(Clone, Copy, Debug, PartialEq, Eq)]
pub enum Fault {
    /// A double space left after a backslash.
    Text,
    /// A byte of the output left as it was, after the text.
    OutputRest,
    /// The output not cleared with refusal 5.
    OutputRefused,
    /// One byte of the scratch left.
    Scratch,
    /// A blank name too many, from two on.
    Count,
    /// Refusal 3 before refusal 2.
    Order,
    /// A ruler of 5 taken for one of 4.
    Ruler,
    /// A scratch of one byte too few taken.
    ScratchSize,
    /// A place past the end of a line with a comment is a comment.
    KindPastEnd,
    /// A size of 64 refused.
    Size64,
    /// `cr` taken as LF.
    Cr,
    /// The bytes after an indent left as they were.
    IndentRest,
    /// The open brackets listed from the newest on.
    NewestFirst,
    /// The rest of the list of open brackets left as it was.
    ListRest,
    /// The count of open brackets cut at the list's length.
    CountCut,
    /// The two counts taken for each other by the host crate.
    Swapped,
    /// A refusal's place not told by the host crate.
    Place,
}

impl Fault {
    pub const ALL: [Self; 17] = [
        Self::Text,
        Self::OutputRest,
        Self::OutputRefused,
        Self::Scratch,
        Self::Count,
        Self::Order,
        Self::Ruler,
        Self::ScratchSize,
        Self::KindPastEnd,
        Self::Size64,
        Self::Cr,
        Self::IndentRest,
        Self::NewestFirst,
        Self::ListRest,
        Self::CountCut,
        Self::Swapped,
        Self::Place,
    ];
}

/// The Rust in the library's place, with a fault or none: shows that the runs find what
/// they must.
pub struct Standin(pub Option<Fault>);

impl Standin {
    fn has(&self, fault: Fault) -> bool {
        self.0 == Some(fault)
    }

    fn call(source: &[u8], s: Choices, output: usize, scratch: usize) -> Call {
        Call::of(source.into(), s, Size::Fixed(output), Size::Fixed(scratch))
    }

    fn list(&self, outcome: &mut Outcome, opened: &mut [u64]) {
        if self.has(Fault::NewestFirst) {
            outcome.opened.reverse();
        }
        let listed = outcome.opened.len().min(opened.len());
        opened[..listed].copy_from_slice(&outcome.opened[..listed]);
        if !self.has(Fault::ListRest) {
            opened[listed..].fill(0);
        }
        if self.has(Fault::CountCut) {
            outcome.answer.open_brackets = listed as u64;
        }
    }

    fn settle(&self, options: Option<&Chosen>, output: &mut [u8]) -> Settings {
        let settled = model::settled(options, output.len());
        let (indent, rest) = output.split_at_mut(settled.indent.len());
        indent.copy_from_slice(&settled.indent);
        if !self.has(Fault::IndentRest) {
            rest.fill(0);
        }
        settled.answer
    }
}

impl Library for Standin {
    fn format(&self, source: &[u8], s: Choices, room: Room) -> Answer {
        let Room {
            output,
            opened,
            scratch,
        } = room;
        let mut call = Self::call(source, s, output.len(), scratch.len());
        if self.has(Fault::ScratchSize) {
            call.scratch = Size::Fixed(scratch.len() + 1);
        }
        if self.has(Fault::Ruler) && call.ruler_tab == 5 {
            call.ruler_tab = 4;
        }
        let mut found = model::text_of(&call);
        if self.has(Fault::Order) && found == Err((2, 0)) {
            call.indent.clear();
            (call.width_set, call.line_ending, call.final_newline) = (0, 0, 0);
            found = match model::text_of(&call) {
                Err((3, place)) => Err((3, place)),
                _ => found,
            };
        }
        if self.has(Fault::Text)
            && let Ok(counted) = &mut found
        {
            counted.text = counted.text.replace("\\a  ", "\\a ");
        }
        if self.has(Fault::Count)
            && let Ok(counted) = &mut found
            && counted.blank_names > 1
        {
            counted.blank_names += 1;
        }
        let mut outcome = model::outcome(&found, output.len());
        let text = std::mem::take(&mut outcome.text);
        let refused = outcome.answer.refusal == 5 && self.has(Fault::OutputRefused);
        let kept = usize::from(self.has(Fault::OutputRest) || refused);
        output[..text.len()].copy_from_slice(&text);
        let rest = &mut output[text.len()..];
        let end = rest.len().saturating_sub(kept);
        rest[..end].fill(0);
        let end = scratch
            .len()
            .saturating_sub(usize::from(self.has(Fault::Scratch)));
        scratch[..end].fill(0);
        self.list(&mut outcome, opened);
        outcome.answer
    }

    fn text_kind_at(&self, source: &[u8], line: u64, column: u64, scratch: &mut [u8]) -> Kind {
        let mut kind = model::text_kind_at(source, line, column, scratch.len());
        scratch.fill(0);
        if self.has(Fault::KindPastEnd) && kind.refusal == 0 && column > 0 {
            let before = model::text_kind_at(source, line, column - 1, scratch.len());
            let line = source
                .split(|b| *b == b'\n')
                .nth(line as usize)
                .unwrap_or(b"");
            if line.len() as u64 == column {
                kind = before;
            }
        }
        kind
    }

    fn indent_with(&self, s: Choices, tabs: u64, size: u64, output: &mut [u8]) -> Settings {
        let size = size + u64::from(self.has(Fault::Size64) && size == 64);
        let options = model::indent_with(&Self::call(b"", s, 0, 0), tabs, size);
        self.settle(options.as_ref(), output)
    }

    fn editorconfig(&self, s: Choices, mut values: Resolved, output: &mut [u8]) -> Settings {
        if self.has(Fault::Cr) && values.ending == 3 {
            values.ending = 1;
        }
        let options = model::editorconfig(&Self::call(b"", s, 0, 0), values);
        self.settle(options.as_ref(), output)
    }

    fn safe(&self, call: &SafeCall, _: Option<usize>, _: &mut Formatter) -> Told {
        let mut told = call.must().told;
        match &mut told {
            Told::Formatted(formatted) if self.has(Fault::Swapped) => {
                std::mem::swap(&mut formatted.imports_split, &mut formatted.blank_names);
            }
            Told::Refused(_, place) if self.has(Fault::Place) => *place = 0,
            _ => {}
        }
        told
    }

    fn goes_far(&self) -> bool {
        false
    }
}
