//! One comparison with the Rust: answers, every byte lent, and the bytes around them.

use crate::call::{Call, Chosen, Outcome, kind_scratch_needed};
use crate::library::{Library, Room};
use crate::model;
use crate::quoted;
use crate::safe::SafeCall;
use std::fmt::Debug;
use upstream::FormatOptions;
use wirescript_format::Formatter;
use wirescript_format::raw::{Answer, Kind, Resolved, Settings};

/// A thing to compare.
#[derive(Clone, Debug, PartialEq, Eq)]
pub enum Check {
    Format(Call),
    /// So many lines of `(`, whose text is too long for the Rust: it is refused, and its
    /// length is known.
    Far {
        lines: u64,
        indent: usize,
        output: usize,
    },
    Kind(Place),
    /// The kinds at every place of a source, and at some past its end.
    Kinds(Vec<u8>),
    /// `indent_with` on a call's options and output.
    Indent {
        call: Call,
        tabs: u64,
        size: u64,
    },
    /// The `.editorconfig` step on a call's options and output.
    Config {
        call: Call,
        values: Resolved,
    },
    /// A call of the host crate's safe functions.
    Safe(SafeCall),
}

/// A place of a source whose kind is asked for, with a scratch of so many bytes more than needed.
#[derive(Clone, Debug, PartialEq, Eq)]
pub struct Place {
    pub source: Vec<u8>,
    pub line: u64,
    pub column: u64,
    pub scratch: isize,
}

/// Lent buffers, with bytes before and after them that no call may change; and a formatter with
/// buffers of its own.
#[derive(Default)]
pub struct Buffers {
    output: Vec<u8>,
    opened: Vec<u64>,
    scratch: Vec<u8>,
    formatter: Formatter,
}

const GUARD: usize = 32;
const GUARD_BYTE: u8 = 0xc5;
const OLD: u8 = 0x5a;

/// A part of `buffer` that holds old bytes; its start moves with its length.
fn lend(buffer: &mut Vec<u8>, length: usize) -> std::ops::Range<usize> {
    let start = GUARD + length % 8;
    buffer.clear();
    buffer.resize(start, GUARD_BYTE);
    buffer.resize(start + length, OLD);
    buffer.resize(start + length + GUARD, GUARD_BYTE);
    start..start + length
}

/// The same of words: a list with room for `length` lines.
fn lend_list(buffer: &mut Vec<u64>, length: usize) -> std::ops::Range<usize> {
    buffer.clear();
    buffer.resize(GUARD, u64::MAX);
    buffer.resize(GUARD + length, u64::from(OLD));
    buffer.resize(2 * GUARD + length, u64::MAX);
    GUARD..GUARD + length
}

/// What is wrong with a list that was lent at `part`, if anything is: it has the first of the
/// lines, as many as fit, then zeros, and the words beside it are as they were.
fn list_fault(buffer: &[u64], part: &std::ops::Range<usize>, lines: &[u64]) -> Option<String> {
    let mut must: Vec<u64> = lines.to_vec();
    must.resize(part.len(), 0);
    if buffer[part.clone()] != must {
        return Some(differ("the open brackets", &buffer[part.clone()], &must));
    }
    let outside = |words: &[u64]| words.iter().all(|w| *w == u64::MAX);
    let kept = outside(&buffer[..part.start]) && outside(&buffer[part.end..]);
    (!kept).then(|| "words beside the list changed".into())
}

fn differ<T: Debug>(what: &str, ours: T, rust: T) -> String {
    format!("{what}\n  ours {ours:?}\n  must {rust:?}")
}

fn guarded(buffer: &[u8], part: &std::ops::Range<usize>) -> bool {
    let outside = |b: &[u8]| b.iter().all(|x| *x == GUARD_BYTE);
    outside(&buffer[..part.start]) && outside(&buffer[part.end..])
}

fn zeros(bytes: &[u8]) -> bool {
    bytes.iter().all(|b| *b == 0)
}

impl Buffers {
    /// What differs, if anything does.
    pub fn check(&mut self, library: &dyn Library, check: &Check) -> Option<String> {
        match check {
            Check::Format(call) => self.format(library, call),
            Check::Kind(place) => {
                let length =
                    kind_scratch_needed(&place.source).saturating_add_signed(place.scratch);
                self.kind(library, &place.source, place.line, place.column, length)
            }
            Check::Kinds(source) => self.kinds(library, source),
            Check::Far {
                lines,
                indent,
                output,
            } => self.far(library, *lines, *indent, *output),
            Check::Indent { call, tabs, size } => {
                let found = model::indent_with(call, *tabs, *size);
                self.step(call, found.as_ref(), &|output| {
                    library.indent_with(call.choices(), *tabs, *size, output)
                })
            }
            Check::Config { call, values } => {
                let found = model::editorconfig(call, *values);
                self.step(call, found.as_ref(), &|output| {
                    library.editorconfig(call.choices(), *values, output)
                })
            }
            Check::Safe(call) => {
                let must = call.must();
                let told = library.safe(call, must.most, &mut self.formatter);
                (told != must.told).then(|| differ("what the host crate tells", told, must.told))
            }
        }
    }

    fn step(
        &mut self,
        call: &Call,
        found: Option<&Chosen>,
        run: &dyn Fn(&mut [u8]) -> Settings,
    ) -> Option<String> {
        let room = call
            .output
            .of(found.map_or(0, |options| options.rust.indent.len()));
        let must = model::settled(found, room);
        let output = lend(&mut self.output, room);
        let answer = run(&mut self.output[output.clone()]);
        if answer != must.answer {
            return Some(differ("the answer", answer, must.answer));
        }
        let (indent, rest) = self.output[output.clone()].split_at(must.indent.len());
        if indent != must.indent {
            return Some(differ("the indent", indent, &must.indent[..]));
        }
        if !zeros(rest) {
            return Some("the output is not zero after the indent".into());
        }
        (!guarded(&self.output, &output)).then(|| "bytes beside the output changed".into())
    }

    fn format(&mut self, library: &dyn Library, call: &Call) -> Option<String> {
        let found = model::text_of(call);
        let room = call.output.of(model::length(&found));
        let must = model::outcome(&found, room);
        let different = self.outcome(library, call, room, &must);
        if different.is_some() || must.answer.refusal != 0 || call.width_set != 0 {
            return different;
        }
        // the text is the Rust's, and both keep quoted text
        let source = std::str::from_utf8(&call.source).expect("an accepted source is UTF-8");
        let text = std::str::from_utf8(&must.text).expect("the Rust's text is UTF-8");
        quoted::lost(source, text, quoted::ending(source, call.line_ending))
    }

    /// Calls with an output of `room` bytes.
    fn outcome(
        &mut self,
        library: &dyn Library,
        call: &Call,
        room: usize,
        must: &Outcome,
    ) -> Option<String> {
        let output = lend(&mut self.output, room);
        let scratch = lend(&mut self.scratch, call.scratch_length());
        // one more than there are, as many, or one less
        let lines = (must.opened.len() + call.source.len() % 3).saturating_sub(1);
        let opened = lend_list(&mut self.opened, lines);
        let room = Room {
            output: &mut self.output[output.clone()],
            opened: &mut self.opened[opened.clone()],
            scratch: &mut self.scratch[scratch.clone()],
        };
        let answer = library.format(&call.source, call.choices(), room);
        if answer != must.answer {
            return Some(differ("the answer", answer, must.answer));
        }
        let (text, rest) = self.output[output.clone()].split_at(must.text.len());
        if text != must.text {
            let show = |bytes: &[u8]| String::from_utf8_lossy(bytes).into_owned();
            return Some(differ("the text", show(text), show(&must.text)));
        }
        if !zeros(rest) {
            return Some("the output is not zero after the text".into());
        }
        if let Some(fault) = list_fault(&self.opened, &opened, &must.opened) {
            return Some(fault);
        }
        if !zeros(&self.scratch[scratch.clone()]) {
            return Some("the scratch is not zero".into());
        }
        if !guarded(&self.output, &output) || !guarded(&self.scratch, &scratch) {
            return Some("bytes beside a lent buffer changed".into());
        }
        None
    }

    fn far(
        &mut self,
        library: &dyn Library,
        lines: u64,
        indent: usize,
        output: usize,
    ) -> Option<String> {
        if !library.goes_far() {
            return None;
        }
        let source = "(\n".repeat(lines as usize);
        let indent = " ".repeat(indent);
        let options = FormatOptions {
            indent: indent.clone(),
            ..FormatOptions::default()
        };
        let call = Call::new(source, &options);
        let answer = Answer {
            refusal: 5,
            // a bracket and an ending to a line, and one level more at each
            place: 2 * lines + indent.len() as u64 * (lines * (lines - 1) / 2),
            ..Answer::default()
        };
        let must = Outcome {
            answer,
            text: Vec::new(),
            opened: Vec::new(),
        };
        self.outcome(library, &call, output, &must)
    }

    fn kind(
        &mut self,
        library: &dyn Library,
        source: &[u8],
        line: u64,
        column: u64,
        length: usize,
    ) -> Option<String> {
        let scratch = lend(&mut self.scratch, length);
        let lent = &mut self.scratch[scratch.clone()];
        let ours: Kind = library.text_kind_at(source, line, column, lent);
        let rust = model::text_kind_at(source, line, column, length);
        if ours != rust {
            let what = format!("the kind at line {line}, column {column}");
            return Some(differ(&what, ours, rust));
        }
        if !zeros(&self.scratch[scratch.clone()]) {
            return Some("the scratch is not zero after a kind".into());
        }
        (!guarded(&self.scratch, &scratch)).then(|| "bytes beside the scratch changed".into())
    }

    fn kinds(&mut self, library: &dyn Library, source: &[u8]) -> Option<String> {
        let length = kind_scratch_needed(source);
        let lines: Vec<&[u8]> = source.split(|b| *b == b'\n').collect();
        for line in 0..=lines.len() {
            let columns = lines.get(line).map_or(0, |l| l.len() + 1);
            for column in 0..=columns {
                let found = self.kind(library, source, line as u64, column as u64, length);
                if found.is_some() {
                    return found;
                }
            }
        }
        None
    }
}
