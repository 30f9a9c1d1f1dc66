//! What a call is given, and what it comes to.

use upstream::{FormatOptions, LineEnding};
use wirescript_format::Options;
use wirescript_format::raw::{Answer, Choices, Settings};

/// The length of a lent buffer: what the call needs and some more or less, or a number.
#[derive(Clone, Copy, Debug, PartialEq, Eq)]
pub enum Size {
    Needed(isize),
    Fixed(usize),
}

impl Size {
    pub fn of(self, needed: usize) -> usize {
        match self {
            Self::Needed(more) => needed.saturating_add_signed(more),
            Self::Fixed(n) => n,
        }
    }
}

/// What a formatting call gets. The output needs the text's length.
#[derive(Clone, Debug, PartialEq, Eq)]
pub struct Call {
    pub source: Vec<u8>,
    pub indent: Vec<u8>,
    pub width_set: u64,
    pub width: u64,
    pub line_ending: u64,
    pub final_newline: u64,
    pub ruler_tab: u64,
    pub strengths: Vec<u8>,
    pub output: Size,
    pub scratch: Size,
}

/// The scratch that formatting needs.
pub fn scratch_needed(source: &[u8]) -> usize {
    12 * source.len() + 256
}

/// The scratch that asking for text kinds needs.
pub fn kind_scratch_needed(source: &[u8]) -> usize {
    8 * source.len() + 256
}

/// What a call is formatted by: the Rust's options, and what the Rust doesn't have.
#[derive(Clone, Debug, PartialEq, Eq)]
pub struct Chosen {
    pub rust: FormatOptions,
    /// The text never ends in a line ending; the Rust's options then ask for one, which is
    /// removed.
    pub never: bool,
    /// How far apart the ruler's tab stops are; at 0 the Rust's own measure.
    pub ruler: u64,
}

/// The Rust's text and counts; where the source has a protected block, which the Rust doesn't have,
/// those of the model.
fn by_rust(source: &str, options: &FormatOptions) -> upstream::Counted {
    if source.contains("fmt-ignore") {
        let blocks = upstream::format_blocks(source, options);
        if blocks.any {
            return blocks.counted;
        }
    }
    upstream::format_counted(source, options)
}

impl From<FormatOptions> for Chosen {
    fn from(rust: FormatOptions) -> Self {
        Self {
            rust,
            never: false,
            ruler: 0,
        }
    }
}

impl Chosen {
    /// The same with no ending after the last line.
    #[must_use]
    pub fn never(mut self) -> Self {
        (self.rust.insert_final_newline, self.never) = (true, true);
        self
    }

    pub fn choices(&self) -> Choices<'_> {
        let choices = choices_of(&self.rust);
        let final_newline = if self.never { 2 } else { choices.final_newline };
        Choices {
            final_newline,
            ruler_tab: self.ruler,
            ..choices
        }
    }

    /// The text and the counts of a source.
    pub fn format(&self, source: &str) -> upstream::Counted {
        self.ended(source, self.counted(source))
    }

    /// The same, whatever follows the last line.
    pub fn counted(&self, source: &str) -> upstream::Counted {
        match self.ruler {
            0 => by_rust(source, &self.rust),
            step => upstream::format_by(source, &self.rust, step as usize, None),
        }
    }

    /// The same of what the Rust's options give: never has no ending after the last line.
    pub fn ended(&self, source: &str, mut counted: upstream::Counted) -> upstream::Counted {
        if self.never {
            let text = counted.text.strip_suffix('\n').expect("an ending");
            counted.text = match self.ending(source) {
                LineEnding::Lf => text.into(),
                LineEnding::Crlf => text.strip_suffix('\r').expect("an ending").into(),
            };
        }
        counted
    }

    /// The ending that the text's lines get.
    fn ending(&self, source: &str) -> LineEnding {
        let crlf = source.matches("\r\n").count();
        let kept = if crlf > source.matches('\n').count() - crlf {
            LineEnding::Crlf
        } else {
            LineEnding::Lf
        };
        self.rust.end_of_line.unwrap_or(kept)
    }
}

/// The Rust's options as numbers.
pub fn choices_of(options: &FormatOptions) -> Choices<'_> {
    Choices {
        indent: options.indent.as_bytes(),
        width_set: u64::from(options.print_width.is_some()),
        width: options.print_width.unwrap_or(0) as u64,
        line_ending: match options.end_of_line {
            None => 0,
            Some(LineEnding::Lf) => 1,
            Some(LineEnding::Crlf) => 2,
        },
        final_newline: u64::from(options.insert_final_newline),
        ruler_tab: 0,
        strengths: &Options::BUILT_IN_STRENGTHS,
    }
}

impl Call {
    /// A call with what it needs.
    pub fn new(source: impl Into<Vec<u8>>, options: &FormatOptions) -> Self {
        Self::chosen(source, &options.clone().into())
    }

    /// The same where the Rust lacks an option.
    pub fn chosen(source: impl Into<Vec<u8>>, options: &Chosen) -> Self {
        let needed = Size::Needed(0);
        Self::of(source.into(), options.choices(), needed, needed)
    }

    pub fn of(source: Vec<u8>, s: Choices, output: Size, scratch: Size) -> Self {
        Self {
            source,
            indent: s.indent.into(),
            width_set: s.width_set,
            width: s.width,
            line_ending: s.line_ending,
            final_newline: s.final_newline,
            ruler_tab: s.ruler_tab,
            strengths: s.strengths.into(),
            output,
            scratch,
        }
    }

    pub fn choices(&self) -> Choices<'_> {
        Choices {
            indent: &self.indent,
            width_set: self.width_set,
            width: self.width,
            line_ending: self.line_ending,
            final_newline: self.final_newline,
            ruler_tab: self.ruler_tab,
            strengths: &self.strengths,
        }
    }

    pub fn scratch_length(&self) -> usize {
        self.scratch.of(scratch_needed(&self.source))
    }

    /// What the numbers choose, if they name choices and the indent is allowed.
    pub fn options(&self) -> Option<Chosen> {
        let allowed = self.indent.len() <= 64 && self.indent.iter().all(|b| b" \t".contains(b));
        if !allowed || self.width_set > 1 || self.final_newline > 2 {
            return None;
        }
        let rust = FormatOptions {
            indent: String::from_utf8(self.indent.clone()).ok()?,
            print_width: (self.width_set == 1).then_some(self.width as usize),
            end_of_line: match self.line_ending {
                0 => None,
                1 => Some(LineEnding::Lf),
                2 => Some(LineEnding::Crlf),
                _ => return None,
            },
            insert_final_newline: self.final_newline == 1,
        };
        let chosen = Chosen {
            ruler: self.ruler_tab,
            ..Chosen::from(rust)
        };
        Some(if self.final_newline == 2 {
            chosen.never()
        } else {
            chosen
        })
    }
}

/// What a call leaves: the answer, the text that starts the output, and the lines of open brackets,
/// of which the list gets as many as it has room for.
#[derive(Clone, Debug, PartialEq, Eq)]
pub struct Outcome {
    pub answer: Answer,
    pub text: Vec<u8>,
    pub opened: Vec<u64>,
}

/// What a setting step leaves: the answer, and the indent that starts the output.
#[derive(Clone, Debug, PartialEq, Eq)]
pub struct Settled {
    pub answer: Settings,
    pub indent: Vec<u8>,
}
