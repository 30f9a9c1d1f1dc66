//! What a host chooses, and what .editorconfig files say.

use alloc::string::String;

use crate::raw::{self, Choices, Refusable, Resolved, Settings};
use crate::refusal::{MAX_INDENT, Refusal};
use crate::{Strengths, size};

/// How the text's lines end.
#[derive(Clone, Copy, Debug, Default, PartialEq, Eq)]
pub enum LineEnding {
    /// CRLF if more of the source's lines end so than in LF alone, else LF.
    #[default]
    Kept,
    /// LF.
    Lf,
    /// CRLF.
    Crlf,
}

/// Whether the text ends in a line ending.
#[derive(Clone, Copy, Debug, Default, PartialEq, Eq)]
pub enum FinalNewline {
    /// If the source does.
    AsSource,
    /// Whatever the source ends in.
    #[default]
    Always,
    /// It ends in none, whatever the source ends in; an empty text stays empty.
    Never,
}

/// What a host chooses. The defaults: two spaces, width 100, ending kept, final newline, ruler tab 0, the
/// built-in strengths of operators.
///
/// ```
/// use wirescript_format::{LineEnding, Options};
///
/// let options = Options::new().indent("\t").width(None).line_ending(LineEnding::Lf);
/// assert_eq!((options.get_indent(), options.get_width()), ("\t", None));
/// ```
#[derive(Clone, Debug, PartialEq, Eq)]
pub struct Options {
    pub(crate) indent: String,
    pub(crate) width: Option<u64>,
    pub(crate) line_ending: LineEnding,
    pub(crate) final_newline: FinalNewline,
    pub(crate) ruler_tab: u64,
    pub(crate) strengths: Strengths,
}

impl Default for Options {
    fn default() -> Self {
        Self {
            indent: "  ".into(),
            width: Some(Self::DEFAULT_WIDTH),
            line_ending: LineEnding::Kept,
            final_newline: FinalNewline::Always,
            ruler_tab: 0,
            strengths: Strengths::new(),
        }
    }
}

impl Options {
    /// The print width by default.
    pub const DEFAULT_WIDTH: u64 = 100;

    /// The strengths that operators have by default: 1 to 12.
    pub const BUILT_IN_STRENGTHS: [u8; 11] = Strengths::BUILT_IN;

    /// The defaults.
    #[must_use]
    pub fn new() -> Self {
        Self::default()
    }

    /// One level of indentation: up to 64 spaces and tabs. Others are refused by the call.
    #[must_use]
    pub fn indent(mut self, indent: impl Into<String>) -> Self {
        self.indent = indent.into();
        self
    }

    /// One level of indentation.
    #[must_use]
    pub fn get_indent(&self) -> &str {
        &self.indent
    }

    /// Lines wider than this, in UTF-16 units, are split where they can be; `None` splits none.
    #[must_use]
    pub fn width(mut self, width: Option<u64>) -> Self {
        self.width = width;
        self
    }

    /// The print width.
    #[must_use]
    pub fn get_width(&self) -> Option<u64> {
        self.width
    }

    /// How the text's lines end.
    #[must_use]
    pub fn line_ending(mut self, line_ending: LineEnding) -> Self {
        self.line_ending = line_ending;
        self
    }

    /// How the text's lines end.
    #[must_use]
    pub fn get_line_ending(&self) -> LineEnding {
        self.line_ending
    }

    /// Whether the text ends in a line ending.
    ///
    /// ```
    /// use wirescript_format::{FinalNewline, Options, format};
    ///
    /// let text = |choice| format("a\n\n", &Options::new().final_newline(choice)).map(|f| f.text);
    /// assert_eq!(text(FinalNewline::Always).as_deref(), Ok("a\n"));
    /// assert_eq!(text(FinalNewline::AsSource).as_deref(), Ok("a\n"));
    /// assert_eq!(text(FinalNewline::Never).as_deref(), Ok("a"));
    /// ```
    #[must_use]
    pub fn final_newline(mut self, final_newline: FinalNewline) -> Self {
        self.final_newline = final_newline;
        self
    }

    /// Whether the text ends in a line ending.
    #[must_use]
    pub fn get_final_newline(&self) -> FinalNewline {
        self.final_newline
    }

    /// How far apart the tab stops of the editor's ruler are, up to 16 columns: in the width of a
    /// line a tab goes to the next one. At 0, the default, a tab is one column. A larger ruler is
    /// refused by the call. The setting steps leave it as it is.
    ///
    /// ```
    /// use wirescript_format::{Options, Refusal, format};
    ///
    /// let text = |ruler| {
    ///     let options = Options::new().width(Some(10)).ruler_tab(ruler);
    ///     format("abcd\t+ e", &options).map(|f| f.text)
    /// };
    /// assert_eq!(text(0).as_deref(), Ok("abcd\t+ e\n"));
    /// assert_eq!(text(4).as_deref(), Ok("abcd\n  + e\n"));
    /// assert_eq!(text(17), Err(Refusal::RulerTooWide));
    /// ```
    #[must_use]
    pub fn ruler_tab(mut self, ruler_tab: u64) -> Self {
        self.ruler_tab = ruler_tab;
        self
    }

    /// How far apart the ruler's tab stops are.
    #[must_use]
    pub fn get_ruler_tab(&self) -> u64 {
        self.ruler_tab
    }

    /// How tightly each operator binds: a line that is too wide is broken before its loosest ones
    /// first, and never before one of strength 0. Bytes are taken as a table, which is refused by the call if its
    /// length or its last bits are others than [`Strengths`] says.
    ///
    /// ```
    /// use wirescript_format::{Operator, Options, Refusal, Strengths, format};
    ///
    /// let options = Options::new().width(Some(4));
    /// let never = Strengths::new().with(Operator::Add, 0);
    /// assert_eq!(format("a + b", &options)?.text, "a\n  + b\n");
    /// assert_eq!(format("a + b", &options.clone().strengths(never))?.text, "a + b\n");
    /// assert_eq!(format("", &options.strengths([1, 2])), Err(Refusal::StrengthsLength));
    /// # Ok::<(), wirescript_format::Refusal>(())
    /// ```
    #[must_use]
    pub fn strengths(mut self, table: impl Into<Strengths>) -> Self {
        self.strengths = table.into();
        self
    }

    /// How tightly each operator binds.
    #[must_use]
    pub fn get_strengths(&self) -> &Strengths {
        &self.strengths
    }

    /// These options with a tab as their indent, or with `size` spaces. A size over 64 is refused,
    /// needed or not; the options that were asked stay as they are.
    ///
    /// ```
    /// use wirescript_format::{Options, Refusal};
    ///
    /// let options = Options::new().width(None);
    /// assert_eq!(options.indent_with(false, 4), Ok(Options::new().width(None).indent("    ")));
    /// assert_eq!(options.indent_with(true, 65), Err(Refusal::BadOption));
    /// assert_eq!(options, Options::new().width(None));
    /// ```
    ///
    /// # Errors
    /// [`Refusal::BadOption`] of the size, or of the indent that the options have.
    pub fn indent_with(&self, tabs: bool, size: u64) -> Result<Self, Refusal> {
        let mut indent = [0; MAX_INDENT];
        let set = raw::indent_with(self.choices(), u64::from(tabs), size, &mut indent);
        self.of(set, &indent)
    }

    /// These options overridden by what .editorconfig files say. A size over 64 is refused; the
    /// options that were asked stay as they are.
    ///
    /// ```
    /// use wirescript_format::{EditorConfig, IndentSize, Options, Refusal};
    ///
    /// let options = Options::new().indent("\t");
    /// let size = |n| EditorConfig::new().with_indent_size(IndentSize::Value(n));
    /// // no style is set: the tabs stay
    /// assert_eq!(options.with_editorconfig(size(4)), Ok(Options::new().indent("\t")));
    /// assert_eq!(options.with_editorconfig(size(65)), Err(Refusal::BadOption));
    /// assert_eq!(options, Options::new().indent("\t"));
    /// ```
    ///
    /// # Errors
    /// [`Refusal::BadOption`] of a size, or of the indent that the options have.
    pub fn with_editorconfig(&self, config: EditorConfig) -> Result<Self, Refusal> {
        let mut indent = [0; MAX_INDENT];
        let set = raw::editorconfig(self.choices(), config.resolved(), &mut indent);
        self.of(set, &indent)
    }

    /// The options as the library takes them.
    #[cfg_attr(not(feature = "raw"), doc(hidden))]
    #[must_use]
    pub fn choices(&self) -> Choices<'_> {
        Choices {
            indent: self.indent.as_bytes(),
            width_set: u64::from(self.width.is_some()),
            width: self.width.unwrap_or(0),
            line_ending: match self.line_ending {
                LineEnding::Kept => 0,
                LineEnding::Lf => 1,
                LineEnding::Crlf => 2,
            },
            final_newline: match self.final_newline {
                FinalNewline::AsSource => 0,
                FinalNewline::Always => 1,
                FinalNewline::Never => 2,
            },
            ruler_tab: self.ruler_tab,
            strengths: self.strengths.as_bytes(),
        }
    }

    /// The options that a setting step on these gave; their ruler tab and table stay.
    fn of(&self, set: Settings, indent: &[u8]) -> Result<Self, Refusal> {
        let set = set.accepted()?;
        let indent = &indent[..size(set.indent_len)];
        Ok(Self {
            indent: indent.iter().map(|b| char::from(*b)).collect(),
            width: (set.width_set == 1).then_some(set.width),
            line_ending: match set.line_ending {
                0 => LineEnding::Kept,
                1 => LineEnding::Lf,
                _ => LineEnding::Crlf,
            },
            final_newline: match set.final_newline {
                0 => FinalNewline::AsSource,
                1 => FinalNewline::Always,
                _ => FinalNewline::Never,
            },
            ruler_tab: self.ruler_tab,
            strengths: self.strengths.clone(),
        })
    }
}

/// `indent_style`.
#[derive(Clone, Copy, Debug, PartialEq, Eq)]
pub enum IndentStyle {
    /// `tab`.
    Tabs,
    /// `space`.
    Spaces,
}

/// `indent_size`.
#[derive(Clone, Copy, Debug, PartialEq, Eq)]
pub enum IndentSize {
    /// `tab`: the tab width.
    Tab,
    /// So many columns.
    Value(u64),
}

/// `max_line_length`.
#[derive(Clone, Copy, Debug, PartialEq, Eq)]
pub enum MaxLineLength {
    /// `off`.
    Off,
    /// So many UTF-16 units.
    Value(u64),
}

/// `end_of_line`.
#[derive(Clone, Copy, Debug, PartialEq, Eq)]
pub enum EndOfLine {
    /// `lf`.
    Lf,
    /// `crlf`.
    Crlf,
    /// `cr`, which changes nothing.
    Cr,
}

/// Resolved values of .editorconfig; `None` is unset.
#[derive(Clone, Copy, Debug, Default, PartialEq, Eq)]
#[non_exhaustive]
pub struct EditorConfig {
    /// Tabs or spaces.
    pub indent_style: Option<IndentStyle>,
    /// Columns of one level.
    pub indent_size: Option<IndentSize>,
    /// Columns of a tab.
    pub tab_width: Option<u64>,
    /// The print width.
    pub max_line_length: Option<MaxLineLength>,
    /// How lines end.
    pub end_of_line: Option<EndOfLine>,
    /// `false` gives [`FinalNewline::Never`], as the specification says.
    pub insert_final_newline: Option<bool>,
}

/// A function that sets a value.
macro_rules! setter {
    ($name:ident, $field:ident, $value:ty) => {
        #[doc = concat!("The same with `", stringify!($field), "` set.")]
        #[must_use]
        pub fn $name(mut self, value: $value) -> Self {
            self.$field = Some(value);
            self
        }
    };
}

impl EditorConfig {
    /// Nothing set.
    ///
    /// ```
    /// use wirescript_format::{EditorConfig, IndentSize, IndentStyle};
    ///
    /// let config = EditorConfig::new()
    ///     .with_indent_style(IndentStyle::Spaces)
    ///     .with_indent_size(IndentSize::Value(4));
    /// assert_eq!(config, EditorConfig::read("a", &["[*]\nindent_style=space\nindent_size=4"])?);
    /// # Ok::<(), wirescript_format::Refusal>(())
    /// ```
    #[must_use]
    pub fn new() -> Self {
        Self::default()
    }

    setter!(with_indent_style, indent_style, IndentStyle);
    setter!(with_indent_size, indent_size, IndentSize);
    setter!(with_tab_width, tab_width, u64);
    setter!(with_max_line_length, max_line_length, MaxLineLength);
    setter!(with_end_of_line, end_of_line, EndOfLine);
    setter!(with_insert_final_newline, insert_final_newline, bool);

    /// The values as the library takes them.
    #[cfg_attr(not(feature = "raw"), doc(hidden))]
    #[must_use]
    pub fn resolved(self) -> Resolved {
        let (size_kind, size) = match self.indent_size {
            None => (0, 0),
            Some(IndentSize::Tab) => (1, 0),
            Some(IndentSize::Value(n)) => (2, n),
        };
        let (max_kind, max) = match self.max_line_length {
            None => (0, 0),
            Some(MaxLineLength::Off) => (1, 0),
            Some(MaxLineLength::Value(n)) => (2, n),
        };
        Resolved {
            style: match self.indent_style {
                None => 0,
                Some(IndentStyle::Tabs) => 1,
                Some(IndentStyle::Spaces) => 2,
            },
            size_kind,
            size,
            tab_set: u64::from(self.tab_width.is_some()),
            tab: self.tab_width.unwrap_or(0),
            max_kind,
            max,
            ending: match self.end_of_line {
                None => 0,
                Some(EndOfLine::Lf) => 1,
                Some(EndOfLine::Crlf) => 2,
                Some(EndOfLine::Cr) => 3,
            },
            newline: self.insert_final_newline.map_or(0, |v| 1 + u64::from(v)),
        }
    }
}

#[cfg(test)]
mod tests {
    use super::*;

    #[test]
    fn options_as_numbers() {
        let choices = Choices {
            indent: b"  ",
            width_set: 1,
            width: 100,
            line_ending: 0,
            final_newline: 1,
            ruler_tab: 0,
            strengths: &[
                0x11, 0x23, 0x45, 0x66, 0x77, 0x77, 0x88, 0x9a, 0xab, 0xbb, 0xc0,
            ],
        };
        assert_eq!(Options::new().choices(), choices);
        let other = Options::new()
            .indent("\t")
            .width(None)
            .line_ending(LineEnding::Crlf)
            .final_newline(FinalNewline::AsSource)
            .ruler_tab(16)
            .strengths([1, 2, 3]);
        let choices = Choices {
            indent: b"\t",
            width_set: 0,
            width: 0,
            line_ending: 2,
            final_newline: 0,
            ruler_tab: 16,
            strengths: &[1, 2, 3],
        };
        assert_eq!(other.choices(), choices);
    }

    /// Each choice, to its number and back.
    #[test]
    fn every_choice() {
        let back = |set: Settings| Options::new().of(set, b"").expect("accepted");
        let endings = [LineEnding::Kept, LineEnding::Lf, LineEnding::Crlf];
        for (line_ending, ending) in (0..).zip(endings) {
            let options = Options::new().line_ending(ending);
            assert_eq!(options.choices().line_ending, line_ending);
            let set = Settings {
                line_ending,
                ..Settings::default()
            };
            assert_eq!(back(set).get_line_ending(), ending);
        }
        let newlines = [
            FinalNewline::AsSource,
            FinalNewline::Always,
            FinalNewline::Never,
        ];
        for (final_newline, newline) in (0..).zip(newlines) {
            let options = Options::new().final_newline(newline);
            assert_eq!(options.choices().final_newline, final_newline);
            let set = Settings {
                final_newline,
                ..Settings::default()
            };
            assert_eq!(back(set).get_final_newline(), newline);
        }
    }

    #[test]
    fn an_answer_becomes_options() {
        let mut set = Settings {
            indent_len: 1,
            line_ending: 1,
            ..Settings::default()
        };
        let wanted = Options::new()
            .indent("\t")
            .width(None)
            .line_ending(LineEnding::Lf)
            .final_newline(FinalNewline::AsSource)
            .ruler_tab(4)
            .strengths([7; 11]);
        // the ruler tab and the table are those that the options had
        let old = Options::new().ruler_tab(4).strengths([7; 11]);
        assert_eq!(old.of(set, b"\t\0"), Ok(wanted));
        set.refusal = 2;
        assert_eq!(old.of(set, b"\t\0"), Err(Refusal::BadOption));
        (set.refusal, set.place) = (17, 3);
        let other = Refusal::Other {
            number: 17,
            place: 3,
        };
        assert_eq!(old.of(set, b"\t\0"), Err(other));
    }

    #[test]
    fn resolved_values_as_numbers() {
        assert_eq!(EditorConfig::default().resolved(), Resolved::default());
        let config = EditorConfig {
            indent_style: Some(IndentStyle::Spaces),
            indent_size: Some(IndentSize::Value(3)),
            tab_width: Some(8),
            max_line_length: Some(MaxLineLength::Off),
            end_of_line: Some(EndOfLine::Cr),
            insert_final_newline: Some(true),
        };
        let resolved = Resolved {
            style: 2,
            size_kind: 2,
            size: 3,
            tab_set: 1,
            tab: 8,
            max_kind: 1,
            max: 0,
            ending: 3,
            newline: 2,
        };
        assert_eq!(config.resolved(), resolved);
    }
}
