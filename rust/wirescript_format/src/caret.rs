//! A formatted text, and where the caret goes in it.

use alloc::borrow::ToOwned;
use alloc::string::String;

use crate::formatter::utf8;
use crate::{Formatter, Options, Refusal, raw, size};

/// A formatted text, with the caret's line and character column in it, both from 0.
#[derive(Clone, Copy, Debug, PartialEq, Eq)]
#[non_exhaustive]
pub struct WithCaret<Text = String> {
    /// The text.
    pub text: Text,
    /// Imports whose names were spread over lines.
    pub imports_split: u64,
    /// Blank names dropped in them.
    pub blank_names: u64,
    /// The caret's line.
    pub line: u64,
    /// Its column, in characters.
    pub column: u64,
}

/// Formats a source and moves the caret; see [`Formatter::format_with_caret`].
///
/// # Errors
/// As [`Formatter::format_with_caret`].
///
/// ```
/// use wirescript_format::{Options, format_with_caret};
///
/// // before the b
/// let moved = format_with_caret("{\na ,b\n}", &Options::new(), 1, 3)?;
/// assert_eq!(moved.text, "{\n  a, b\n}\n");
/// assert_eq!((moved.line, moved.column), (1, 5));
/// # Ok::<(), wirescript_format::Refusal>(())
/// ```
pub fn format_with_caret(
    source: impl AsRef<[u8]>,
    options: &Options,
    line: u64,
    column: u64,
) -> Result<WithCaret, Refusal> {
    let mut buffers = Formatter::new();
    let moved = buffers.format_with_caret(source, options, line, column)?;
    Ok(WithCaret {
        text: moved.text.to_owned(),
        imports_split: moved.imports_split,
        blank_names: moved.blank_names,
        line: moved.line,
        column: moved.column,
    })
}

impl Formatter {
    /// Formats a source, and moves the caret from a line and a character column of it to the same
    /// letter of the text. White space and commas aren't counted: a caret before one of them goes
    /// directly behind the last letter before it, or to the start. The text stays in the formatter's
    /// buffer.
    ///
    /// # Errors
    /// [`Refusal::NoPlace`] if the source has no such line or the line no such column; other refusals
    /// as [`Formatter::format`].
    ///
    /// ```
    /// use wirescript_format::{Formatter, Options, Refusal};
    ///
    /// let mut formatter = Formatter::new();
    /// let options = Options::new();
    /// let moved = formatter.format_with_caret("a  \n\n\n\n\u{e9}", &options, 4, 1)?;
    /// assert_eq!(moved.text, "a\n\n\u{e9}\n");
    /// assert_eq!((moved.line, moved.column), (2, 1));
    /// let moved = formatter.format_with_caret("a  \nb", &options, 0, 3)?;
    /// assert_eq!((moved.line, moved.column), (0, 1));
    /// let past = formatter.format_with_caret("a\n", &options, 2, 0);
    /// assert_eq!(past, Err(Refusal::NoPlace));
    /// # Ok::<(), Refusal>(())
    /// ```
    pub fn format_with_caret(
        &mut self,
        source: impl AsRef<[u8]>,
        options: &Options,
        line: u64,
        column: u64,
    ) -> Result<WithCaret<&str>, Refusal> {
        let source = source.as_ref();
        let answer = self.with_room(source, |lent| {
            let (output, scratch) = (lent.output, lent.scratch);
            raw::format_caret(source, options.choices(), line, column, output, scratch)
        })?;
        self.last = size(answer.length);
        Ok(WithCaret {
            text: utf8(&self.output[..self.last]),
            imports_split: answer.imports_split,
            blank_names: answer.blank_names,
            line: answer.line,
            column: answer.column,
        })
    }
}
