//! Whether a source is formatted already (C-19).

use crate::raw::{self, Refusable};
use crate::{Formatter, Options, Refusal};

/// Whether a source is formatted, and how much of it was read to tell.
#[derive(Clone, Copy, Debug, PartialEq, Eq)]
#[non_exhaustive]
pub struct Check {
    /// Whether the text would equal the source.
    pub formatted: bool,
    /// The lines read, all of them where it is formatted. A last LF is followed by one more line, an empty one.
    pub lines_read: u64,
}

/// Whether formatting would leave a source as it is; see [`Formatter::check`].
///
/// ```
/// use wirescript_format::{LineEnding, Options, is_formatted};
///
/// let options = Options::new().line_ending(LineEnding::Lf);
/// assert_eq!(is_formatted("f(a, b)\n", &options), Ok(true));
/// assert_eq!(is_formatted("f(a ,b)\n", &options), Ok(false));
/// ```
///
/// # Errors
/// As [`Formatter::check`].
pub fn is_formatted(source: impl AsRef<[u8]>, options: &Options) -> Result<bool, Refusal> {
    Formatter::new().is_formatted(source, options)
}

impl Formatter {
    /// Whether formatting would leave a source as it is; see [`Formatter::check`].
    ///
    /// ```
    /// use wirescript_format::{Formatter, LineEnding, Options};
    ///
    /// let mut formatter = Formatter::new();
    /// let crlf = Options::new().line_ending(LineEnding::Crlf);
    /// assert_eq!(formatter.is_formatted("a\r\n", &crlf), Ok(true));
    /// assert_eq!(formatter.is_formatted("a\n", &crlf), Ok(false));
    /// ```
    ///
    /// # Errors
    /// As [`Formatter::check`].
    pub fn is_formatted(
        &mut self,
        source: impl AsRef<[u8]>,
        options: &Options,
    ) -> Result<bool, Refusal> {
        Ok(self.check(source, options)?.formatted)
    }

    /// Whether the text of a source would equal it. No text is written, and reading stops soon after the first line
    /// that formatting changes.
    ///
    /// ```
    /// use wirescript_format::{Formatter, LineEnding, Options, Refusal};
    ///
    /// let options = Options::new().line_ending(LineEnding::Lf);
    /// let mut formatter = Formatter::new();
    /// let check = formatter.check(" a\nb\nc\n", &options)?;
    /// assert_eq!((check.formatted, check.lines_read), (false, 2));
    /// let check = formatter.check("a\nb\nc\n", &options)?;
    /// assert_eq!((check.formatted, check.lines_read), (true, 4));
    /// // what the ending will be is known when all lines are read, too late for a check
    /// assert_eq!(formatter.check("a\n", &Options::new()), Err(Refusal::BadOption));
    /// # Ok::<(), Refusal>(())
    /// ```
    ///
    /// # Errors
    /// As [`Formatter::format`], without [`Refusal::OutputShort`]; and [`Refusal::BadOption`] for
    /// [`LineEnding::Kept`](crate::LineEnding::Kept).
    pub fn check(&mut self, source: impl AsRef<[u8]>, options: &Options) -> Result<Check, Refusal> {
        let source = source.as_ref();
        let scratch = self.lend(source, 0).scratch;
        let answer = raw::is_formatted(source, options.choices(), scratch).accepted()?;
        Ok(Check {
            formatted: answer.formatted == 1,
            lines_read: answer.lines_read,
        })
    }
}
