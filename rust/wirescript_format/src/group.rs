//! How an expression groups (C-21).

use alloc::borrow::ToOwned;
use alloc::string::String;

use crate::formatter::utf8;
use crate::{Formatter, Refusal, raw, size};

/// How deep the brackets of an expression may stand.
pub const MAX_DEPTH: usize = 64;

/// Writes an expression with every operation bracketed, so that it shows which operator binds
/// first. The source's own brackets go; a sign gets none.
///
/// ```
/// use wirescript_format::{Refusal, group};
///
/// assert_eq!(group("a + b*c - -d").as_deref(), Ok("((a + (b * c)) - -d)"));
/// assert_eq!(group("2**3**2").as_deref(), Ok("(2 ** (3 ** 2))"));
/// assert_eq!(group("a + "), Err(Refusal::NotExpression { place: 4 }));
/// ```
///
/// # Errors
/// As [`Formatter::group`].
pub fn group(source: impl AsRef<[u8]>) -> Result<String, Refusal> {
    Formatter::new().group(source).map(ToOwned::to_owned)
}

impl Formatter {
    /// Writes an expression with every operation bracketed; see [`group`]. The text stays in the
    /// formatter's buffer.
    ///
    /// ```
    /// use wirescript_format::Formatter;
    ///
    /// let mut formatter = Formatter::new();
    /// assert_eq!(formatter.group("a && b || c"), Ok("((a && b) || c)"));
    /// ```
    ///
    /// # Errors
    /// [`Refusal::NotExpression`] and [`Refusal::TooDeep`] say where a source is none; refusals of the
    /// source and of a text that is too long as [`Formatter::format`].
    pub fn group(&mut self, source: impl AsRef<[u8]>) -> Result<&str, Refusal> {
        let source = source.as_ref();
        let answer =
            self.with_room(source, |lent| raw::group(source, lent.output, lent.scratch))?;
        Ok(utf8(&self.output[..size(answer.length)]))
    }
}
