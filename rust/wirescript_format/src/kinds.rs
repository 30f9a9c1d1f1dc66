//! The text kinds of many places, in one reading of the source.

use alloc::vec::Vec;

use crate::raw::{self, Refusable};
use crate::{Formatter, Refusal};

/// What an editor is told of a place.
#[derive(Clone, Copy, Debug, PartialEq, Eq, Hash)]
pub enum TextKind {
    /// Code, including a `${..}` in a string, a prefab, and a place past the end.
    Code,
    /// A string.
    Str,
    /// A comment.
    Comment,
}

impl TextKind {
    /// The kind that a number of the library names.
    fn of(number: u64) -> Self {
        match number {
            0 => Self::Code,
            1 => Self::Str,
            _ => Self::Comment,
        }
    }
}

/// The text kind at a place; see [`Formatter::text_kind_at`].
///
/// ```
/// use wirescript_format::{TextKind, text_kind_at};
///
/// assert_eq!(text_kind_at("a\n'b' // c", 1, 2), Ok(TextKind::Str));
/// assert_eq!(text_kind_at("a\n'b' // c", 1, 3), Ok(TextKind::Code));
/// ```
///
/// # Errors
/// As [`Formatter::text_kind_at`].
pub fn text_kind_at(source: impl AsRef<[u8]>, line: u64, column: u64) -> Result<TextKind, Refusal> {
    Formatter::new().text_kind_at(source, line, column)
}

/// The text kinds of places; see [`Formatter::text_kinds`].
///
/// # Errors
/// As [`Formatter::text_kinds`].
///
/// ```
/// use wirescript_format::{TextKind, text_kinds};
///
/// let kinds = text_kinds("a // b\n\"c\"", &[(0, 0), (0, 3), (1, 1)])?;
/// assert_eq!(kinds, [TextKind::Code, TextKind::Comment, TextKind::Str]);
/// # Ok::<(), wirescript_format::Refusal>(())
/// ```
pub fn text_kinds(
    source: impl AsRef<[u8]>,
    places: &[(u64, u64)],
) -> Result<Vec<TextKind>, Refusal> {
    Formatter::new().text_kinds(source, places.iter().copied())
}

impl Formatter {
    /// The text kind at a line and a character column, both from 0.
    ///
    /// ```
    /// use wirescript_format::{Formatter, TextKind};
    ///
    /// let mut formatter = Formatter::new();
    /// // the second column of the first line, and the first of the second
    /// assert_eq!(formatter.text_kind_at("a// b\nc", 0, 1), Ok(TextKind::Comment));
    /// assert_eq!(formatter.text_kind_at("a// b\nc", 1, 0), Ok(TextKind::Code));
    /// ```
    ///
    /// # Errors
    /// [`Refusal::SourceTooLong`] and [`Refusal::NotUtf8`].
    pub fn text_kind_at(
        &mut self,
        source: impl AsRef<[u8]>,
        line: u64,
        column: u64,
    ) -> Result<TextKind, Refusal> {
        let source = source.as_ref();
        let (_, _, scratch) = self.lend_kinds(source, 0);
        let answer = raw::text_kind_at(source, line, column, scratch).accepted()?;
        Ok(TextKind::of(answer.kind))
    }

    /// The text kind of each place, a line and a character column from 0, in the order given.
    /// The source is read once, up to the largest line asked for.
    ///
    /// # Errors
    /// [`Refusal::PlacesUnordered`] if a place stands before the one in front of it; refusals of the
    /// source as [`Formatter::text_kind_at`].
    ///
    /// ```
    /// use wirescript_format::{Formatter, Refusal, TextKind};
    ///
    /// let mut formatter = Formatter::new();
    /// let line = (0..5).map(|column| (0, column));
    /// let kinds = formatter.text_kinds("'a' b", line)?;
    /// assert_eq!(kinds[2..], [TextKind::Str, TextKind::Code, TextKind::Code]);
    /// assert_eq!(formatter.text_kinds("a", [(1, 0), (0, 0)]), Err(Refusal::PlacesUnordered));
    /// # Ok::<(), Refusal>(())
    /// ```
    pub fn text_kinds(
        &mut self,
        source: impl AsRef<[u8]>,
        places: impl IntoIterator<Item = (u64, u64)>,
    ) -> Result<Vec<TextKind>, Refusal> {
        let source = source.as_ref();
        self.places.clear();
        self.places
            .extend(places.into_iter().flat_map(|(line, column)| [line, column]));
        let (kinds, places, scratch) = self.lend_kinds(source, self.places.len() / 2);
        raw::text_kinds(source, places, kinds, scratch).accepted()?;
        let kinds = kinds.iter().map(|kind| TextKind::of(u64::from(*kind)));
        Ok(kinds.collect())
    }
}
