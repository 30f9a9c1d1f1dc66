//! What formatting changes, in place of a whole text.

use alloc::borrow::ToOwned;
use alloc::string::String;
use alloc::vec::Vec;
use core::ops::Range;

use crate::formatter::{Lent, utf8};
use crate::{Formatter, MAX_SOURCE, Options, Refusal, raw, size};

/// The bytes of the source in `range` give way to `text`. Only white space and commas do, and only
/// they are put in. Both fields are all that a change is, so that a caller can make one for [`apply`].
#[derive(Clone, Debug, PartialEq, Eq)]
pub struct Change<Text = String> {
    /// Bytes of the source.
    pub range: Range<usize>,
    /// What takes their place.
    pub text: Text,
}

/// The changes that turn a source into its text, in ascending order, and what splitting did.
#[derive(Clone, Debug, PartialEq, Eq)]
#[non_exhaustive]
pub struct Changes<Text = String> {
    /// The changes.
    pub changes: Vec<Change<Text>>,
    /// Imports whose names were spread over lines.
    pub imports_split: u64,
    /// Blank names dropped in them.
    pub blank_names: u64,
}

/// The changes that formatting makes; see [`Formatter::format_changes`].
///
/// # Errors
/// As [`Formatter::format_changes`].
///
/// ```
/// use wirescript_format::{Change, Options, format_changes};
///
/// let found = format_changes("f(a ,b)\n", &Options::new())?;
/// let change = Change { range: 3..5, text: ", ".to_owned() };
/// assert_eq!(found.changes, [change]);
/// # Ok::<(), wirescript_format::Refusal>(())
/// ```
pub fn format_changes(source: impl AsRef<[u8]>, options: &Options) -> Result<Changes, Refusal> {
    let mut buffers = Formatter::new();
    let found = buffers.format_changes(source, options)?;
    let owned = |change: &Change<&str>| Change {
        range: change.range.clone(),
        text: change.text.to_owned(),
    };
    Ok(Changes {
        changes: found.changes.iter().map(owned).collect(),
        imports_split: found.imports_split,
        blank_names: found.blank_names,
    })
}

/// Carries out changes, which ascend without overlap, on the source that they are of.
///
/// ```
/// use wirescript_format::{Options, apply, format, format_changes};
///
/// let source = "import {a,b}\n  x=1 ,\r\n";
/// let found = format_changes(source, &Options::new())?;
/// assert_eq!(apply(source, &found.changes), format(source, &Options::new())?.text);
/// # Ok::<(), wirescript_format::Refusal>(())
/// ```
///
/// # Panics
/// If they are of another source: where a range lies outside of it, within a character, or before the last one's end.
pub fn apply<Text: AsRef<str>>(source: &str, changes: &[Change<Text>]) -> String {
    let mut text = String::with_capacity(source.len());
    let mut at = 0;
    for change in changes {
        text.push_str(&source[at..change.range.start]);
        text.push_str(change.text.as_ref());
        at = change.range.end;
    }
    text + &source[at..]
}

impl Formatter {
    /// The changes that turn a source into its text: one for each gap between neighbouring letters,
    /// which are the characters other than white space and commas, that formatting changes. A source
    /// that is formatted has none. The texts stay in the formatter's buffer.
    ///
    /// # Errors
    /// As [`Formatter::format`].
    ///
    /// ```
    /// use wirescript_format::{Formatter, Options};
    ///
    /// let mut formatter = Formatter::new();
    /// let found = formatter.format_changes(" a  b ", &Options::new())?;
    /// let ranges: Vec<_> = found.changes.iter().map(|c| (c.range.clone(), c.text)).collect();
    /// assert_eq!(ranges, [(0..1, ""), (2..4, " "), (5..6, "\n")]);
    /// assert!(formatter.format_changes("a b\n", &Options::new())?.changes.is_empty());
    /// # Ok::<(), wirescript_format::Refusal>(())
    /// ```
    pub fn format_changes(
        &mut self,
        source: impl AsRef<[u8]>,
        options: &Options,
    ) -> Result<Changes<&str>, Refusal> {
        let source = source.as_ref();
        // a change for every eight bytes; the place of a refusal is how many there are
        let guess = 4 * (source.len().min(MAX_SOURCE) / 8 + 16);
        if self.changes.len() < guess {
            self.changes.resize(guess, 0);
        }
        let call = |lent: Lent| {
            let (output, list) = (lent.output, lent.changes);
            raw::format_changes(source, options.choices(), output, list, lent.scratch)
        };
        let answer = match self.with_room(source, call) {
            Err(Refusal::ListShort { needed }) => {
                self.changes.resize(4 * size(needed), 0);
                self.with_room(source, call)
            }
            other => other,
        }?;
        self.last = size(answer.length);
        let text = utf8(&self.output[..self.last]);
        let change = |entry: &[u64]| {
            let [at, removed, from, put] = [0, 1, 2, 3].map(|field| size(entry[field]));
            Change {
                range: at..at + removed,
                text: &text[from..from + put],
            }
        };
        let entries = self.changes.chunks_exact(4);
        Ok(Changes {
            changes: entries.take(size(answer.changes)).map(change).collect(),
            imports_split: answer.imports_split,
            blank_names: answer.blank_names,
        })
    }
}
