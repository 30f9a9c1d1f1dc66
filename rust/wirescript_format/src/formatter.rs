//! The call that formats, and the buffers that every call is lent.

use alloc::borrow::ToOwned;
use alloc::string::String;
use alloc::vec;
use alloc::vec::Vec;

use crate::raw::{self, Refusable};
use crate::{MAX_SOURCE, Options, Refusal, size};

/// A formatted text, what splitting did, and the brackets that are never closed.
#[derive(Clone, Copy, Debug, PartialEq, Eq)]
#[non_exhaustive]
pub struct Formatted<Text = String, Lines = Vec<u64>> {
    /// The text.
    pub text: Text,
    /// Imports whose names were spread over lines.
    pub imports_split: u64,
    /// Blank names dropped in them.
    pub blank_names: u64,
    /// Brackets that are still open at the end.
    pub open_brackets: u64,
    /// Their source lines, from 0, the oldest first: all, or as many as [`Formatter::listed`] says.
    pub opened: Lines,
}

impl Formatted<&str, &[u64]> {
    /// The same in buffers of its own.
    #[must_use]
    pub fn into_owned(self) -> Formatted {
        Formatted {
            text: self.text.to_owned(),
            imports_split: self.imports_split,
            blank_names: self.blank_names,
            open_brackets: self.open_brackets,
            opened: self.opened.to_vec(),
        }
    }
}

/// Formats a source; see [`Formatter::format`].
///
/// ```
/// use wirescript_format::{Options, format};
///
/// let formatted = format("f(a,\n  [b,\n", &Options::new())?;
/// assert_eq!(formatted.opened, [0, 1]);
/// # Ok::<(), wirescript_format::Refusal>(())
/// ```
///
/// One pass is not always a fixed point: the text, formatted again, may change once more, since a line
/// that was broken is read as any other line is. [`format_stable`](crate::format_stable) formats until
/// nothing changes.
///
/// ```
/// use wirescript_format::{Options, format};
///
/// let options = Options::new().width(Some(6));
/// let once = format("price -5", &options)?.text;
/// assert_eq!(once, "price\n  -5\n");
/// // a line that starts with `-5` starts a statement of its own, and so has no indent
/// let twice = format(&once, &options)?.text;
/// assert_eq!(twice, "price\n-5\n");
/// assert_eq!(format(&twice, &options)?.text, twice);
/// # Ok::<(), wirescript_format::Refusal>(())
/// ```
///
/// # Errors
/// As [`Formatter::format`].
pub fn format(source: impl AsRef<[u8]>, options: &Options) -> Result<Formatted, Refusal> {
    Ok(Formatter::new().format(source, options)?.into_owned())
}

/// Keeps the buffers of its calls.
///
/// ```
/// use wirescript_format::{Formatter, Options, TextKind};
///
/// let mut formatter = Formatter::new();
/// assert_eq!(formatter.format("a ,b", &Options::new())?.text, "a, b\n");
/// assert_eq!(formatter.text_kind_at("a // b", 0, 3)?, TextKind::Comment);
/// # Ok::<(), wirescript_format::Refusal>(())
/// ```
#[derive(Clone, Debug)]
pub struct Formatter {
    pub(crate) output: Vec<u8>,
    scratch: Vec<u8>,
    /// The text of the pass before.
    pub(crate) previous: Vec<u8>,
    /// A list of places, as numbers.
    pub(crate) places: Vec<u64>,
    /// The lines of the open brackets; its length is how many are listed.
    opened: Vec<u64>,
    /// A list of changes, as numbers.
    pub(crate) changes: Vec<u64>,
    most: usize,
    /// The length of the last text: the next may well be of the same file.
    pub(crate) last: usize,
}

/// What a call is lent.
pub(crate) struct Lent<'a> {
    pub output: &'a mut [u8],
    pub opened: &'a mut [u64],
    pub changes: &'a mut [u64],
    pub scratch: &'a mut [u8],
}

impl Default for Formatter {
    fn default() -> Self {
        Self {
            output: Vec::new(),
            scratch: Vec::new(),
            previous: Vec::new(),
            places: Vec::new(),
            opened: vec![0; Self::LISTED],
            changes: Vec::new(),
            most: Self::MOST,
            last: 0,
        }
    }
}

impl Formatter {
    /// The longest text by default. Deep nesting makes a text grow with the square of its
    /// source, so there must be an end.
    pub const MOST: usize = 64 << 20;

    /// How many open brackets are listed by default.
    pub const LISTED: usize = 1000;

    /// A formatter with no buffers yet, and the defaults for what it lists and how long a text may be.
    #[must_use]
    pub fn new() -> Self {
        Self::default()
    }

    /// Refuse a text of more bytes than this, with [`Refusal::OutputShort`].
    ///
    /// ```
    /// use wirescript_format::{Formatter, Options, Refusal};
    ///
    /// let mut formatter = Formatter::new().most(3);
    /// let refused = formatter.format("abc", &Options::new());
    /// assert_eq!(refused, Err(Refusal::OutputShort { needed: 4 }));
    /// assert_eq!(formatter.get_most(), 3);
    /// ```
    #[must_use]
    pub fn most(mut self, bytes: usize) -> Self {
        self.most = bytes;
        self
    }

    /// How many bytes a text may have.
    #[must_use]
    pub fn get_most(&self) -> usize {
        self.most
    }

    /// List the lines of this many open brackets, the oldest; all are counted whatever it is.
    ///
    /// ```
    /// use wirescript_format::{Formatter, Options};
    ///
    /// let mut formatter = Formatter::new().listed(1);
    /// let formatted = formatter.format("\n(\n[\n", &Options::new())?;
    /// assert_eq!((formatted.open_brackets, formatted.opened), (2, &[1][..]));
    /// assert_eq!(formatter.get_listed(), 1);
    /// # Ok::<(), wirescript_format::Refusal>(())
    /// ```
    #[must_use]
    pub fn listed(mut self, brackets: usize) -> Self {
        self.opened = vec![0; brackets];
        self
    }

    /// How many open brackets are listed.
    #[must_use]
    pub fn get_listed(&self) -> usize {
        self.opened.len()
    }

    /// Formats a source. The text and the lines of open brackets stay in the formatter's buffers. One pass is
    /// not always a fixed point: see [`format`].
    ///
    /// ```
    /// use wirescript_format::{Formatter, Options};
    ///
    /// let options = Options::new().width(Some(10));
    /// let mut formatter = Formatter::new();
    /// let formatted = formatter.format("import {a,,,b} from \"l\"\n(", &options)?;
    /// assert_eq!(formatted.text, "import {\n  a, b,\n} from \"l\"\n(\n");
    /// assert_eq!((formatted.imports_split, formatted.blank_names), (1, 2));
    /// assert_eq!((formatted.open_brackets, formatted.opened), (1, &[1][..]));
    /// # Ok::<(), wirescript_format::Refusal>(())
    /// ```
    ///
    /// # Errors
    /// In this order: [`Refusal::StrengthsLength`] and [`Refusal::StrengthsBits`] of the table of strengths,
    /// [`Refusal::SourceTooLong`], [`Refusal::BadOption`] of the indent, [`Refusal::RulerTooWide`],
    /// [`Refusal::NotUtf8`], and [`Refusal::OutputShort`] of a text over [`Formatter::most`].
    pub fn format(
        &mut self,
        source: impl AsRef<[u8]>,
        options: &Options,
    ) -> Result<Formatted<&str, &[u64]>, Refusal> {
        let source = source.as_ref();
        let answer = self.with_room(source, |lent| {
            let (output, opened) = (lent.output, lent.opened);
            raw::format(source, options.choices(), output, opened, lent.scratch)
        })?;
        self.last = size(answer.length);
        let listed = self.opened.len().min(size(answer.open_brackets));
        Ok(Formatted {
            text: utf8(&self.output[..self.last]),
            imports_split: answer.imports_split,
            blank_names: answer.blank_names,
            open_brackets: answer.open_brackets,
            opened: &self.opened[..listed],
        })
    }

    /// A call with room for a text like the last one, and if that is too short, with what is needed.
    pub(crate) fn with_room<Answer: Refusable>(
        &mut self,
        source: &[u8],
        call: impl Fn(Lent) -> Answer,
    ) -> Result<Answer, Refusal> {
        let room = |length: usize| length.saturating_add(length / 4 + 256);
        let guess = source.len().max(self.last);
        match call(self.lend(source, room(guess))).accepted() {
            // the place is the text's length; with as much more as the next call will ask for
            Err(Refusal::OutputShort { needed }) if size(needed) <= self.most => {
                call(self.lend(source, room(size(needed)))).accepted()
            }
            other => other,
        }
    }

    pub(crate) fn lend(&mut self, source: &[u8], room: usize) -> Lent<'_> {
        Lent {
            output: part(&mut self.output, room.min(self.most)),
            opened: &mut self.opened,
            changes: &mut self.changes,
            scratch: part(&mut self.scratch, scratch_for(12, source)),
        }
    }

    /// Room for so many kinds, the list of places, and the scratch that asking for kinds needs.
    pub(crate) fn lend_kinds(
        &mut self,
        source: &[u8],
        kinds: usize,
    ) -> (&mut [u8], &[u64], &mut [u8]) {
        let scratch = part(&mut self.scratch, scratch_for(8, source));
        (part(&mut self.output, kinds), &self.places, scratch)
    }
}

/// The characters of a text.
pub(crate) fn utf8(text: &[u8]) -> &str {
    core::str::from_utf8(text).expect("the text is proved to be UTF-8")
}

/// The scratch that a source needs, so many bytes for each of its own; one that is too long needs no
/// more than the longest.
fn scratch_for(each: usize, source: &[u8]) -> usize {
    each * source.len().min(MAX_SOURCE) + 256
}

/// The first `length` bytes of a buffer, which grows where it is shorter.
fn part(buffer: &mut Vec<u8>, length: usize) -> &mut [u8] {
    if buffer.len() < length {
        buffer.resize(length, 0);
    }
    &mut buffer[..length]
}
