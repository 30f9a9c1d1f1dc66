//! Formatting until nothing changes.

use alloc::borrow::ToOwned;
use alloc::string::String;
use alloc::vec::Vec;
use core::mem;

use crate::formatter::utf8;
use crate::{Formatter, Options, Refusal};

/// A text that was formatted until a pass changed nothing, or five times.
#[derive(Clone, Copy, Debug, PartialEq, Eq)]
#[non_exhaustive]
pub struct Stable<Text = String> {
    /// The text of the last pass.
    pub text: Text,
    /// How many passes there were, from 1 to 5. Where the text is stable the last of them changed nothing: a
    /// source that is formatted has 1, one that a single pass formats has 2.
    pub passes: u32,
    /// Whether the last pass changed nothing.
    pub stable: bool,
    /// Imports whose names were spread over lines, in all passes together.
    pub imports_split: u64,
    /// Blank names dropped in them.
    pub blank_names: u64,
}

impl<Text> Stable<Text> {
    /// The same with another text.
    fn with<Other>(self, text: Other) -> Stable<Other> {
        Stable {
            text,
            passes: self.passes,
            stable: self.stable,
            imports_split: self.imports_split,
            blank_names: self.blank_names,
        }
    }
}

/// Formats a source until nothing changes; see [`Formatter::format_stable`].
///
/// ```
/// use wirescript_format::{Options, format, format_stable};
///
/// let options = Options::new().width(Some(6));
/// assert_eq!(format("price -5", &options)?.text, "price\n  -5\n");
/// let stable = format_stable("price -5", &options)?;
/// assert_eq!(stable.text, "price\n-5\n");
/// assert_eq!((stable.passes, stable.stable), (3, true));
/// # Ok::<(), wirescript_format::Refusal>(())
/// ```
///
/// # Errors
/// As [`Formatter::format_stable`].
pub fn format_stable(source: impl AsRef<[u8]>, options: &Options) -> Result<Stable, Refusal> {
    let mut buffers = Formatter::new();
    let stable = buffers.format_stable(source, options)?;
    Ok(stable.with(stable.text.to_owned()))
}

impl Formatter {
    /// The most passes of [`Formatter::format_stable`].
    pub const PASSES: u32 = 5;

    /// Formats a source, its text, that one's text and so on, until a pass changes nothing, at most
    /// [`Formatter::PASSES`] times. The text stays in the formatter's buffer.
    ///
    /// ```
    /// use wirescript_format::{Formatter, Options};
    ///
    /// let mut formatter = Formatter::new();
    /// let mut passes = |source: &str| {
    ///     formatter.format_stable(source, &Options::new()).map(|stable| stable.passes)
    /// };
    /// assert_eq!(passes("a, b\n"), Ok(1));
    /// assert_eq!(passes("a ,b"), Ok(2));
    /// ```
    ///
    /// # Errors
    /// As [`Formatter::format`], of the source or of a pass's text, which may be too long for the next.
    pub fn format_stable(
        &mut self,
        source: impl AsRef<[u8]>,
        options: &Options,
    ) -> Result<Stable<&str>, Refusal> {
        // taken, so that it can be read while the other buffers are lent
        let mut previous = mem::take(&mut self.previous);
        previous.clear();
        previous.extend_from_slice(source.as_ref());
        let found = self.passes(&mut previous, options);
        self.previous = previous;
        Ok(found?.with(utf8(&self.output[..self.last])))
    }

    /// The passes over a text, whose last one stays in the output.
    fn passes(&mut self, text: &mut Vec<u8>, options: &Options) -> Result<Stable<()>, Refusal> {
        let mut found = Stable {
            text: (),
            passes: 0,
            stable: false,
            imports_split: 0,
            blank_names: 0,
        };
        while !found.stable && found.passes < Self::PASSES {
            let formatted = self.format(&*text, options)?;
            found.passes += 1;
            found.stable = formatted.text.as_bytes() == text.as_slice();
            found.imports_split += formatted.imports_split;
            found.blank_names += formatted.blank_names;
            text.clear();
            text.extend_from_slice(formatted.text.as_bytes());
        }
        Ok(found)
    }
}
