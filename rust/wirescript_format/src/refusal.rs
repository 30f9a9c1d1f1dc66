//! Why a call was turned away, and where.

use core::error::Error;
use core::fmt;

use crate::editorconfig::MAX_TEXT;
use crate::{Position, position, size};

/// The longest source, in bytes.
pub const MAX_SOURCE: usize = 1_048_576;

/// The place of the refusal of a longer one.
const SOURCE_END: u64 = MAX_SOURCE as u64;

/// The longest indent, in bytes.
pub const MAX_INDENT: usize = 64;

/// The largest ruler tab, in columns.
pub const MAX_RULER: u64 = 16;

/// Why a call was turned away. `Display` says it in words.
///
/// ```
/// use wirescript_format::{Options, Refusal, format};
///
/// let source = b"f(a)\nb\xff";
/// let refusal = format(source, &Options::new()).expect_err("refused");
/// assert_eq!(refusal, Refusal::NotUtf8 { prefix: 6 });
/// assert_eq!(refusal.to_string(), "the source is not UTF-8 at byte 6");
/// let place = refusal.position(source).expect("a place of the source");
/// assert_eq!((place.line, place.column), (1, 1));
/// ```
#[derive(Clone, Copy, Debug, PartialEq, Eq)]
#[non_exhaustive]
pub enum Refusal {
    /// The source is over [`MAX_SOURCE`] bytes.
    SourceTooLong,
    /// The indent is over [`MAX_INDENT`] bytes or has a byte other than space or tab, or a
    /// size is over [`MAX_INDENT`]; or a check was asked for with a line ending that is kept.
    BadOption,
    /// The scratch buffer is under this many bytes.
    ScratchShort {
        /// The bytes.
        needed: u64,
    },
    /// The source is not well-formed UTF-8 after this many bytes. Of .editorconfig texts and their
    /// path, 0: one of them isn't.
    NotUtf8 {
        /// The bytes.
        prefix: u64,
    },
    /// The text takes this many bytes, more than the output has.
    OutputShort {
        /// The bytes.
        needed: u64,
    },
    /// The source has no such line, or the line is shorter than the column.
    NoPlace,
    /// An .editorconfig text is over [`crate::editorconfig::MAX_TEXT`] bytes.
    ConfigTooLong,
    /// A section of an .editorconfig text has a name of more than 1,024 characters.
    NameTooLong,
    /// The places are not in ascending order of line, then column.
    PlacesUnordered,
    /// There are fewer answer bytes than places.
    KindsShort,
    /// The ruler tab is over [`MAX_RULER`] columns.
    RulerTooWide,
    /// The table of strengths has another length than 11 bytes.
    StrengthsLength,
    /// The last four bits of the table of strengths are not zero.
    StrengthsBits,
    /// No expression has the character at this byte of the source, or the source ends early there.
    NotExpression {
        /// The byte.
        place: u64,
    },
    /// The bracket at this byte of the source stands deeper than 64.
    TooDeep {
        /// The byte.
        place: u64,
    },
    /// There are this many changes, more than the list has room for.
    ListShort {
        /// The changes.
        needed: u64,
    },
    /// A refusal that this crate has no name for, as the library tells it.
    Other {
        /// The refusal's number.
        number: u64,
        /// The place that is named with it.
        place: u64,
    },
}

impl Refusal {
    /// The byte of the source that it is about: the first that is too many, isn't UTF-8, fits no expression, or is a
    /// bracket that stands too deep. `None` for a refusal of something else.
    ///
    /// A refusal of .editorconfig texts doesn't say where: its offset is 0, of none of them.
    ///
    /// ```
    /// use wirescript_format::{Refusal, group};
    ///
    /// assert_eq!(group("a ? b").map_err(Refusal::offset), Err(Some(2)));
    /// assert_eq!(Refusal::BadOption.offset(), None);
    /// ```
    #[must_use]
    pub fn offset(self) -> Option<usize> {
        match self {
            Self::SourceTooLong
            | Self::NotUtf8 { .. }
            | Self::NotExpression { .. }
            | Self::TooDeep { .. } => Some(size(self.place())),
            _ => None,
        }
    }

    /// Line and columns, from 0, of the byte of the source that it is about, in characters and in UTF-16 units.
    ///
    /// ```
    /// use wirescript_format::{Options, format};
    ///
    /// let source = b"a\n\xf0\x9f\x98\x80\xff";
    /// let refusal = format(source, &Options::new()).expect_err("not UTF-8");
    /// let place = refusal.position(source).expect("a place");
    /// // behind an emoji
    /// assert_eq!((place.line, place.column, place.utf16_column), (1, 1, 2));
    /// ```
    #[must_use]
    pub fn position(self, source: impl AsRef<[u8]>) -> Option<Position> {
        self.offset().map(|offset| position(source, offset))
    }

    /// The refusal that a number and a place name; `None` for an accepted call.
    ///
    /// ```
    /// use wirescript_format::Refusal;
    ///
    /// assert_eq!(Refusal::of(4, 7), Some(Refusal::NotUtf8 { prefix: 7 }));
    /// assert_eq!(Refusal::of(99, 7), Some(Refusal::Other { number: 99, place: 7 }));
    /// assert_eq!(Refusal::of(0, 0), None);
    /// ```
    #[cfg_attr(not(feature = "raw"), doc(hidden))]
    #[must_use]
    pub fn of(number: u64, place: u64) -> Option<Self> {
        Some(match (number, place) {
            (0, _) => return None,
            (1, SOURCE_END) => Self::SourceTooLong,
            (2, 0) => Self::BadOption,
            (3, needed) => Self::ScratchShort { needed },
            (4, prefix) => Self::NotUtf8 { prefix },
            (5, needed) => Self::OutputShort { needed },
            (6, 0) => Self::NoPlace,
            (7, 0) => Self::ConfigTooLong,
            (8, 0) => Self::NameTooLong,
            (9, 0) => Self::PlacesUnordered,
            (10, 0) => Self::KindsShort,
            (11, 0) => Self::RulerTooWide,
            (12, 0) => Self::StrengthsLength,
            (13, 0) => Self::StrengthsBits,
            (14, place) => Self::NotExpression { place },
            (15, place) => Self::TooDeep { place },
            (16, needed) => Self::ListShort { needed },
            (number, place) => Self::Other { number, place },
        })
    }

    /// The refusal's number in the library's rules.
    #[cfg_attr(not(feature = "raw"), doc(hidden))]
    #[must_use]
    pub fn number(self) -> u64 {
        match self {
            Self::SourceTooLong => 1,
            Self::BadOption => 2,
            Self::ScratchShort { .. } => 3,
            Self::NotUtf8 { .. } => 4,
            Self::OutputShort { .. } => 5,
            Self::NoPlace => 6,
            Self::ConfigTooLong => 7,
            Self::NameTooLong => 8,
            Self::PlacesUnordered => 9,
            Self::KindsShort => 10,
            Self::RulerTooWide => 11,
            Self::StrengthsLength => 12,
            Self::StrengthsBits => 13,
            Self::NotExpression { .. } => 14,
            Self::TooDeep { .. } => 15,
            Self::ListShort { .. } => 16,
            Self::Other { number, .. } => number,
        }
    }

    /// The place that the library names with it, 0 for none.
    #[cfg_attr(not(feature = "raw"), doc(hidden))]
    #[must_use]
    pub fn place(self) -> u64 {
        match self {
            Self::SourceTooLong => SOURCE_END,
            Self::BadOption
            | Self::NoPlace
            | Self::ConfigTooLong
            | Self::NameTooLong
            | Self::PlacesUnordered
            | Self::KindsShort
            | Self::RulerTooWide
            | Self::StrengthsLength
            | Self::StrengthsBits => 0,
            Self::ScratchShort { needed }
            | Self::OutputShort { needed }
            | Self::ListShort { needed } => needed,
            Self::NotUtf8 { prefix } => prefix,
            Self::NotExpression { place } | Self::TooDeep { place } | Self::Other { place, .. } => {
                place
            }
        }
    }
}

impl fmt::Display for Refusal {
    #[rustfmt::skip]
    fn fmt(&self, f: &mut fmt::Formatter<'_>) -> fmt::Result {
        match self {
            Self::SourceTooLong => write!(f, "the source is over {MAX_SOURCE} bytes"),
            Self::BadOption => {
                write!(f, "an option is not allowed: an indent is at most {MAX_INDENT} spaces or tabs, ")?;
                write!(f, "and a check needs a fixed line ending")
            }
            Self::ScratchShort { needed } => write!(f, "the scratch is under {needed} bytes"),
            Self::NotUtf8 { prefix } => write!(f, "the source is not UTF-8 at byte {prefix}"),
            Self::OutputShort { needed } => {
                write!(f, "the text takes {needed} bytes, more than there is room for")
            }
            Self::NoPlace => write!(f, "the source has no such line or column"),
            Self::ConfigTooLong => write!(f, "an .editorconfig text is over {MAX_TEXT} bytes"),
            Self::NameTooLong => {
                write!(f, "a section's name in an .editorconfig text is over 1024 characters")
            }
            Self::PlacesUnordered => write!(f, "the places are not in ascending order"),
            Self::KindsShort => write!(f, "there are fewer answer bytes than places"),
            Self::RulerTooWide => write!(f, "the ruler tab is over {MAX_RULER} columns"),
            Self::StrengthsLength => write!(f, "the table of strengths has not 11 bytes"),
            Self::StrengthsBits => write!(f, "the last bits of the table of strengths are not zero"),
            Self::NotExpression { place } => write!(f, "not an expression at byte {place}"),
            Self::TooDeep { place } => write!(f, "brackets deeper than 64 at byte {place}"),
            Self::ListShort { needed } => {
                write!(f, "there are {needed} changes, more than there is room for")
            }
            Self::Other { number, place } => write!(f, "refusal {number} at {place}"),
        }
    }
}

impl Error for Refusal {}

#[cfg(test)]
mod tests {
    use super::*;
    use alloc::string::ToString;

    /// Whatever the library tells comes back as it was told.
    #[test]
    fn numbers_and_places_come_back() {
        for number in (1..=20).chain([255, 1 << 32, u64::MAX]) {
            for place in [0, 1, 7, SOURCE_END, u64::MAX] {
                let refusal = Refusal::of(number, place).expect("a refusal");
                assert_eq!((refusal.number(), refusal.place()), (number, place));
            }
        }
        assert_eq!(Refusal::of(0, 0), None);
    }

    #[test]
    fn known_refusals_have_names() {
        let named = [
            (1, SOURCE_END, Refusal::SourceTooLong),
            (2, 0, Refusal::BadOption),
            (3, 7, Refusal::ScratchShort { needed: 7 }),
            (4, 7, Refusal::NotUtf8 { prefix: 7 }),
            (5, 7, Refusal::OutputShort { needed: 7 }),
            (6, 0, Refusal::NoPlace),
            (7, 0, Refusal::ConfigTooLong),
            (8, 0, Refusal::NameTooLong),
            (9, 0, Refusal::PlacesUnordered),
            (10, 0, Refusal::KindsShort),
            (11, 0, Refusal::RulerTooWide),
            (12, 0, Refusal::StrengthsLength),
            (13, 0, Refusal::StrengthsBits),
            (14, 7, Refusal::NotExpression { place: 7 }),
            (15, 7, Refusal::TooDeep { place: 7 }),
            (16, 7, Refusal::ListShort { needed: 7 }),
        ];
        for (number, place, refusal) in named {
            assert_eq!(Refusal::of(number, place), Some(refusal));
        }
    }

    /// A place of the source for four of them, at the byte that the library names.
    #[test]
    fn places_in_the_source() {
        let source = "a\n\u{1f600}b";
        for number in 1..=17 {
            let refusal = Refusal::of(number, 6).expect("a refusal");
            let place = refusal.position(source);
            let place = place.map(|p| (p.line, p.column, p.utf16_column));
            let wanted = matches!(number, 4 | 14 | 15).then_some((1, 1, 2));
            assert_eq!(place, wanted, "{number}");
        }
        let long = "ab\n".repeat(MAX_SOURCE / 3 + 1);
        let place = Refusal::SourceTooLong.position(&long).expect("a place");
        assert_eq!((place.line, place.column), (349_525, 1));
    }

    #[test]
    fn one_without_a_name_says_its_number() {
        let refusal = Refusal::of(17, 3).expect("a refusal");
        assert_eq!(
            refusal,
            Refusal::Other {
                number: 17,
                place: 3
            }
        );
        assert_eq!(refusal.to_string(), "refusal 17 at 3");
    }
}
