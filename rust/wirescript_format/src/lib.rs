#![doc = include_str!("../README.md")]
#![no_std]

extern crate alloc;
#[cfg(any(test, feature = "std"))]
extern crate std;

mod caret;
mod changes;
mod check;
pub mod editorconfig;
mod formatter;
mod group;
mod interface;
mod kinds;
mod options;
mod position;
#[cfg_attr(not(feature = "raw"), doc(hidden))]
pub mod raw;
mod refusal;
mod stable;
mod strengths;

pub use caret::{WithCaret, format_with_caret};
pub use changes::{Change, Changes, apply, format_changes};
pub use check::{Check, is_formatted};
pub use formatter::{Formatted, Formatter, format};
pub use group::{MAX_DEPTH, group};
pub use kinds::{TextKind, text_kind_at, text_kinds};
pub use options::{
    EditorConfig, EndOfLine, FinalNewline, IndentSize, IndentStyle, LineEnding, MaxLineLength,
    Options,
};
pub use position::{LineIndex, Position, position};
pub use refusal::{MAX_INDENT, MAX_RULER, MAX_SOURCE, Refusal};
pub use stable::{Stable, format_stable};
pub use strengths::{Operator, Strengths};

/// A number of bytes or of entries as the library tells it. It has 64 bits, as the archive's machine.
fn size(number: u64) -> usize {
    usize::try_from(number).unwrap_or(usize::MAX)
}
