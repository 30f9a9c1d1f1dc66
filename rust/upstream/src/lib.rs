//! The Rust formatter, compiled unchanged, and its private functions for comparison; and the same
//! with a ruler's tab stops and a table of strengths.

#![allow(clippy::all, dead_code)]

mod choices;

include!(concat!(env!("OUT_DIR"), "/upstream.rs"));

pub use choices::format_by;
pub use format::blocks::{Blocks, format_blocks};
pub use format::reach::{
    Carry, Class, Counted, Prepared, TextKind, classify, format_counted, normalize_spacing,
    scan_brackets, text_kind_at, with_resolved,
};
pub use format::{DEFAULT_PRINT_WIDTH, FormatOptions, LineEnding, format_with};
