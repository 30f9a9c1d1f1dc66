//! Runs beside the Rust formatter: sources and options, what each call must come to, and
//! the comparison.

pub mod bench;
pub mod call;
pub mod compare;
pub mod config;
pub mod globs;
pub mod grammar;
pub mod lent;
pub mod library;
pub mod model;
pub mod quoted;
pub mod random;
pub mod safe;
pub mod shrink;
pub mod sources;
pub mod stages;
pub mod texts;

/// A number that a program is given, or the default.
pub fn argument(place: usize, default: u64) -> u64 {
    let given = std::env::args().nth(place);
    given.map_or(default, |n| n.parse().expect("a number"))
}
