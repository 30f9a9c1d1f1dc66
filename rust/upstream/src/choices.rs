//! Choices that the Rust formatter doesn't have, a ruler's tab stops and a table of strengths: its
//! second copy (`asked`) asks here how wide a line is and how tightly an operator binds. That is all
//! that it does otherwise than the Rust.

use crate::asked::format as asked;
use crate::format::reach::Counted;
use crate::{FormatOptions, LineEnding};
use std::cell::Cell;

/// A strength for each operator, in document 02's order.
pub type Strengths = [u8; 21];

const OPERATORS: [&str; 21] = [
    "||", "^^", "&&", "|", "^", "&", "==", "!=", "<", ">", "<=", ">=", "<<", ">>", "..", "+", "-",
    "*", "/", "%", "**",
];

thread_local! {
    static STEP: Cell<usize> = const { Cell::new(0) };
    static STRENGTHS: Cell<Option<Strengths>> = const { Cell::new(None) };
}

/// The column that a line reaches from column 0. A tab goes on until the column divides by the
/// step, at least by one; every other character takes its UTF-16 units.
pub(crate) fn column(line: &str) -> usize {
    let step = STEP.get();
    let mut column = 0;
    for c in line.chars() {
        if c == '\t' && step > 0 {
            column += 1;
            while column % step != 0 {
                column += 1;
            }
        } else {
            column += c.len_utf16();
        }
    }
    column
}

/// The strength of an operator, or none where a line is never broken before it; the Rust's own if no
/// table is given. An operator without a strength is gone past as any is.
pub(crate) fn strength(op: &str, own: fn(&str) -> Option<u8>) -> Option<u8> {
    let Some(strengths) = STRENGTHS.get() else {
        return own(op);
    };
    let place = OPERATORS.iter().position(|o| *o == op)?;
    Some(strengths[place]).filter(|strength| *strength != 0)
}

/// What `format_counted` gives where tab stops are `step` columns apart, 0 for none, and operators
/// have these strengths.
pub fn format_by(
    source: &str,
    options: &FormatOptions,
    step: usize,
    strengths: Option<Strengths>,
) -> Counted {
    STEP.set(step);
    STRENGTHS.set(strengths);
    let options = asked::FormatOptions {
        indent: options.indent.clone(),
        print_width: options.print_width,
        end_of_line: options.end_of_line.map(|ending| match ending {
            LineEnding::Lf => asked::LineEnding::Lf,
            LineEnding::Crlf => asked::LineEnding::Crlf,
        }),
        insert_final_newline: options.insert_final_newline,
    };
    let counted = asked::reach::format_counted(source, &options);
    Counted {
        text: counted.text,
        imports_split: counted.imports_split,
        blank_names: counted.blank_names,
        open_lines: counted.open_lines,
    }
}
