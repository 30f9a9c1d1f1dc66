//! A child of the upstream module `format`: its loop over the lines, with the protected blocks of
//! request C-15, which the Rust doesn't have.

use super::reach::{Counted, fresh, import_of, note_brackets};
use super::scan::Carry;
use super::{FormatOptions, Formatter, LineEnding};

/// What a source formats to where a lone marker protects a block, and whether it protects one.
pub struct Blocks {
    pub counted: Counted,
    pub any: bool,
}

pub fn format_blocks(source: &str, opts: &FormatOptions) -> Blocks {
    let mut f = fresh(opts);
    // in a block, how many brackets were open before its first line
    let mut block = None;
    let (mut any, mut imports_split, mut blank_names) = (false, 0, 0);
    let mut open_lines = Vec::new();
    for (number, raw) in source.split('\n').enumerate() {
        let raw = raw.strip_suffix('\r').unwrap_or(raw);
        let carry = f.carry;
        if let Some(earlier) = block {
            keep(&mut f, raw);
            note_brackets(&f, carry, raw, number as u64, &mut open_lines);
            block = block.filter(|_| f.stack.len() > earlier);
            continue;
        }
        let guarded = f.ignore_next && f.carry == Carry::Code && !raw.trim().is_empty();
        let before = f.stack.len();
        if let Some((_, blanks)) = import_of(&f, raw) {
            imports_split += 1;
            blank_names += blanks;
        }
        f.line(raw);
        note_brackets(&f, carry, raw, number as u64, &mut open_lines);
        if guarded && f.stack.len() > before {
            (block, any) = (Some(before), true);
        }
    }
    let counted = Counted {
        text: finish(f.lines, source, opts),
        imports_split,
        blank_names,
        open_lines,
    };
    Blocks { counted, any }
}

/// A line of a block: it goes out as written, its brackets count, and it is the previous line.
fn keep(f: &mut Formatter, raw: &str) {
    let in_code = f.carry == Carry::Code;
    let part = if in_code { raw.trim() } else { raw };
    let chars: Vec<char> = part.chars().collect();
    let (class, carry) = super::classify(&chars, f.carry);
    let closers = if in_code {
        super::leading_closers(&chars)
    } else {
        0
    };
    f.stack.truncate(f.stack.len().saturating_sub(closers));
    super::scan_brackets(&chars, &class, closers, &mut f.stack);
    f.lines.push(raw.to_string());
    f.prev_blank = false;
    f.prev = raw.trim().to_string();
    f.carry = carry;
}

/// The end of `format_with`.
fn finish(mut lines: Vec<String>, source: &str, opts: &FormatOptions) -> String {
    let eol = opts
        .end_of_line
        .unwrap_or_else(|| LineEnding::dominant_in(source));
    while lines.last().is_some_and(String::is_empty) {
        lines.pop();
    }
    let mut text = lines.join(eol.as_str());
    if opts.insert_final_newline || source.ends_with('\n') {
        text.push_str(eol.as_str());
    }
    text
}
