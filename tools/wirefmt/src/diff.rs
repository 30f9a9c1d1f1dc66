//! Unified diffs.

use std::path::Path;
use std::time::Duration;

use similar::{ChangeTag, DiffOp, TextDiff, TextDiffConfig};

use crate::name::prefixed;

/// Lines around a change.
const AROUND: usize = 3;

/// After this long a diff is allowed to be longer than needed.
const LONGEST: Duration = Duration::from_secs(1);

/// How the parts of a diff are coloured.
pub struct Colours {
    names: &'static str,
    hunk: &'static str,
    removed: &'static str,
    added: &'static str,
    end: &'static str,
    /// Whether control characters are shown as `^M` is, since a terminal would obey them.
    carets: bool,
}

impl Colours {
    pub const NONE: Self = Self {
        names: "",
        hunk: "",
        removed: "",
        added: "",
        end: "",
        carets: false,
    };
    pub const TERMINAL: Self = Self {
        names: "\x1b[1m",
        hunk: "\x1b[36m",
        removed: "\x1b[31m",
        added: "\x1b[32m",
        end: "\x1b[m",
        carets: true,
    };
}

/// The unified diff from a source to its text; empty if they are equal.
pub fn unified(path: &Path, source: &str, text: &str, colours: &Colours) -> String {
    let old: Vec<&str> = source.split_inclusive('\n').collect();
    let new: Vec<&str> = text.split_inclusive('\n').collect();
    let diff = TextDiffConfig::default()
        .timeout(LONGEST)
        .diff_slices(&old, &new);
    let groups = diff.grouped_ops(AROUND);
    if groups.is_empty() {
        return String::new();
    }
    let mut shown = names(path, colours);
    for group in groups {
        hunk(&mut shown, &diff, &group, colours);
    }
    shown
}

/// The two lines of names. A tab ends a name that has a space, as GNU diff does.
fn names(path: &Path, colours: &Colours) -> String {
    let plain = path.strip_prefix("/").or_else(|_| path.strip_prefix("."));
    let plain = plain.unwrap_or(path);
    let name = |prefix| {
        let name = prefixed(prefix, plain);
        let tab = if name.contains(' ') { "\t" } else { "" };
        name + tab
    };
    let (old, new) = (name("a/"), name("b/"));
    let Colours { names, end, .. } = colours;
    format!("{names}--- {old}{end}\n{names}+++ {new}{end}\n")
}

fn hunk(shown: &mut String, diff: &TextDiff<str>, group: &[DiffOp], colours: &Colours) {
    let (Some(first), Some(last)) = (group.first(), group.last()) else {
        return;
    };
    let old = span(first.old_range().start, last.old_range().end);
    let new = span(first.new_range().start, last.new_range().end);
    let Colours { hunk, end, .. } = colours;
    shown.extend([hunk, "@@ -", &old, " +", &new, " @@", end, "\n"]);
    for change in group.iter().flat_map(|op| diff.iter_changes(op)) {
        line(shown, change.tag(), change.value(), colours);
    }
}

/// The lines of a hunk: the first, from 1, and their number unless it is 1; before an empty span, the line before it.
fn span(start: usize, end: usize) -> String {
    match end - start {
        0 => format!("{start},0"),
        1 => format!("{}", start + 1),
        lines => format!("{},{lines}", start + 1),
    }
}

fn line(shown: &mut String, tag: ChangeTag, value: &str, colours: &Colours) {
    let (sign, colour) = match tag {
        ChangeTag::Equal => (" ", ""),
        ChangeTag::Delete => ("-", colours.removed),
        ChangeTag::Insert => ("+", colours.added),
    };
    let end = if colour.is_empty() { "" } else { colours.end };
    let (line, ending) = match value.strip_suffix('\n') {
        Some(line) => (line, "\n"),
        None => (value, "\n\\ No newline at end of file\n"),
    };
    let careted = colours.carets.then(|| carets(line));
    let line = careted.as_deref().unwrap_or(line);
    shown.extend([colour, sign, line, end, ending]);
}

/// The text with its control characters, but for tabs, written out.
fn carets(line: &str) -> String {
    let mut shown = String::new();
    for character in line.chars() {
        match u8::try_from(character) {
            Ok(byte) if byte != b'\t' && byte.is_ascii_control() => {
                shown.extend(['^', char::from(byte ^ 0x40)]);
            }
            _ if character != '\t' && character.is_control() => {
                shown.extend(character.escape_unicode());
            }
            _ => shown.push(character),
        }
    }
    shown
}
