//! A child of the upstream module `format`: calls its private functions.

use super::scan::{Carry as RustCarry, Class as RustClass};
use super::split;
use super::{FormatOptions, Formatter};
use ec4rs::Properties;
use std::path::Path;

/// What a character is part of, by number: 0 code, 1 string, 2 line comment,
/// 3 block comment, 4 prefab.
pub type Class = u8;

/// What is open at a line's end.
#[derive(Clone, Copy, Debug, PartialEq, Eq)]
pub enum Carry {
    Code,
    Block(u32),
    Prefab,
}

#[derive(Clone, Copy, Debug, PartialEq, Eq)]
pub enum TextKind {
    Code,
    Str,
    Comment,
}

fn class_number(class: RustClass) -> Class {
    match class {
        RustClass::Code => 0,
        RustClass::Str => 1,
        RustClass::LineComment => 2,
        RustClass::BlockComment => 3,
        RustClass::Prefab => 4,
    }
}

fn class_of(number: Class) -> RustClass {
    match number {
        0 => RustClass::Code,
        1 => RustClass::Str,
        2 => RustClass::LineComment,
        3 => RustClass::BlockComment,
        _ => RustClass::Prefab,
    }
}

fn classes(numbers: &[Class]) -> Vec<RustClass> {
    numbers.iter().map(|n| class_of(*n)).collect()
}

pub fn classify(line: &str, carry: Carry) -> (Vec<Class>, Carry) {
    let carry = match carry {
        Carry::Code => RustCarry::Code,
        Carry::Block(depth) => RustCarry::Block(depth),
        Carry::Prefab => RustCarry::Prefab,
    };
    let chars: Vec<char> = line.chars().collect();
    let (class, after) = super::classify(&chars, carry);
    let after = match after {
        RustCarry::Code => Carry::Code,
        RustCarry::Block(depth) => Carry::Block(depth),
        RustCarry::Prefab => Carry::Prefab,
    };
    (class.into_iter().map(class_number).collect(), after)
}

pub fn normalize_spacing(line: &str, class: &[Class]) -> String {
    let chars: Vec<char> = line.chars().collect();
    super::normalize_spacing(&chars, &classes(class))
}

pub fn scan_brackets(line: &str, class: &[Class], skip: usize, stack: &mut Vec<bool>) {
    let chars: Vec<char> = line.chars().collect();
    super::scan_brackets(&chars, &classes(class), skip, stack);
}

/// A line made ready for the inner functions, so that a benchmark times nothing else.
pub struct Prepared {
    chars: Vec<char>,
    class: Vec<RustClass>,
}

impl Prepared {
    pub fn new(line: &str) -> Self {
        let chars: Vec<char> = line.chars().collect();
        let (class, _) = super::classify(&chars, RustCarry::Code);
        Self { chars, class }
    }

    /// The classes of lines, each starting in what the one before leaves open.
    pub fn classify_all(lines: &[Self]) -> usize {
        let mut carry = RustCarry::Code;
        let mut length = 0;
        for line in lines {
            let (class, after) = super::classify(&line.chars, carry);
            length += std::hint::black_box(class).len();
            carry = after;
        }
        length
    }

    pub fn normalize_spacing(&self) -> String {
        super::normalize_spacing(&self.chars, &self.class)
    }

    pub fn scan_brackets(&self, stack: &mut Vec<bool>) {
        super::scan_brackets(&self.chars, &self.class, 0, stack);
    }
}

pub fn text_kind_at(source: &str, line: usize, column: usize) -> TextKind {
    match super::text_kind_at(source, line, column) {
        super::TextKind::Code => TextKind::Code,
        super::TextKind::Str => TextKind::Str,
        super::TextKind::Comment => TextKind::Comment,
    }
}

/// `with_editorconfig`, on resolved values.
pub fn with_resolved(options: FormatOptions, resolved: Properties) -> FormatOptions {
    ec4rs::set(resolved);
    options.with_editorconfig(Path::new("/file"))
}

/// What `format_with` gives, with what it doesn't give: the two counts, and the source lines of the
/// brackets that are open at the end.
#[derive(Clone, Debug, PartialEq, Eq)]
pub struct Counted {
    pub text: String,
    pub imports_split: usize,
    pub blank_names: usize,
    pub open_lines: Vec<u64>,
}

/// The formatter before the first line.
pub(super) fn fresh(opts: &FormatOptions) -> Formatter<'_> {
    Formatter {
        opts,
        lines: Vec::new(),
        stack: Vec::new(),
        prev_blank: false,
        prev: String::new(),
        ignore_next: false,
        carry: RustCarry::Code,
    }
}

/// The loop of `format_with` over the Rust's own `line`, counting the imports that
/// its `split_import` breaks. The text is `format_with`'s.
pub fn format_counted(source: &str, opts: &FormatOptions) -> Counted {
    let text = super::format_with(source, opts);
    let (mut imports_split, mut blank_names) = (0, 0);
    let mut open_lines = Vec::new();
    let imports = opts.print_width.is_some() && source.contains("import");
    let mut f = fresh(opts);
    for (number, raw) in source.split('\n').enumerate() {
        let raw = raw.strip_suffix('\r').unwrap_or(raw);
        let split = imports.then(|| import_of(&f, raw)).flatten();
        let before = f.lines.len();
        let carry = f.carry;
        f.line(raw);
        note_brackets(&f, carry, raw, number as u64, &mut open_lines);
        assert_eq!(open_lines.len(), f.stack.len(), "{source:?} {opts:?}");
        if let Some((lines, blanks)) = split {
            // an import starts with none of the declaration words, so no line went
            assert_eq!(f.lines[before..], lines[..], "{source:?} {opts:?}");
            imports_split += 1;
            blank_names += blanks;
        }
    }
    let counted = Counted {
        text,
        imports_split,
        blank_names,
        open_lines,
    };
    let commas = |text: &str| text.matches(',').count();
    assert_eq!(
        commas(source) + imports_split,
        commas(&counted.text) + blank_names,
        "{source:?} {opts:?}"
    );
    counted
}

/// The lines of the open brackets after the line with this number, which `f` has just read: each
/// opener in code adds the number, each closer takes the newest line off.
pub(super) fn note_brackets(f: &Formatter, carry: RustCarry, raw: &str, number: u64, open: &mut Vec<u64>) {
    let inside = carry != RustCarry::Code;
    if !inside && raw.trim().is_empty() {
        return;
    }
    // a line in code is scanned as it becomes the previous one, and its leading closers pop first
    let line = if inside { raw } else { f.prev.as_str() };
    let chars: Vec<char> = line.chars().collect();
    let (class, _) = super::classify(&chars, carry);
    let closers = if inside {
        0
    } else {
        super::leading_closers(&chars)
    };
    open.truncate(open.len().saturating_sub(closers));
    let mut escaped = false;
    for (c, class) in chars.iter().zip(&class).skip(closers) {
        if *class != RustClass::Code {
            continue;
        }
        if escaped || *c == '\\' {
            escaped = !escaped;
        } else if "([{".contains(*c) {
            open.push(number);
        } else if ")]}".contains(*c) {
            open.pop();
        }
    }
}

/// The lines of the import that `f.line(raw)` will break, and its blank names.
pub(super) fn import_of(f: &Formatter, raw: &str) -> Option<(Vec<String>, usize)> {
    let max = f.opts.print_width?;
    let trimmed = raw.trim();
    if f.carry != RustCarry::Code || f.ignore_next || !trimmed.starts_with("import") {
        return None;
    }
    let chars: Vec<char> = trimmed.chars().collect();
    let line = super::normalize_spacing(&chars, &super::classify(&chars, RustCarry::Code).0);
    let chars: Vec<char> = line.chars().collect();
    let (class, _) = super::classify(&chars, RustCarry::Code);
    let level = f.stack.iter().filter(|adds| **adds).count();
    if split::width(&format!("{}{line}", f.indent(level))) <= max
        || !class
            .iter()
            .all(|k| matches!(k, RustClass::Code | RustClass::Str))
    {
        return None;
    }
    let lines = split::split_import(&chars, &class, level, &f.opts.indent, max)?;
    // split_import broke it, so both braces are there
    let brace = |c: char, from: usize| {
        (from..chars.len()).find(|&i| chars[i] == c && class[i] == RustClass::Code)
    };
    let open = brace('{', 0)?;
    let close = brace('}', open + 1)?;
    let inside: String = chars[open + 1..close].iter().collect();
    let blanks = inside.split(',').filter(|s| s.trim().is_empty()).count();
    Some((lines, blanks))
}
