//! What .editorconfig texts set for a path, from the page on `EditorConfig` and not from our code.

use wirescript_format::raw::{ConfigAnswer, Resolved};

use crate::globs;

enum Line {
    Nothing,
    Header(String),
    Pair(String, String),
}

fn line(text: &str) -> Line {
    let text = text.trim();
    if text.is_empty() || text.starts_with([';', '#']) {
        return Line::Nothing;
    }
    if text.len() >= 2 && text.starts_with('[') && text.ends_with(']') {
        return Line::Header(text[1..text.len() - 1].to_owned());
    }
    match text.split_once('=') {
        Some((key, value)) => Line::Pair(
            key.trim().to_ascii_lowercase(),
            value.trim().to_ascii_lowercase(),
        ),
        None => Line::Nothing,
    }
}

fn lines(text: &str) -> impl Iterator<Item = Line> {
    text.strip_prefix('\u{feff}')
        .unwrap_or(text)
        .split('\n')
        .map(line)
}

fn is_root(text: &str) -> bool {
    let mut root = false;
    for line in lines(text) {
        match line {
            Line::Header(_) => break,
            Line::Pair(key, value) if key == "root" => root = value == "true",
            _ => {}
        }
    }
    root
}

/// The directories' paths to the file, the nearest first.
#[must_use]
pub fn relatives(path: &str) -> Vec<&str> {
    let path = path.strip_prefix('/').unwrap_or(path);
    let mut all: Vec<&str> = path
        .match_indices('/')
        .map(|(i, _)| &path[i + 1..])
        .collect();
    all.reverse();
    all.push(path);
    all
}

/// A whole number of at most 4,294,967,295.
fn whole(value: &str) -> Option<u64> {
    let digits = !value.is_empty() && value.bytes().all(|b| b.is_ascii_digit());
    let number = digits.then(|| value.trim_start_matches('0'))?;
    if number.is_empty() {
        return Some(0);
    }
    number.parse::<u32>().ok().map(u64::from)
}

/// A pair supersedes the value of its key.
pub fn supersede(values: &mut Resolved, key: &str, value: &str) {
    let number = |named: &[&str]| {
        named
            .iter()
            .position(|n| *n == value)
            .map_or(0, |i| i as u64 + 1)
    };
    match key {
        "indent_style" => values.style = number(&["tab", "space"]),
        "end_of_line" => values.ending = number(&["lf", "crlf", "cr"]),
        "insert_final_newline" => values.newline = number(&["false", "true"]),
        "indent_size" => {
            (values.size_kind, values.size) = match whole(value) {
                Some(n) => (2, n),
                None => (u64::from(value == "tab"), 0),
            }
        }
        "max_line_length" => {
            (values.max_kind, values.max) = match whole(value) {
                Some(n) => (2, n),
                None => (u64::from(value == "off"), 0),
            }
        }
        "tab_width" => {
            (values.tab_set, values.tab) = whole(value).map_or((0, 0), |n| (1, n));
        }
        _ => {}
    }
}

fn apply(values: &mut Resolved, text: &str, relative: &str) {
    let mut applies = false;
    for line in lines(text) {
        match line {
            Line::Header(name) => applies = globs::matches(&name, relative),
            Line::Pair(key, value) if applies => supersede(values, &key, &value),
            _ => {}
        }
    }
}

fn has_long_name(text: &str) -> bool {
    lines(text).any(|line| matches!(line, Line::Header(name) if name.chars().count() > 1024))
}

fn refused(refusal: u64) -> ConfigAnswer {
    ConfigAnswer {
        refusal,
        ..ConfigAnswer::default()
    }
}

/// The answer for a path and texts.
#[must_use]
pub fn read(path: &[u8], texts: &[&[u8]]) -> ConfigAnswer {
    if texts.iter().any(|t| t.len() > 65_536) {
        return refused(7);
    }
    let decoded: Option<Vec<&str>> = texts.iter().map(|t| std::str::from_utf8(t).ok()).collect();
    let (Ok(path), Some(texts)) = (std::str::from_utf8(path), decoded) else {
        return refused(4);
    };
    if texts.iter().any(|t| has_long_name(t)) {
        return refused(8);
    }
    let mut used: Vec<(&str, &str)> = Vec::new();
    for (text, relative) in texts.iter().zip(relatives(path)) {
        used.push((text, relative));
        if is_root(text) {
            break;
        }
    }
    let mut answer = ConfigAnswer::default();
    for (text, relative) in used.iter().rev() {
        apply(&mut answer.values, text, relative);
    }
    answer
}
