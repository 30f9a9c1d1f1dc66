//! C-22, written from document 02: with no print width every string that is closed on its line
//! stands in the text, and so do the lines strictly between a prefab's opening and closing lines.
//! What is a string or a prefab is told by the Rust's own classes.

use std::sync::atomic::{AtomicU64, Ordering};
use upstream::{Carry, classify};

const STR: upstream::Class = 1;
const PREFAB: upstream::Class = 4;

/// How many strings and how many lines within prefabs were looked for.
static STRINGS: AtomicU64 = AtomicU64::new(0);
static LINES: AtomicU64 = AtomicU64::new(0);

pub fn looked_for() -> (u64, u64) {
    (
        STRINGS.load(Ordering::Relaxed),
        LINES.load(Ordering::Relaxed),
    )
}

/// A part of a source, behind so many characters that are no white space.
#[derive(Debug, PartialEq, Eq)]
struct At<T> {
    solid: usize,
    part: T,
}

/// A prefab's line from its opening on, and the lines between that one and the one that closes it.
#[derive(Debug, PartialEq, Eq)]
struct Prefab<'a> {
    line: &'a str,
    inner: Vec<&'a str>,
}

fn solid(text: &str) -> usize {
    text.chars().filter(|c| !c.is_whitespace()).count()
}

/// How many bytes of `part`, which starts with a quote, are a string: the shortest beginning behind
/// which a letter is code again.
fn closed(part: &str) -> Option<usize> {
    let quote = part.chars().next()?;
    part.match_indices(quote).skip(1).find_map(|(at, quote)| {
        let end = at + quote.len();
        let (class, _) = classify(&format!("{}x", &part[..end]), Carry::Code);
        (class.last() == Some(&0)).then_some(end)
    })
}

/// Where the prefab opens that the line opens and leaves open: nothing is open before it, and it isn't
/// closed behind it.
fn opening(line: &str, carry: Carry, class: &[upstream::Class]) -> Option<usize> {
    line.char_indices().enumerate().find_map(|(n, (at, _))| {
        let rest = &line[at..];
        let opens = class[n] == PREFAB
            && rest.starts_with("$```")
            && classify(&line[..at], carry).1 == Carry::Code
            && !rest[4..].contains("```");
        opens.then_some(at)
    })
}

fn lines(source: &str) -> impl Iterator<Item = &str> {
    source
        .split('\n')
        .map(|line| line.strip_suffix('\r').unwrap_or(line))
}

/// The strings of a line that are closed on it, in order; so many characters that are no white space
/// stand before the line.
fn strings<'a>(
    line: &'a str,
    class: &[upstream::Class],
    before: usize,
    found: &mut Vec<At<&'a str>>,
) {
    let starts: Vec<usize> = line.char_indices().map(|(at, _)| at).collect();
    let mut n = 0;
    while n < starts.len() {
        if class[n] != STR {
            n += 1;
            continue;
        }
        let run = class[n..].iter().take_while(|k| **k == STR).count();
        let end = starts.get(n + run).copied().unwrap_or(line.len());
        let Some(length) = closed(&line[starts[n]..end]) else {
            return;
        };
        let part = &line[starts[n]..starts[n] + length];
        found.push(At {
            solid: before + solid(&line[..starts[n]]),
            part,
        });
        n += part.chars().count();
    }
}

fn found(source: &str) -> (Vec<At<&str>>, Vec<At<Prefab<'_>>>) {
    let (mut all, mut prefabs) = (Vec::new(), Vec::new());
    let mut open: Option<At<Prefab>> = None;
    let (mut carry, mut before) = (Carry::Code, 0);
    for line in lines(source) {
        let (class, after) = classify(line, carry);
        strings(line, &class, before, &mut all);
        open = match open {
            Some(mut prefab) if !line.contains("```") => {
                prefab.part.inner.push(line);
                Some(prefab)
            }
            closed => {
                prefabs.extend(closed);
                opening(line, carry, &class).map(|at| At {
                    solid: before + solid(&line[..at]),
                    part: Prefab {
                        line: &line[at..],
                        inner: Vec::new(),
                    },
                })
            }
        };
        before += solid(line);
        carry = after;
    }
    (all, prefabs)
}

/// The ending of the text's lines, for an option's number: 0 the one that most of the source's lines
/// have, 1 LF, 2 CRLF.
pub fn ending(source: &str, number: u64) -> &'static str {
    let crlf = source.matches("\r\n").count();
    match number {
        0 if crlf > source.matches('\n').count() - crlf => "\r\n",
        2 => "\r\n",
        _ => "\n",
    }
}

/// What doesn't stand in the text as it must.
pub fn lost(source: &str, text: &str, ending: &str) -> Option<String> {
    if !source.contains(['"', '\'', '`']) {
        return None;
    }
    let (strings, prefabs) = found(source);
    // where the characters of the text that are no white space stand
    let places: Vec<usize> = text
        .char_indices()
        .filter(|(_, c)| !c.is_whitespace())
        .map(|(at, _)| at)
        .collect();
    let behind = |solid: usize| places.get(solid).map_or("", |at| &text[*at..]);
    STRINGS.fetch_add(strings.len() as u64, Ordering::Relaxed);
    for string in &strings {
        if !behind(string.solid).starts_with(string.part) {
            return Some(format!("the string {:?} is not kept", string.part));
        }
    }
    for prefab in &prefabs {
        LINES.fetch_add(prefab.part.inner.len() as u64, Ordering::Relaxed);
        let inner: String = prefab
            .part
            .inner
            .iter()
            .map(|line| format!("{line}{ending}"))
            .collect();
        let line = prefab.part.line;
        let follows = |line: &str| {
            let rest = behind(prefab.solid).strip_prefix(line);
            rest.is_some_and(|rest| rest.starts_with(&format!("{ending}{inner}")))
        };
        if !follows(line) && !follows(line.trim_end()) {
            return Some(format!("the lines {inner:?} of a prefab are not kept"));
        }
    }
    None
}

#[cfg(test)]
mod tests {
    use super::*;

    fn strings_of(source: &str) -> Vec<(usize, &str)> {
        let (strings, _) = found(source);
        strings.into_iter().map(|s| (s.solid, s.part)).collect()
    }

    #[test]
    fn closed_strings() {
        assert_eq!(
            strings_of("f( \"a  ,b\" ,'c')"),
            [(2, "\"a  ,b\""), (8, "'c'")]
        );
        assert_eq!(strings_of("\"a\"\"b\""), [(0, "\"a\""), (3, "\"b\"")]);
        assert_eq!(strings_of("\"a\\\" b\" \\\"c"), [(0, "\"a\\\" b\"")]);
        assert_eq!(
            strings_of("\"x${f( \"}\" )} y\""),
            [(0, "\"x${f( \"}\" )} y\"")]
        );
        assert_eq!(strings_of("\"a\n\"b\""), [(2, "\"b\"")]);
        assert_eq!(strings_of("\"${\"a\""), []);
        assert_eq!(strings_of("// \"a\"\n/* \"b\n*/ \"c\""), [(11, "\"c\"")]);
    }

    #[test]
    fn closed_prefabs() {
        let of = |source| {
            let (_, prefabs) = found(source);
            let parts = prefabs.into_iter();
            let inner = parts.map(|p| (p.solid, p.part.line, p.part.inner));
            inner.collect::<Vec<_>>()
        };
        assert_eq!(
            of("a $``` b\n x \n\n``` $```\r\nc\r\r\n```"),
            [(1, "$``` b", vec![" x ", ""]), (10, "$```", vec!["c\r"])]
        );
        assert_eq!(of("$``` a ```\nb"), []);
        assert_eq!(of("$```\na"), []);
        assert_eq!(of("$```a```$```\nb\n```"), [(8, "$```", vec!["b"])]);
    }

    #[test]
    fn what_is_lost_is_told() {
        let source = "f( \"a  b\" )\n$``` \n c \n```\n";
        assert_eq!(lost(source, "f( \"a  b\" )\n$```\n c \n```\n", "\n"), None);
        for text in [
            "f( \"a b\" )\n$```\n c \n```\n",
            "\"a  b\" f( )\n$```\n c \n```\n",
            "f( \"a  b\" )\n$```\n c\n```\n",
            "f( \"a  b\" )\n$```\n\n c \n```\n",
            "f( \"a  b\" )\n$```\r\n c \n```\n",
        ] {
            assert!(lost(source, text, "\n").is_some(), "{text:?}");
        }
    }

    #[test]
    fn the_ending_of_most_lines() {
        assert_eq!(ending("a\r\nb\nc", 0), "\n");
        assert_eq!(ending("a\r\nb\r\nc\n", 0), "\r\n");
        assert_eq!(ending("a\n", 2), "\r\n");
    }
}
