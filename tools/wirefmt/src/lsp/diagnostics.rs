//! What an editor shows of a document: brackets that are never closed, and refusals.

use wirescript_format::{Formatter, LineIndex, Options, Refusal};

use super::json::{Value, object};
use super::place::{Position, Walk, line_end, range};
use super::settings::configured;
use crate::report::words;

const ERROR: i64 = 1;
const WARNING: i64 = 2;

fn diagnostic(place: [Position; 2], severity: i64, message: &str) -> Value {
    object([
        ("range", range(place)),
        ("severity", severity.into()),
        ("source", "wirefmt".into()),
        ("message", message.into()),
    ])
}

/// The diagnostics of a document. Files of settings that are refused leave the defaults.
pub fn of(formatter: &mut Formatter, uri: &str, text: &str) -> Vec<Value> {
    let mut found = Vec::new();
    let options = configured(uri, Options::new()).unwrap_or_else(|why| {
        found.push(diagnostic(Default::default(), ERROR, &why));
        Options::new()
    });
    match formatter.format(text, &options) {
        Ok(done) => {
            let listed = done.opened.len() as u64;
            found.extend(opened(text, done.opened));
            if done.open_brackets > listed {
                let all = done.open_brackets;
                let message =
                    format!("{all} brackets are never closed; the first {listed} are shown");
                found.push(diagnostic(Default::default(), WARNING, &message));
            }
        }
        Err(refusal) => found.push(diagnostic(place(text, refusal), ERROR, &words(refusal))),
    }
    found
}

/// A diagnostic for each line of the formatter on which brackets were opened; the lines ascend.
fn opened(text: &str, on: &[u64]) -> Vec<Value> {
    let mut walk = Walk::new(text);
    let lines = LineIndex::new(text);
    let mut on_line = |same: &[u64]| {
        let ends = [lines.offset(same[0], 0)?, lines.end(same[0])?];
        let message = match same.len() {
            1 => "a bracket opened on this line is never closed".into(),
            many => format!("{many} brackets opened on this line are never closed"),
        };
        let place = ends.map(|byte| walk.to(byte));
        Some(diagnostic(place, WARNING, &message))
    };
    on.chunk_by(|a, b| a == b)
        .filter_map(&mut on_line)
        .collect()
}

/// Where a refusal stands: from its place in the text to that line's end, or at the start where it names none.
fn place(text: &str, refusal: Refusal) -> [Position; 2] {
    let Some(byte) = refusal.offset().filter(|byte| *byte <= text.len()) else {
        return Default::default();
    };
    let mut walk = Walk::new(text);
    [byte, line_end(text, byte)].map(|byte| walk.to(byte))
}
