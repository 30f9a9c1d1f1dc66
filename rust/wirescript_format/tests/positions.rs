//! Lines and columns beside those of the formatter.

use wirescript_format::{Formatter, LineIndex, Options, Refusal, position};

const PIECES: [&str; 6] = ["a", " ", "\r", "\n", "\u{e9}", "\u{1f600}"];

/// Every source of at most four pieces.
fn sources() -> Vec<String> {
    let mut all = vec![String::new()];
    let mut from = 0;
    for _ in 0..4 {
        let to = all.len();
        let longer = |source: &String| PIECES.map(|piece| source.clone() + piece);
        let next: Vec<String> = all[from..to].iter().flat_map(longer).collect();
        all.extend(next);
        from = to;
    }
    all
}

/// A line has the columns at which the formatter takes a caret.
#[test]
fn the_places_of_a_caret() {
    let mut formatter = Formatter::new();
    for source in sources() {
        let lines = LineIndex::new(&source);
        for (line, column) in (0..6).flat_map(|line| (0..6).map(move |column| (line, column))) {
            let caret = formatter.format_with_caret(&source, &Options::new(), line, column);
            let place = lines.offset(line, column);
            assert_eq!(
                caret == Err(Refusal::NoPlace),
                place.is_none(),
                "{source:?} {line} {column}"
            );
        }
    }
}

/// From a byte to its line and columns and back; by characters as Rust's own functions count them.
#[test]
fn there_and_back() {
    for source in sources() {
        let lines = LineIndex::new(&source);
        assert_eq!(lines.count(), source.split('\n').count());
        for (offset, _) in source.char_indices().chain([(source.len(), ' ')]) {
            let before = source[..offset].rsplit('\n').next().expect("a line");
            let place = lines.position(offset);
            assert_eq!(place, position(&source, offset));
            assert_eq!(place.line, source[..offset].matches('\n').count() as u64);
            assert_eq!(place.column, before.chars().count() as u64);
            assert_eq!(place.utf16_column, before.encode_utf16().count() as u64);
            // the LF behind a CR, and what follows a last CR, are no places of the line
            let end = lines.end(place.line).expect("a line");
            let back = (offset <= end).then_some(offset);
            assert_eq!(lines.offset(place.line, place.column), back, "{source:?}");
            assert_eq!(
                lines.offset_utf16(place.line, place.utf16_column),
                back,
                "{source:?}"
            );
        }
    }
}
