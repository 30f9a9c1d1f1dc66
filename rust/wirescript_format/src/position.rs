//! Bytes, lines and columns: what an editor counts in characters or UTF-16 units, and the library in bytes.

use alloc::vec::Vec;

/// A place in a text, all numbers from 0.
#[derive(Clone, Copy, Debug, Default, PartialEq, Eq, PartialOrd, Ord, Hash)]
pub struct Position {
    /// The line: how many LFs stand before the place.
    pub line: u64,
    /// The characters of its line before the place.
    pub column: u64,
    /// The UTF-16 units of its line before the place.
    pub utf16_column: u64,
}

/// Line and columns of a byte of a source.
///
/// An offset within a character is that character's start, one behind the end the end. What isn't UTF-8 counts as
/// one character of one UTF-16 unit for each run of bytes that [`str::from_utf8_lossy`] replaces by one.
///
/// To ask for many places of one source, make a [`LineIndex`].
///
/// [`str::from_utf8_lossy`]: alloc::string::String::from_utf8_lossy
///
/// ```
/// use wirescript_format::{group, position};
///
/// let source = "(a +\n\u{1f600})";
/// let refusal = group(source).expect_err("an emoji is no operand");
/// let place = refusal.position(source).expect("a place");
/// assert_eq!((place.line, place.column, place.utf16_column), (0, 4, 4));
///
/// let place = position(source, 9);
/// assert_eq!((place.line, place.column, place.utf16_column), (1, 1, 2));
/// ```
#[must_use]
pub fn position(source: impl AsRef<[u8]>, offset: usize) -> Position {
    let source = source.as_ref();
    let before = &source[..offset.min(source.len())];
    let lines = before.split(|byte| *byte == b'\n').count();
    let last = before.rsplit(|byte| *byte == b'\n').next();
    let start = before.len() - last.map_or(0, <[u8]>::len);
    // no more than the line, since characters are read ahead
    let line = source[start..]
        .split_inclusive(|byte| *byte == b'\n')
        .next();
    within(lines - 1, start, line.unwrap_or_default(), offset)
}

/// Where the lines of a source start, for going from bytes to lines and columns and back.
///
/// Lines are cut at LF; a CR at a line's end is no part of it, as for the formatter. So a source has one line more
/// than LFs. What it is asked takes no longer than reading the line does.
///
/// ```
/// use wirescript_format::LineIndex;
///
/// let lines = LineIndex::new("a\r\n\u{1f600}\u{e9}b");
/// assert_eq!(lines.count(), 2);
/// // the same place by characters, by UTF-16 units and by bytes
/// let place = lines.position(9);
/// assert_eq!((place.line, place.column, place.utf16_column), (1, 2, 3));
/// assert_eq!(lines.offset(1, 2), Some(9));
/// assert_eq!(lines.offset_utf16(1, 3), Some(9));
/// ```
#[derive(Clone, Debug)]
pub struct LineIndex<'a> {
    source: &'a [u8],
    starts: Vec<usize>,
}

impl<'a> LineIndex<'a> {
    /// Finds the lines of a source.
    #[must_use]
    pub fn new<Source: AsRef<[u8]> + ?Sized>(source: &'a Source) -> Self {
        let source = source.as_ref();
        let ends = source.iter().enumerate().filter(|(_, b)| **b == b'\n');
        let starts = core::iter::once(0).chain(ends.map(|(lf, _)| lf + 1));
        Self {
            source,
            starts: starts.collect(),
        }
    }

    /// How many lines there are.
    #[must_use]
    pub fn count(&self) -> usize {
        self.starts.len()
    }

    /// Line and columns of a byte, as [`position`] gives them.
    #[must_use]
    pub fn position(&self, offset: usize) -> Position {
        // the first line starts at 0, so there is one
        let line = self.starts.partition_point(|start| *start <= offset) - 1;
        let (start, text) = (self.starts[line], self.whole(line));
        within(line, start, text, offset)
    }

    /// The byte at which a line ends, before its LF or CRLF; `None` where there is no such line.
    ///
    /// ```
    /// use wirescript_format::LineIndex;
    ///
    /// let lines = LineIndex::new("ab\r\nc");
    /// assert_eq!((lines.end(0), lines.end(1), lines.end(2)), (Some(2), Some(5), None));
    /// ```
    #[must_use]
    pub fn end(&self, line: u64) -> Option<usize> {
        self.line(line).map(|(start, text)| start + text.len())
    }

    /// The byte at a line and a character column; `None` where there is no such line or the line is shorter.
    #[must_use]
    pub fn offset(&self, line: u64, column: u64) -> Option<usize> {
        self.reached(line, column, |_| 1)
    }

    /// The byte at a line and a UTF-16 column; `None` where there is no such line or the line is shorter. A column
    /// between the two units of a character is that character's start.
    #[must_use]
    pub fn offset_utf16(&self, line: u64, utf16_column: u64) -> Option<usize> {
        self.reached(line, utf16_column, |unit| unit.utf16)
    }

    /// The start of a line, and its bytes without its ending.
    fn line(&self, line: u64) -> Option<(usize, &'a [u8])> {
        let line = usize::try_from(line).ok()?;
        let start = *self.starts.get(line)?;
        let text = self.whole(line);
        let text = text.strip_suffix(b"\n").unwrap_or(text);
        Some((start, text.strip_suffix(b"\r").unwrap_or(text)))
    }

    /// The bytes of a line with its ending.
    fn whole(&self, line: usize) -> &'a [u8] {
        let next = self.starts.get(line + 1);
        &self.source[self.starts[line]..next.map_or(self.source.len(), |next| *next)]
    }

    /// The byte of a line at which characters of such widths reach a column.
    fn reached(&self, line: u64, column: u64, width: impl Fn(&Unit) -> u64) -> Option<usize> {
        let (mut at, text) = self.line(line)?;
        let mut left = column;
        for unit in units(text) {
            if left < width(&unit) {
                return Some(at);
            }
            left -= width(&unit);
            at += unit.bytes;
        }
        (left == 0).then_some(at)
    }
}

/// What a character takes.
struct Unit {
    bytes: usize,
    utf16: u64,
}

/// The characters of a text.
fn units(text: &[u8]) -> impl Iterator<Item = Unit> {
    text.utf8_chunks().flat_map(|chunk| {
        let ill = chunk.invalid().len();
        let ill = (ill > 0).then_some(Unit {
            bytes: ill,
            utf16: 1,
        });
        let well = chunk.valid().chars().map(|c| Unit {
            bytes: c.len_utf8(),
            utf16: c.len_utf16() as u64,
        });
        well.chain(ill)
    })
}

/// The place of a byte of a line, which starts at `start` and is `text` with its ending.
fn within(line: usize, start: usize, text: &[u8], offset: usize) -> Position {
    let mut place = Position {
        line: line as u64,
        ..Position::default()
    };
    let mut at = start;
    for unit in units(text) {
        at += unit.bytes;
        if at > offset {
            break;
        }
        place.column += 1;
        place.utf16_column += unit.utf16;
    }
    place
}

#[cfg(test)]
mod tests {
    use super::*;
    use alloc::vec;

    fn numbers(place: Position) -> (u64, u64, u64) {
        (place.line, place.column, place.utf16_column)
    }

    /// Every byte: on a character, within one, on both bytes of an ending, at the end and behind it.
    #[test]
    fn every_byte() {
        let source = "\u{e9}a\r\n\u{1f600}b\n";
        let places = [
            (0, 0, 0),
            (0, 0, 0),
            (0, 1, 1),
            (0, 2, 2),
            (0, 3, 3),
            (1, 0, 0),
            (1, 0, 0),
            (1, 0, 0),
            (1, 0, 0),
            (1, 1, 2),
            (1, 2, 3),
            (2, 0, 0),
        ];
        let lines = LineIndex::new(source);
        let behind = [source.len() + 1, usize::MAX].map(|offset| (offset, &places[source.len()]));
        for (offset, place) in places.iter().enumerate().chain(behind) {
            assert_eq!(numbers(position(source, offset)), *place, "{offset}");
            assert_eq!(numbers(lines.position(offset)), *place, "{offset}");
        }
        assert_eq!(numbers(position("", 0)), (0, 0, 0));
        assert_eq!(numbers(LineIndex::new("").position(7)), (0, 0, 0));
    }

    /// A run of bytes that isn't UTF-8 is one character: a lone byte, a character cut short, a surrogate's three.
    #[test]
    fn ill_formed_bytes() {
        let source = b"a\xff\xe2\x82b\n\xed\xa0\x80c";
        let columns = [0, 1, 2, 2, 3, 4, 0, 1, 2, 3, 4];
        for (offset, column) in columns.into_iter().enumerate() {
            let place = position(source, offset);
            let line = u64::from(offset > 5);
            assert_eq!(numbers(place), (line, column, column), "{offset}");
        }
    }

    /// Places of a long source take no longer than their lines: a tenth of a second, and not minutes.
    #[test]
    fn many_places() {
        let begun = std::time::Instant::now();
        let source = "ab\n".repeat(300_000);
        let lines = LineIndex::new(&source);
        for line in 0..300_000 {
            let offset = lines.offset(line, 2).expect("a place");
            assert_eq!(numbers(lines.position(offset)), (line, 2, 2));
        }
        assert!(begun.elapsed().as_secs() < 20);
    }

    /// A column of each line, and the first that a line hasn't.
    #[test]
    fn columns_to_bytes() {
        let lines = LineIndex::new("\u{e9}a\r\n\u{1f600}b\r");
        let offsets =
            |line: u64| -> vec::Vec<_> { (0..5).map(|c| lines.offset(line, c)).collect() };
        assert_eq!(offsets(0), [Some(0), Some(2), Some(3), None, None]);
        assert_eq!(offsets(1), [Some(5), Some(9), Some(10), None, None]);
        assert_eq!(offsets(2), [None; 5]);
        let units =
            |line: u64| -> vec::Vec<_> { (0..5).map(|c| lines.offset_utf16(line, c)).collect() };
        assert_eq!(units(0), offsets(0));
        assert_eq!(units(1), [Some(5), Some(5), Some(9), Some(10), None]);
        assert_eq!(lines.offset(u64::MAX, 0), None);
        assert_eq!(lines.offset(0, u64::MAX), None);
        assert_eq!((lines.end(1), lines.count()), (Some(10), 2));
    }
}
