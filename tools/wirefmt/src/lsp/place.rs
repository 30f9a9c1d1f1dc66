//! Places in a document: bytes here, lines and UTF-16 units there. A line of the protocol ends in LF, CRLF or a
//! CR alone; a line of the formatter in LF, with or without a CR before it.

use super::json::{Value, object};

#[derive(Clone, Copy, Debug, Default, PartialEq, Eq, PartialOrd, Ord)]
pub struct Position {
    pub line: u64,
    pub character: u64,
}

impl Position {
    pub fn read(value: &Value) -> Option<Self> {
        // the protocol's numbers are of 31 bits; larger ones are past every end
        let number = |name| value.get(name)?.whole();
        Some(Self {
            line: number("line")?,
            character: number("character")?,
        })
    }

    pub fn value(self) -> Value {
        let number = |n: u64| Value::Number(n.to_string());
        object([
            ("line", number(self.line)),
            ("character", number(self.character)),
        ])
    }
}

/// A range as the protocol has it.
pub fn range([start, end]: [Position; 2]) -> Value {
    object([("start", start.value()), ("end", end.value())])
}

/// Where the line of the protocol that starts at a byte ends, its ending left out.
pub fn line_end(text: &str, start: usize) -> usize {
    let ends = |byte: &u8| matches!(byte, b'\n' | b'\r');
    let length = text.as_bytes()[start..].iter().position(ends);
    length.map_or(text.len(), |length| start + length)
}

/// Where the line of the protocol behind the one that starts at a byte starts.
fn next_line(text: &str, start: usize) -> Option<usize> {
    let end = line_end(text, start);
    let ending = ["\r\n", "\n", "\r"]
        .into_iter()
        .find(|ending| text[end..].starts_with(ending))?;
    Some(end + ending.len())
}

/// The byte of a position. One past its line's end is the end of that line, one past the last line the end of the
/// text, one between the halves of a surrogate pair the start of its character.
pub fn offset(text: &str, position: Position) -> usize {
    let mut start = 0;
    for _ in 0..position.line {
        let Some(next) = next_line(text, start) else {
            return text.len();
        };
        start = next;
    }
    let end = line_end(text, start);
    let mut units = 0;
    for (at, character) in text[start..end].char_indices() {
        units += character.len_utf16() as u64;
        if units > position.character {
            return start + at;
        }
    }
    end
}

/// Gives the positions of ascending bytes in one reading of the text.
pub struct Walk<'a> {
    text: &'a str,
    at: usize,
    position: Position,
}

impl<'a> Walk<'a> {
    pub fn new(text: &'a str) -> Self {
        Self {
            text,
            at: 0,
            position: Position::default(),
        }
    }

    /// The position of a byte that doesn't stand before the last one asked for. One inside a character is that
    /// character's start, one past the end the end.
    pub fn to(&mut self, byte: usize) -> Position {
        while let Some(character) = self.text[self.at..].chars().next() {
            let next = self.at + character.len_utf8();
            if next > byte {
                break;
            }
            self.pass(character, next);
        }
        self.position
    }

    fn pass(&mut self, character: char, next: usize) {
        match character {
            // its LF ends the line
            '\r' if self.text[next..].starts_with('\n') => {}
            '\n' | '\r' => {
                self.position.line += 1;
                self.position.character = 0;
            }
            _ => self.position.character += character.len_utf16() as u64,
        }
        self.at = next;
    }
}

#[cfg(test)]
mod tests {
    use super::*;

    fn at(line: u64, character: u64) -> Position {
        Position { line, character }
    }

    #[test]
    fn positions_are_clamped() {
        let text = "ab\r\nc\rd\n";
        let cases = [
            (at(0, 0), 0),
            (at(0, 2), 2),
            (at(0, 3), 2),
            (at(0, u64::MAX), 2),
            (at(1, 0), 4),
            (at(1, 9), 5),
            (at(2, 1), 7),
            (at(3, 0), 8),
            (at(3, 5), 8),
            (at(4, 0), 8),
            (at(u64::MAX, 7), 8),
        ];
        for (position, byte) in cases {
            assert_eq!(offset(text, position), byte, "{position:?}");
        }
        assert_eq!(offset("", at(0, 0)), 0);
        assert_eq!(offset("", at(3, 3)), 0);
    }

    #[test]
    fn units_of_utf16() {
        let text = "\u{e9}\u{1f600}\u{20ac}x";
        let bytes = [0, 2, 2, 6, 9, 10, 10];
        for (character, byte) in (0..).zip(bytes) {
            assert_eq!(offset(text, at(0, character)), byte, "{character}");
        }
        let mut walk = Walk::new(text);
        let characters: Vec<u64> = (0..=11).map(|byte| walk.to(byte).character).collect();
        assert_eq!(characters, [0, 0, 1, 1, 1, 1, 3, 3, 3, 4, 5, 5]);
    }

    /// Each start of a character that a position can name goes there and back.
    #[test]
    fn there_and_back() {
        for text in [
            "",
            "\n",
            "\r",
            "\r\n",
            "\r\r\n\n\r",
            "a\u{1f600}\r\nb\rc\n\nd",
            "\u{e9}\n\r\u{10000}\r\n",
        ] {
            let mut walk = Walk::new(text);
            for byte in (0..=text.len()).filter(|byte| text.is_char_boundary(*byte)) {
                let between = text[..byte].ends_with('\r') && text[byte..].starts_with('\n');
                let back = offset(text, walk.to(byte));
                assert_eq!(back, byte - usize::from(between), "{text:?} {byte}");
            }
        }
    }
}
