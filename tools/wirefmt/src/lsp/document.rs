//! An open document, as the editor has it.

use super::json::Value;
use super::place::{Position, offset};

#[derive(Clone, Debug, PartialEq, Eq)]
pub struct Document {
    pub text: String,
    /// The editor's number of this text, or null.
    pub version: Value,
}

/// One change of a text: a range gives way to a text, or the whole text does.
#[derive(Debug, PartialEq, Eq)]
pub struct Change<'a> {
    range: Option<[Position; 2]>,
    text: &'a str,
}

impl<'a> Change<'a> {
    pub fn read(value: &'a Value) -> Option<Self> {
        let text = value.get("text")?.string()?;
        let range = match value.get("range") {
            None | Some(Value::Null) => None,
            Some(range) => Some([
                Position::read(range.get("start")?)?,
                Position::read(range.get("end")?)?,
            ]),
        };
        Some(Self { range, text })
    }

    pub fn apply(&self, text: &mut String) {
        let Some(mut range) = self.range else {
            self.text.clone_into(text);
            return;
        };
        // a range whose end stands before its start is meant the other way round
        range.sort();
        let [start, end] = range.map(|position| offset(text, position));
        text.replace_range(start..end, self.text);
    }
}

#[cfg(test)]
mod tests {
    use super::super::json::read;
    use super::*;

    fn changed(text: &str, change: &str) -> Option<String> {
        let change = read(change).expect("JSON");
        let mut text = text.to_owned();
        Change::read(&change)?.apply(&mut text);
        Some(text)
    }

    fn ranged(
        text: &str,
        [line, character, end_line, end_character]: [u64; 4],
        put: &str,
    ) -> String {
        let change = format!(
            "{{\"range\":{{\"start\":{{\"line\":{line},\"character\":{character}}},\
             \"end\":{{\"line\":{end_line},\"character\":{end_character}}}}},\"text\":{}}}",
            Value::from(put)
        );
        changed(text, &change).expect("a change")
    }

    #[test]
    fn changes() {
        assert_eq!(changed("abc", "{\"text\":\"x\"}").as_deref(), Some("x"));
        assert_eq!(
            changed("abc", "{\"text\":\"x\",\"range\":null}").as_deref(),
            Some("x")
        );
        assert_eq!(ranged("ab\ncd", [0, 1, 1, 1], "X"), "aXd");
        assert_eq!(ranged("ab\ncd", [1, 1, 0, 1], "X"), "aXd");
        assert_eq!(ranged("ab\r\ncd", [0, 9, 0, 9], "X"), "abX\r\ncd");
        assert_eq!(ranged("ab\r\ncd", [0, 2, 1, 0], ""), "abcd");
        assert_eq!(ranged("\u{1f600}b", [0, 2, 0, 3], "c"), "\u{1f600}c");
        assert_eq!(ranged("a", [7, 7, 8, 8], "\nb"), "a\nb");
        assert_eq!(ranged("", [0, 0, 0, 0], "a"), "a");
    }

    #[test]
    fn what_is_no_change() {
        for change in [
            "{}",
            "{\"text\":1}",
            "[]",
            "{\"text\":\"\",\"range\":{}}",
            "{\"text\":\"\",\"range\":1}",
            "{\"text\":\"\",\"range\":{\"start\":{\"line\":0,\"character\":-1},\"end\":{\"line\":0,\"character\":0}}}",
        ] {
            assert_eq!(changed("abc", change), None, "{change}");
        }
    }
}
