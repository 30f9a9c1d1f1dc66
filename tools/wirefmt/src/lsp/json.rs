//! JSON (RFC 8259), read strictly, written without white space.

use std::fmt::{self, Write};

#[derive(Clone, Debug, PartialEq, Eq)]
pub enum Value {
    Null,
    Bool(bool),
    /// As it was written, so that an identifier goes back unchanged.
    Number(String),
    String(String),
    Array(Vec<Value>),
    /// In the order written; of a name that stands twice the last counts.
    Object(Vec<(String, Value)>),
}

/// Where and why a text is not JSON.
#[derive(Clone, Copy, Debug, PartialEq, Eq)]
pub struct NotJson {
    pub at: usize,
    pub what: &'static str,
}

impl fmt::Display for NotJson {
    fn fmt(&self, f: &mut fmt::Formatter<'_>) -> fmt::Result {
        write!(f, "{} at byte {}", self.what, self.at)
    }
}

/// How deep arrays and objects may stand in each other: reading recurses.
const DEEPEST: usize = 128;

/// Reads a text that is one value and white space.
pub fn read(text: &str) -> Result<Value, NotJson> {
    let mut reader = Reader { text, at: 0 };
    reader.skip_white();
    let value = reader.value(0)?;
    reader.skip_white();
    if reader.at < text.len() {
        return reader.fail("more than one value");
    }
    Ok(value)
}

struct Reader<'a> {
    text: &'a str,
    at: usize,
}

impl Reader<'_> {
    fn fail<T>(&self, what: &'static str) -> Result<T, NotJson> {
        Err(NotJson { at: self.at, what })
    }

    fn peek(&self) -> Option<u8> {
        self.text.as_bytes().get(self.at).copied()
    }

    fn skip(&mut self, of: impl Fn(u8) -> bool) -> usize {
        let start = self.at;
        while self.peek().is_some_and(&of) {
            self.at += 1;
        }
        self.at - start
    }

    fn skip_white(&mut self) {
        self.skip(|byte| matches!(byte, b' ' | b'\t' | b'\n' | b'\r'));
    }

    fn take(&mut self, byte: u8) -> bool {
        let there = self.peek() == Some(byte);
        self.at += usize::from(there);
        there
    }

    fn value(&mut self, depth: usize) -> Result<Value, NotJson> {
        if depth > DEEPEST {
            return self.fail("nested too deep");
        }
        match self.peek() {
            Some(b'{') => self.object(depth),
            Some(b'[') => self.array(depth),
            Some(b'"') => Ok(Value::String(self.string()?)),
            Some(b'-' | b'0'..=b'9') => self.number(),
            Some(b't') => self.word("true", Value::Bool(true)),
            Some(b'f') => self.word("false", Value::Bool(false)),
            Some(b'n') => self.word("null", Value::Null),
            _ => self.fail("no value"),
        }
    }

    fn word(&mut self, word: &str, value: Value) -> Result<Value, NotJson> {
        if !self.text[self.at..].starts_with(word) {
            return self.fail("no value");
        }
        self.at += word.len();
        Ok(value)
    }

    /// The items between an opening byte, which stands here, and a closing one, with commas between them.
    fn items<T>(
        &mut self,
        close: u8,
        mut item: impl FnMut(&mut Self) -> Result<T, NotJson>,
    ) -> Result<Vec<T>, NotJson> {
        self.at += 1;
        self.skip_white();
        let mut items = Vec::new();
        if self.take(close) {
            return Ok(items);
        }
        loop {
            self.skip_white();
            items.push(item(self)?);
            self.skip_white();
            if self.take(close) {
                return Ok(items);
            }
            if !self.take(b',') {
                return self.fail("neither a comma nor the end of a list");
            }
        }
    }

    fn array(&mut self, depth: usize) -> Result<Value, NotJson> {
        let items = self.items(b']', |reader| reader.value(depth + 1))?;
        Ok(Value::Array(items))
    }

    fn object(&mut self, depth: usize) -> Result<Value, NotJson> {
        let member = |reader: &mut Self| {
            if reader.peek() != Some(b'"') {
                return reader.fail("no name");
            }
            let name = reader.string()?;
            reader.skip_white();
            if !reader.take(b':') {
                return reader.fail("no colon");
            }
            reader.skip_white();
            Ok((name, reader.value(depth + 1)?))
        };
        Ok(Value::Object(self.items(b'}', member)?))
    }

    fn digits(&mut self) -> Result<(), NotJson> {
        match self.skip(|byte| byte.is_ascii_digit()) {
            0 => self.fail("no digit"),
            _ => Ok(()),
        }
    }

    fn number(&mut self) -> Result<Value, NotJson> {
        let start = self.at;
        self.take(b'-');
        if !self.take(b'0') {
            self.digits()?;
        }
        if self.take(b'.') {
            self.digits()?;
        }
        if self.take(b'e') || self.take(b'E') {
            let _ = self.take(b'+') || self.take(b'-');
            self.digits()?;
        }
        Ok(Value::Number(self.text[start..self.at].into()))
    }

    /// The string whose opening quote stands here.
    fn string(&mut self) -> Result<String, NotJson> {
        self.at += 1;
        let mut string = String::new();
        loop {
            let start = self.at;
            self.skip(|byte| byte >= b' ' && byte != b'"' && byte != b'\\');
            string.push_str(&self.text[start..self.at]);
            if self.take(b'"') {
                return Ok(string);
            }
            if !self.take(b'\\') {
                return self.fail("a string that isn't closed");
            }
            string.push(self.escaped()?);
        }
    }

    /// The character that is written behind a backslash.
    fn escaped(&mut self) -> Result<char, NotJson> {
        let Some(byte) = self.peek() else {
            return self.fail("a string that isn't closed");
        };
        let character = match byte {
            b'"' | b'\\' | b'/' => char::from(byte),
            b'b' => '\u{8}',
            b'f' => '\u{c}',
            b'n' => '\n',
            b'r' => '\r',
            b't' => '\t',
            b'u' => return self.unit(),
            _ => return self.fail("no escape"),
        };
        self.at += 1;
        Ok(character)
    }

    /// The character of `u` and four digits, or of two such units. A surrogate without its other half,
    /// which an editor's text may hold, becomes U+FFFD: it too is one unit of UTF-16.
    fn unit(&mut self) -> Result<char, NotJson> {
        let first = self.hex()?;
        let after = self.at;
        if (0xd800..0xdc00).contains(&first) && self.text[after..].starts_with("\\u") {
            self.at += 1;
            let second = self.hex()?;
            if let Some(Ok(pair)) = char::decode_utf16([first, second]).next() {
                return Ok(pair);
            }
            self.at = after;
        }
        Ok(char::from_u32(first.into()).unwrap_or(char::REPLACEMENT_CHARACTER))
    }

    /// The number of `u` and four digits.
    fn hex(&mut self) -> Result<u16, NotJson> {
        self.at += 1;
        let digits = self.text.as_bytes().get(self.at..self.at + 4);
        let digits = digits.filter(|four| four.iter().all(u8::is_ascii_hexdigit));
        let number = digits.and_then(|four| std::str::from_utf8(four).ok());
        let Some(Ok(number)) = number.map(|four| u16::from_str_radix(four, 16)) else {
            return self.fail("not four hexadecimal digits");
        };
        self.at += 4;
        Ok(number)
    }
}

impl Value {
    /// The member of a name.
    pub fn get(&self, name: &str) -> Option<&Self> {
        match self {
            Self::Object(members) => members.iter().rfind(|(n, _)| n == name).map(|(_, v)| v),
            _ => None,
        }
    }

    pub fn string(&self) -> Option<&str> {
        match self {
            Self::String(string) => Some(string),
            _ => None,
        }
    }

    pub fn boolean(&self) -> Option<bool> {
        match self {
            Self::Bool(boolean) => Some(*boolean),
            _ => None,
        }
    }

    /// A whole number, written without point and exponent.
    pub fn whole<Number: std::str::FromStr>(&self) -> Option<Number> {
        match self {
            Self::Number(number) => number.parse().ok(),
            _ => None,
        }
    }

    pub fn array(&self) -> Option<&[Self]> {
        match self {
            Self::Array(items) => Some(items),
            _ => None,
        }
    }
}

impl From<&str> for Value {
    fn from(string: &str) -> Self {
        Self::String(string.into())
    }
}

impl From<bool> for Value {
    fn from(boolean: bool) -> Self {
        Self::Bool(boolean)
    }
}

impl From<i64> for Value {
    fn from(number: i64) -> Self {
        Self::Number(number.to_string())
    }
}

impl From<Vec<Value>> for Value {
    fn from(items: Vec<Value>) -> Self {
        Self::Array(items)
    }
}

/// An object of these members.
pub fn object<const N: usize>(members: [(&str, Value); N]) -> Value {
    Value::Object(members.map(|(name, value)| (name.into(), value)).into())
}

impl fmt::Display for Value {
    fn fmt(&self, f: &mut fmt::Formatter<'_>) -> fmt::Result {
        match self {
            Self::Null => f.write_str("null"),
            Self::Bool(boolean) => write!(f, "{boolean}"),
            Self::Number(number) => f.write_str(number),
            Self::String(string) => write_string(f, string),
            Self::Array(items) => write_items(f, ['[', ']'], items, |f, item| write!(f, "{item}")),
            Self::Object(members) => write_items(f, ['{', '}'], members, |f, (name, value)| {
                write_string(f, name)?;
                write!(f, ":{value}")
            }),
        }
    }
}

fn write_items<T>(
    f: &mut fmt::Formatter<'_>,
    [open, close]: [char; 2],
    items: &[T],
    write: impl Fn(&mut fmt::Formatter<'_>, &T) -> fmt::Result,
) -> fmt::Result {
    f.write_char(open)?;
    for (place, item) in items.iter().enumerate() {
        if place > 0 {
            f.write_char(',')?;
        }
        write(f, item)?;
    }
    f.write_char(close)
}

fn write_string(f: &mut fmt::Formatter<'_>, string: &str) -> fmt::Result {
    f.write_char('"')?;
    for character in string.chars() {
        match character {
            '"' => f.write_str("\\\"")?,
            '\\' => f.write_str("\\\\")?,
            '\n' => f.write_str("\\n")?,
            '\r' => f.write_str("\\r")?,
            '\t' => f.write_str("\\t")?,
            control @ '\0'..' ' => write!(f, "\\u{:04x}", u32::from(control))?,
            other => f.write_char(other)?,
        }
    }
    f.write_char('"')
}

#[cfg(test)]
mod tests {
    use super::*;

    /// What is read from a text, written again.
    fn again(text: &str) -> Result<String, NotJson> {
        read(text).map(|value| value.to_string())
    }

    #[test]
    fn values_are_read_and_written() {
        let same = [
            "null",
            "true",
            "false",
            "0",
            "-0",
            "12",
            "-1.50e+3",
            "1E9",
            "\"\"",
            "[]",
            "{}",
            "[1,[2,{\"a\":null}]]",
            "{\"a\":1,\"b\":\"c\"}",
            "\"\u{1f600}\u{2028}\"",
        ];
        for text in same {
            assert_eq!(again(text).as_deref(), Ok(text));
        }
        let spaced = " { \"a\" :\t[ 1 ,\n2 ] ,\r\"b\": { } } ";
        assert_eq!(again(spaced).as_deref(), Ok("{\"a\":[1,2],\"b\":{}}"));
    }

    #[test]
    fn escapes() {
        let string = |text: &str| read(text).map(|v| v.string().map(str::to_owned));
        let all = "\"\\\"\\\\\\/\\b\\f\\n\\r\\t\\u00e9\\u00E9\"";
        assert_eq!(
            string(all),
            Ok(Some("\"\\/\u{8}\u{c}\n\r\t\u{e9}\u{e9}".into()))
        );
        assert_eq!(string("\"\\ud83d\\ude00\""), Ok(Some("\u{1f600}".into())));
        // halves alone: each is one unit, before and after
        assert_eq!(string("\"\\ud83dx\""), Ok(Some("\u{fffd}x".into())));
        assert_eq!(string("\"\\ude00\""), Ok(Some("\u{fffd}".into())));
        assert_eq!(string("\"\\ud83d\\u0041\""), Ok(Some("\u{fffd}A".into())));
        let pair_after_half = "\"\\ud83d\\ud83d\\ude00\"";
        assert_eq!(
            string(pair_after_half),
            Ok(Some("\u{fffd}\u{1f600}".into()))
        );
        let written = Value::from("\u{0}\u{1f}\n\t\r\"\\\u{7f}").to_string();
        assert_eq!(written, "\"\\u0000\\u001f\\n\\t\\r\\\"\\\\\u{7f}\"");
    }

    #[rustfmt::skip]
    const NOT_JSON: [&str; 38] = [
        "", " ", "nul", "truex", "01", "-", "1.", ".5", "1e", "+1", "'a'", "\"a", "\"\\", "\"\\x\"",
        "\"\\u12\"", "\"\\u12g4\"", "\"\\u+123\"", "\"\n\"", "\"\t\"", "[", "[1", "[1,", "[1,]", "[,1]",
        "[1 2]", "{", "{\"a\"}", "{\"a\":}", "{\"a\":1,}", "{a:1}", "{\"a\" 1}", "1 2", "{}x", "\u{a0}1",
        "\u{feff}1", "NaN", "// a\n1", "\"\\ud83d\\u12\"",
    ];

    #[test]
    fn what_is_not_json_is_refused() {
        for text in NOT_JSON {
            assert!(read(text).is_err(), "{text:?}");
        }
        assert_eq!(
            read("[1,]"),
            Err(NotJson {
                at: 3,
                what: "no value"
            })
        );
    }

    #[test]
    fn depth_has_an_end() {
        let nested = |depth: usize| "[".repeat(depth) + &"]".repeat(depth);
        assert!(read(&nested(DEEPEST + 1)).is_ok());
        assert!(read(&nested(DEEPEST + 2)).is_err());
        assert!(read(&"[".repeat(1_000_000)).is_err());
        assert!(read(&"{\"a\":".repeat(1_000_000)).is_err());
    }

    #[test]
    fn members() {
        let value = read("{\"a\":1,\"b\":true,\"a\":-2}").expect("JSON");
        assert_eq!(value.get("a").and_then(Value::whole::<i64>), Some(-2));
        assert_eq!(value.get("a").and_then(Value::whole::<u64>), None);
        assert_eq!(value.get("b").and_then(Value::boolean), Some(true));
        assert_eq!(value.get("c"), None);
        assert_eq!(Value::Number("1.0".into()).whole::<u64>(), None);
    }
}
