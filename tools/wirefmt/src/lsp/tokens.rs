//! Semantic tokens: the strings and comments that the formatter sees.

use wirescript_format::{Formatter, Refusal, TextKind};

use super::json::{Value, object};
use super::place::{Position, Walk};

/// The types of tokens; a token names one by its number.
pub fn legend() -> Value {
    let types = vec!["string".into(), "comment".into()];
    object([
        ("tokenTypes", types.into()),
        ("tokenModifiers", Vec::new().into()),
    ])
}

fn token_type(kind: TextKind) -> Option<u64> {
    match kind {
        TextKind::Code => None,
        TextKind::Str => Some(0),
        TextKind::Comment => Some(1),
    }
}

/// Characters of one type on one line.
struct Token {
    start: Position,
    length: u64,
    kind: u64,
}

/// The tokens of a text, as the protocol has them: five numbers each, places relative to the token before.
pub fn data(formatter: &mut Formatter, text: &str) -> Result<Value, Refusal> {
    let mut last = Position::default();
    let mut data = Vec::new();
    for token in tokens(text, &kinds(formatter, text)?) {
        if token.start.line > last.line {
            last.character = 0;
        }
        let lines = token.start.line - last.line;
        let characters = token.start.character - last.character;
        data.extend([lines, characters, token.length, token.kind, 0]);
        last = token.start;
    }
    let data = data.into_iter().map(|n| Value::Number(n.to_string()));
    Ok(object([("data", Value::Array(data.collect()))]))
}

/// The kind of each character, by its line and column in the formatter's lines.
fn kinds(formatter: &mut Formatter, text: &str) -> Result<Vec<TextKind>, Refusal> {
    let mut place = (0, 0);
    let places = text.chars().map(|character| {
        let here = place;
        place = if character == '\n' {
            (place.0 + 1, 0)
        } else {
            (place.0, place.1 + 1)
        };
        here
    });
    formatter.text_kinds(text, places.collect::<Vec<_>>())
}

fn tokens(text: &str, kinds: &[TextKind]) -> Vec<Token> {
    let mut walk = Walk::new(text);
    let mut tokens: Vec<Token> = Vec::new();
    for ((byte, character), kind) in text.char_indices().zip(kinds) {
        let Some(kind) = token_type(*kind).filter(|_| !matches!(character, '\n' | '\r')) else {
            continue;
        };
        let start = walk.to(byte);
        let units = character.len_utf16() as u64;
        match tokens.last_mut() {
            Some(last) if last.kind == kind && end(last) == start => last.length += units,
            _ => tokens.push(Token {
                start,
                length: units,
                kind,
            }),
        }
    }
    tokens
}

fn end(token: &Token) -> Position {
    Position {
        character: token.start.character + token.length,
        ..token.start
    }
}

#[cfg(test)]
mod tests {
    use super::*;

    fn numbers(text: &str) -> String {
        data(&mut Formatter::new(), text)
            .expect("no refusal")
            .to_string()
    }

    #[test]
    fn strings_and_comments() {
        assert_eq!(numbers("a"), "{\"data\":[]}");
        assert_eq!(numbers(""), "{\"data\":[]}");
        assert_eq!(
            numbers("a = \"b\" // c"),
            "{\"data\":[0,4,3,0,0,0,4,4,1,0]}"
        );
        assert_eq!(
            numbers("/* a\r\n\u{1f600} */ 'b'"),
            "{\"data\":[0,0,4,1,0,1,0,5,1,0,0,6,3,0,0]}"
        );
        // the inside of an interpolation is code
        assert_eq!(numbers("\"a${b}c\""), "{\"data\":[0,0,3,0,0,0,6,2,0,0]}");
        // a CR alone ends a line of the protocol, not one of the formatter
        assert_eq!(numbers("// a\rb\nc"), "{\"data\":[0,0,4,1,0,1,0,1,1,0]}");
    }
}
