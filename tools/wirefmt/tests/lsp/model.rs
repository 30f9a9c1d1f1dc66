//! Random documents and changes: a client that keeps its text in UTF-16, by code of its own, and carries out the edits
//! that it gets must come to the formatter's text.

use wirescript_format::{Options, format};

use crate::client::*;

/// Gives the same numbers in every run.
struct Random(u64);

impl Random {
    fn below(&mut self, end: usize) -> usize {
        self.0 = self
            .0
            .wrapping_mul(6_364_136_223_846_793_005)
            .wrapping_add(1_442_695_040_888_963_407);
        usize::try_from(self.0 >> 33).expect("31 bits") % end
    }

    fn text(&mut self, most: usize) -> String {
        const PIECES: [&str; 24] = [
            "a",
            "b",
            " ",
            "  ",
            "\t",
            "\n",
            "\n",
            "\r\n",
            "\r",
            ",",
            "(",
            ")",
            "{",
            "}",
            "\"",
            "// ",
            "/*",
            "*/",
            "+",
            "else",
            "\u{1f600}",
            "\u{e9}",
            "\u{20ac}",
            "\u{2028}",
        ];
        let length = self.below(most + 1);
        (0..length)
            .map(|_| PIECES[self.below(PIECES.len())])
            .collect()
    }
}

/// The text as the client has it.
struct Model(Vec<u16>);

impl Model {
    fn text(&self) -> String {
        String::from_utf16(&self.0).expect("no half of a pair")
    }

    /// Start and end of each line, its ending left out.
    fn lines(&self) -> Vec<(usize, usize)> {
        let (mut lines, mut start) = (Vec::new(), 0);
        for (at, unit) in self.0.iter().enumerate() {
            let before = at > 0 && self.0[at - 1] == 13;
            match unit {
                // the CR before it has ended the line
                10 if before => start = at + 1,
                10 | 13 => {
                    lines.push((start, at));
                    start = at + 1;
                }
                _ => {}
            }
        }
        lines.push((start, self.0.len()));
        lines
    }

    fn index(&self, line: u64, character: u64) -> usize {
        let Some((start, end)) = usize::try_from(line)
            .ok()
            .and_then(|line| self.lines().get(line).copied())
        else {
            return self.0.len();
        };
        let at = usize::try_from(character).map_or(end, |character| end.min(start + character));
        let within = at < end && (0xdc00..0xe000).contains(&self.0[at]);
        at - usize::from(within)
    }

    fn replace(&mut self, [line, character, end_line, end_character]: [u64; 4], text: &str) {
        let start = self.index(line, character);
        let end = self.index(end_line, end_character);
        self.0.splice(start..end, text.encode_utf16());
    }

    /// A range, whose ends may stand past the end of a line and of the text.
    fn range(&self, random: &mut Random) -> [u64; 4] {
        let lines = self.lines();
        let mut place = || {
            let line = random.below(lines.len() + 1);
            let length = lines.get(line).map_or(0, |(start, end)| end - start);
            (line as u64, random.below(length + 3) as u64)
        };
        let mut ends = [place(), place()];
        ends.sort_unstable();
        [ends[0].0, ends[0].1, ends[1].0, ends[1].1]
    }
}

/// The edits of a list: their ranges and texts, which hold no letters.
fn edits(list: &str) -> Vec<([u64; 4], String)> {
    let edit = |edit: &str| {
        let (place, text) = edit.split_once(r#""newText":""#).expect("a text");
        let numbers = place
            .split(|c: char| !c.is_ascii_digit())
            .filter_map(|number| number.parse().ok());
        let numbers: Vec<u64> = numbers.collect();
        let text = text.split_once('"').expect("its end").0;
        let text = text
            .replace("\\n", "\n")
            .replace("\\r", "\r")
            .replace("\\t", "\t");
        (numbers.try_into().expect("four numbers"), text)
    };
    list.split(r#"{"range":"#).skip(1).map(edit).collect()
}

/// The edits of the document, carried out the last first, give the formatter's text.
fn compare(client: &mut Client, model: &Model) -> usize {
    let edits = edits(&client.edits("a"));
    let mut after = Model(model.0.clone());
    for (place, text) in edits.iter().rev() {
        after.replace(*place, text);
    }
    let text = format(model.text(), &Options::new())
        .expect("no refusal")
        .text;
    assert_eq!(after.text(), text, "{:?}", model.text());
    edits.len()
}

#[test]
fn random_documents_and_changes() {
    let mut client = Client::ready();
    let mut random = Random(1);
    let mut made = 0;
    for _ in 0..200 {
        let mut model = Model(random.text(30).encode_utf16().collect());
        client.send(&opened("a", &model.text()));
        client.receive();
        for version in 2..7 {
            let (place, text) = (model.range(&mut random), random.text(6));
            let changes = format!("[{}]", changed(place, &text));
            client.send(&did_change("a", version, &changes));
            client.receive();
            model.replace(place, &text);
            made += compare(&mut client, &model);
        }
    }
    assert!(made > 1000, "{made}");
    client.shut_down();
}
