//! Sources written by a grammar of the language, tidy or hostile, and changes to them.

use crate::random::Random;

/// Writes a source, line by line.
struct Writer<'a> {
    random: &'a mut Random,
    text: String,
    /// Odd spacing, characters and comments, once in so many times; 0 never.
    noise: usize,
    ending: &'static str,
    depth: usize,
}

#[rustfmt::skip]
const NAMES: &[&str] = &[
    "a", "b", "count", "round_start", "x1", "_tmp", "playerScore", "maximumHealthPoints", "t", "i",
];
#[rustfmt::skip]
const ODD_NAMES: &[&str] = &[
    "é", "名前", "😀", "ñandú", "x\u{a0}y", "\\a", "\\\"", "a\u{200b}", "Ω", "\\😀", "else_", "iff",
    "in",
];
const BINARY: &[&str] = &[
    "||", "^^", "&&", "|", "^", "&", "==", "!=", "<", ">", "<=", ">=", "<<", ">>", "..", "+", "-",
    "*", "/", "%", "**", "+", "-", "*", "&&", "==",
];
const ODD_OPERATORS: &[&str] = &[
    "->", "=>", "+=", "<<=", ">>=", "**=", "&&=", "...", "=", "===", "<=>", "- -", "+ +", "--",
    "\\+", "! ", ":", "?", "….", "..=", "....",
];
const SPACES: &[&str] = &[
    "  ", "   ", "\t", " \t ", "\u{a0}", "\u{3000}", "\u{2028}", "\u{85}", "\u{b}", "\\ ", "\r",
];
#[rustfmt::skip]
const TEXTS: &[&str] = &[
    "ok", "a  ,b", "{", "}", "// no", "/*", "`", "$", "\\\"", "\\\\", "日本語", "😀😀", "é", " , ",
    "else", "$$", "\\",
];
#[rustfmt::skip]
const TYPES: &[&str] = &[
    "int", "exec", "float", "bool", "string", "Entity", "{ x: int, y: int }", "[int]",
];

impl Writer<'_> {
    fn odd(&mut self) -> bool {
        self.noise > 0 && self.random.one_in(self.noise)
    }

    fn put(&mut self, text: &str) {
        self.text.push_str(text);
    }

    fn pick(&mut self, from: &[&str]) {
        let text = self.random.pick(from);
        self.text.push_str(text);
    }

    /// A space, or something odd in its place.
    fn space(&mut self) {
        if self.odd() {
            if self.random.one_in(2) {
                self.pick(SPACES);
            }
        } else {
            self.put(" ");
        }
    }

    fn comma(&mut self) {
        if self.odd() {
            self.pick(&[" ,", ",", "  ,  ", ",\t", ",,", " ,\t ", "\\ ,"]);
        } else {
            self.put(", ");
        }
    }

    fn name(&mut self) {
        if self.odd() {
            self.pick(ODD_NAMES);
        } else {
            self.pick(NAMES);
        }
    }

    fn string(&mut self) {
        let quote = if self.random.one_in(4) { "'" } else { "\"" };
        self.put(quote);
        for _ in 0..self.random.below(4) {
            match self.random.below(4) {
                0 => {
                    self.put("${");
                    if self.odd() {
                        self.pick(&["{a}", "\"}\"", "'", "\\}", "// x", "{", ""]);
                    } else {
                        self.expression(1);
                    }
                    if !self.odd() {
                        self.put("}");
                    }
                }
                1 if self.noise > 0 => self.pick(TEXTS),
                _ => self.pick(&["Score: ", "hello, world", " ", "round  over", "x"]),
            }
        }
        if !self.odd() {
            self.put(quote);
        }
    }

    fn operand(&mut self, depth: usize) {
        match self.random.below(if depth == 0 { 5 } else { 10 }) {
            0..3 => self.name(),
            3 => self.pick(&["0", "1", "42", "3.5", "1e-5", "0x1f"]),
            4 => self.pick(&[":my-state", ":idle", "true", "self.x", "a.b.c"]),
            5 => self.string(),
            6 => {
                self.put("(");
                self.expression(depth - 1);
                self.put(")");
            }
            7 => {
                self.name();
                self.put("(");
                self.list(depth - 1);
                self.put(")");
            }
            8 => {
                self.put("[");
                self.list(depth - 1);
                self.put("]");
            }
            _ => {
                self.pick(&["-", "!", "+", "..."]);
                self.operand(depth - 1);
            }
        }
    }

    fn list(&mut self, depth: usize) {
        for i in 0..self.random.below(5) {
            if i > 0 {
                self.comma();
            }
            self.expression(depth);
        }
    }

    fn expression(&mut self, depth: usize) {
        self.operand(depth);
        while self.random.one_in(if depth == 0 { 4 } else { 2 }) {
            self.space();
            if self.odd() {
                self.pick(ODD_OPERATORS);
            } else {
                self.pick(BINARY);
            }
            self.space();
            self.operand(depth);
        }
    }

    fn indent(&mut self) {
        if self.odd() {
            self.pick(&["", " ", "\t", "      ", "\t\t", "\u{3000}"]);
        } else {
            let spaces = "  ".repeat(self.depth);
            self.put(&spaces);
        }
    }

    fn end_line(&mut self) {
        match self.random.below(20) {
            0 => self.put(" // a note"),
            1 if self.noise > 0 => self.pick(&[
                " // fmt-ignore",
                " /* c */",
                " // }",
                "/// fmt-ignore",
                "//fmt-ignore ",
                "   ",
                "\t",
                " $```p```",
                " /*",
                "*/",
            ]),
            _ => {}
        }
        if self.odd() {
            self.pick(&["\n", "\r\n", "\n\n", "\n\n\n", "\r\r\n", "\n \n", ""]);
        } else {
            self.put(self.ending);
            if self.random.one_in(12) {
                self.put(self.ending);
            }
        }
    }

    fn import(&mut self) {
        self.put("import");
        self.space();
        self.put("{");
        self.space();
        for i in 0..=self.random.below(12) {
            if i > 0 {
                self.comma();
            }
            if self.odd() {
                self.pick(&["", " ", "\"x,y\"", "{b", "}", "\u{a0}", "\\,", "a b"]);
            } else {
                self.name();
            }
        }
        self.space();
        self.put("}");
        self.space();
        self.put("from");
        self.space();
        self.string();
    }

    fn block(&mut self, depth: usize) {
        self.put("{");
        self.end_line();
        self.depth += 1;
        for _ in 0..self.random.below(5) {
            self.statement(depth);
        }
        self.depth -= 1;
        self.indent();
        self.put("}");
    }

    fn statement(&mut self, depth: usize) {
        self.indent();
        match self.random.below(if depth == 0 { 5 } else { 10 }) {
            0 => {
                self.put("let ");
                self.name();
                self.put(" = ");
                self.expression(2);
            }
            1 | 2 => {
                self.name();
                self.space();
                self.pick(&["=", "+=", "=", "<<="]);
                self.space();
                self.expression(2);
            }
            3 => {
                self.name();
                self.put("(");
                self.list(2);
                self.put(")");
            }
            4 => self.comment(),
            5..8 => self.if_else(depth - 1),
            8 => {
                self.put("match ");
                self.expression(1);
                self.put(" ");
                self.block(depth - 1);
            }
            _ => {
                self.put("addRole(next, ");
                self.block(depth - 1);
                self.put(")");
            }
        }
        if self.odd() {
            self.end_line();
            self.indent();
            self.pick(&[
                "+ ", "then ", "else ", ".", "...", "- ", "&& ", "..", "-(", "} ", ")",
            ]);
            self.operand(1);
        }
        self.end_line();
    }

    fn if_else(&mut self, depth: usize) {
        self.put("if ");
        self.expression(1);
        self.put(" ");
        self.block(depth);
        for _ in 0..self.random.below(3) {
            if self.random.one_in(2) {
                self.put(" ");
            } else {
                self.end_line();
                self.indent();
            }
            self.put("else");
            if self.random.one_in(2) {
                self.space();
                self.put("if ");
                self.expression(1);
            }
            self.space();
            self.block(depth);
        }
    }

    fn comment(&mut self) {
        match self.random.below(6) {
            0 => {
                self.put("/* a block");
                for _ in 0..self.random.below(3) {
                    self.end_line();
                    self.pick(&[
                        "   text  ",
                        "\t* item }",
                        "{ (",
                        " /* inner */",
                        "else",
                        "in x",
                    ]);
                }
                if self.odd() {
                    self.end_line();
                }
                self.put(" */");
            }
            1 => {
                self.put("$```");
                for _ in 0..self.random.below(3) {
                    self.end_line();
                    self.pick(&["  var a: int = 0  ", "on go {", "\\", "`` }", "日本"]);
                }
                self.put("```");
            }
            2 if self.noise > 0 => self.pick(&[
                "// fmt-ignore",
                "/// fmt-ignore",
                "//  fmt-ignore  ",
                "//// fmt-ignore",
            ]),
            _ => self.pick(&[
                "// a comment",
                "/// a doc, with  spaces ,",
                "// 日本語 { (",
                "// }",
            ]),
        }
    }

    fn declaration(&mut self) {
        self.indent();
        match self.random.below(9) {
            0..4 => {
                self.pick(&["in ", "out ", "var ", "in ", "var "]);
                self.name();
                self.put(": ");
                self.pick(TYPES);
                if self.random.one_in(2) {
                    self.put(" = ");
                    self.expression(2);
                }
            }
            4 => self.import(),
            5 => self.comment(),
            6 => {
                self.put("chip ");
                self.name();
                self.put("(");
                self.list(0);
                self.put(") ");
                self.block(2);
            }
            7 => {
                self.put("let ");
                self.name();
                self.put(" = ");
                self.expression(3);
            }
            _ => {
                self.put("on ");
                self.name();
                self.put(" ");
                self.block(3);
            }
        }
        self.end_line();
    }
}

/// A source of at least `length` bytes; something odd once in `noise` places, or never at 0.
pub fn source(random: &mut Random, length: usize, noise: usize) -> String {
    let ending = if random.one_in(5) { "\r\n" } else { "\n" };
    let mut writer = Writer {
        random,
        text: String::new(),
        noise,
        ending,
        depth: 0,
    };
    let mut closed = 0;
    loop {
        writer.declaration();
        if writer.text.len() >= length {
            return writer.text;
        }
        // what noise left open doesn't take the whole rest
        if noise > 0 && writer.text.len() > closed + 300 {
            writer.put("\n*/```\n");
            closed = writer.text.len();
        }
    }
}

/// Characters that a change puts in.
#[rustfmt::skip]
const INSERTS: &[&str] = &[
    "\"", "'", "\\", "{", "}", "(", ")", "[", "]", ",", "\n", "\r", "\r\n", " ", "\t", "/*", "*/",
    "//", "$```", "```", "${", "`", "else", "if ", "// fmt-ignore\n", "+", "-", "*", ".", "=", ":",
    "é", "😀", "\u{a0}", "\u{3000}", "import {", "\n\n", "in ", "then ", "\0", "\u{7f}",
    "\u{10ffff}",
];

/// The source after a few changes.
pub fn mutate(random: &mut Random, source: &str) -> String {
    let mut chars: Vec<char> = source.chars().collect();
    for _ in 0..=random.below(4) {
        let n = chars.len();
        let at = random.below(n + 1);
        let end = (at + random.below(12)).min(n);
        match random.below(7) {
            0 => drop(chars.drain(at..end)),
            1 => {
                let part = chars[at..end].to_vec();
                let to = random.below(n + 1);
                chars.splice(to..to, part);
            }
            2 if random.one_in(4) => chars.truncate(at),
            3 if at < n => chars[at] = random.pick(INSERTS).chars().next().unwrap_or('a'),
            4 => {
                // a line's ending gone
                if let Some(i) = chars[at..].iter().position(|c| *c == '\n') {
                    chars.remove(at + i);
                }
            }
            _ => drop(chars.splice(at..at, random.pick(INSERTS).chars())),
        }
    }
    chars.into_iter().collect()
}
