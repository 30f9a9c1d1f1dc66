//! The inputs that `bench` formats.

use crate::grammar;
use crate::random::Random;
use crate::texts;
use upstream::{FormatOptions, format_with};
use wirescript_format::Options;

/// A source of any size, and the options to format it with.
pub struct Input {
    pub name: &'static str,
    indent: &'static str,
    width: fn(usize) -> usize,
    make: fn(usize) -> String,
}

impl Input {
    /// The source, no longer than `size`.
    pub fn source(&self, size: usize) -> String {
        cut((self.make)(size), size)
    }

    /// The library's options at that size.
    pub fn options(&self, size: usize) -> Options {
        let width = (self.width)(size) as u64;
        Options::new().indent(self.indent).width(Some(width))
    }

    /// The same as the Rust's.
    pub fn theirs(&self, size: usize) -> FormatOptions {
        FormatOptions {
            indent: self.indent.into(),
            print_width: Some((self.width)(size)),
            ..FormatOptions::default()
        }
    }
}

fn hundred(_: usize) -> usize {
    100
}

fn repeated(unit: &str, size: usize) -> String {
    unit.repeat(size / unit.len())
}

/// The source, no longer than `size`.
fn cut(mut source: String, size: usize) -> String {
    let end = (0..=size).rev().find(|&i| source.is_char_boundary(i));
    source.truncate(end.unwrap_or(0));
    source
}

/// A source of the grammar.
pub fn written(size: usize, noise: usize) -> String {
    cut(grammar::source(&mut Random::new(1), size, noise), size)
}

/// An import of this size.
fn import(size: usize) -> String {
    let names: String = (0..size / 8 - 4)
        .map(|i| format!("n{:05}, ", i % 100_000))
        .collect();
    format!("import {{ {names}}} from \"lib\"\n")
}

/// Whether a line after the source stands at the margin.
fn closes(source: &str) -> bool {
    format_with(&format!("{source}\nx\n"), &FormatOptions::default()).ends_with("\nx\n")
}

/// The sources in the Rust project's own tests, as string literals of several lines: real ones, but
/// small, with short lines. They are read from the folder of its source.
fn tests_of_the_rust(size: usize) -> String {
    let folder = std::env::var("WIRESCRIPT_SRC").unwrap_or_else(|_| {
        concat!(env!("CARGO_MANIFEST_DIR"), "/../../../shared/docs/src").into()
    });
    let path = format!("{folder}/crates/wirescript/src/layout_tests/code.rs");
    let code = std::fs::read_to_string(&path).unwrap_or_else(|e| panic!("{path}: {e}"));
    let sources: String = code
        .lines()
        .filter_map(|line| line.split_once('"')?.1.rsplit_once('"'))
        .filter(|(literal, _)| literal.matches("\\n").count() > 1)
        .map(|(literal, _)| literal.replace("\\n", "\n").replace("\\\"", "\"") + "\n\n")
        .filter(|source| closes(source))
        .collect();
    repeated(&sources, size.max(sources.len()))
}

/// Lines as builders write them, from templates; each block is closed at once.
fn templates(size: usize) -> String {
    let (_, text) = texts::texts().swap_remove(0);
    cut(text.replace("{\n", "{\n}\n"), size)
}

pub const INPUTS: &[Input] = &[
    Input {
        name: "templates",
        indent: "  ",
        width: hundred,
        make: templates,
    },
    Input {
        name: "the Rust's test sources",
        indent: "  ",
        width: hundred,
        make: tests_of_the_rust,
    },
    Input {
        name: "grammar, tidy",
        indent: "  ",
        width: hundred,
        make: |n| written(n, 0),
    },
    Input {
        name: "grammar, hostile",
        indent: "  ",
        width: hundred,
        make: |n| written(n, 8),
    },
    Input {
        name: "grammar, formatted",
        indent: "  ",
        width: hundred,
        make: |n| format_with(&written(n, 0), &FormatOptions::default()),
    },
    Input {
        name: "one long line of words",
        indent: "  ",
        width: hundred,
        make: |n| repeated("word another ", n),
    },
    Input {
        name: "one long sum",
        indent: "  ",
        width: hundred,
        make: |n| format!("a{}", repeated(" + b * c", n)),
    },
    Input {
        name: "wide imports",
        indent: "  ",
        width: hundred,
        make: |n| repeated(&import(400), n),
    },
    Input {
        name: "one import, width 100",
        indent: "  ",
        width: hundred,
        make: import,
    },
    Input {
        name: "one import, half its width",
        indent: "  ",
        width: |n| n / 2,
        make: import,
    },
    Input {
        name: "wide operator lines",
        indent: "  ",
        width: hundred,
        make: |n| {
            repeated(
                &format!(
                    "let x = f(a, b){} || c == d\n",
                    " + value * 3 - (a && b)".repeat(6)
                ),
                n,
            )
        },
    },
    Input {
        name: "commas",
        indent: "  ",
        width: hundred,
        make: |n| repeated("f(a ,b,c  , d)\n", n),
    },
    Input {
        name: "commas alone",
        indent: "  ",
        width: hundred,
        make: |n| repeated(",", n),
    },
    Input {
        name: "spaces before a comma",
        indent: "  ",
        width: hundred,
        make: |n| repeated(&format!("a{},b\n", " ".repeat(500)), n),
    },
    Input {
        name: "blank lines",
        indent: "  ",
        width: hundred,
        make: |n| repeated("\n", n),
    },
    Input {
        name: "declarations",
        indent: "  ",
        width: hundred,
        make: |n| repeated("in a: int\n\nin b: int\n", n),
    },
    Input {
        name: "nested to 40",
        indent: "  ",
        width: hundred,
        make: |n| {
            repeated(
                &format!("{}{}", "f(x, {\n".repeat(40), "})\n".repeat(40)),
                n,
            )
        },
    },
    Input {
        name: "deep nesting, empty indent",
        indent: "",
        width: hundred,
        make: |n| repeated("(\n", n),
    },
    Input {
        name: "deep nesting, 300 a line",
        indent: "",
        width: hundred,
        make: |n| repeated(&format!("{}\n", "(".repeat(300)), n),
    },
    Input {
        name: "line comments",
        indent: "  ",
        width: hundred,
        make: |n| repeated("  // a note, with { and (  \n", n),
    },
    Input {
        name: "block comments",
        indent: "  ",
        width: hundred,
        make: |n| repeated("/* a\n   note /* inner */ }\n  end */ f(a ,b)\n", n),
    },
    Input {
        name: "prefabs",
        indent: "  ",
        width: hundred,
        make: |n| repeated("let p = $```\n  var a: int = 0 }\n``` ,b\n", n),
    },
    Input {
        name: "multi-byte text",
        indent: "  ",
        width: hundred,
        make: |n| repeated("let 名前 = \"日本語 😀\" + é ,Ω\n", n),
    },
    Input {
        name: "strings with ${",
        indent: "  ",
        width: hundred,
        make: |n| repeated("log(\"a ${b + \"x}\" + {c}} d ${e}\" ,'f ${g}')\n", n),
    },
    Input {
        name: "joins",
        indent: "  ",
        width: hundred,
        make: |n| format!("}}\n{}", repeated("else }\n", n)),
    },
    Input {
        name: "if and else",
        indent: "  ",
        width: hundred,
        make: |n| repeated("if a {\n  b\n}\nelse {\n  c\n}\n", n),
    },
    Input {
        name: "backslashes",
        indent: "  ",
        width: hundred,
        make: |n| repeated("\\a\\ ,\\\\ \\\"", n),
    },
    Input {
        name: "CRLF",
        indent: "  ",
        width: hundred,
        make: |n| repeated("var a: int = 0\r\n", n),
    },
];
