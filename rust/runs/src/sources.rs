//! Sources: every short one over an alphabet, and random ones.

use crate::call::{Call, Size};
use crate::grammar;
use crate::random::Random;
use ec4rs::Properties;
use ec4rs::property::{EndOfLine, FinalNewline, IndentSize, IndentStyle, MaxLineLen, TabWidth};
use upstream::{FormatOptions, LineEnding};
use wirescript_format::Options;

/// The twelve characters over which every short source is run.
pub const TWELVE: [&str; 12] = [
    " ", "\n", ",", "\"", "\\", "/", "*", "$", "{", "}", "+", "a",
];

/// Further alphabets; a letter may be several characters.
#[rustfmt::skip]
pub const ALPHABETS: &[(&str, &[&str])] = &[
    ("twelve", &TWELVE),
    ("operators", &["a", " ", "+", "-", "=", "<", ">", "&", "|", "^", "*", ".", "%", "!"]),
    ("operands", &["a", " ", "-", "*", "(", ")", "{", "}", "\\", "\"", ":", "_", "é", "\t"]),
    ("words", &["a", "+", " ", "if", "then", "else", "match", "await", "_", "\"", "\\", ".", "("]),
    ("else", &["}", "else", " ", "\n", "{", "if", "/", "\t", "\u{3000}", "\"", "a"]),
    ("declarations", &["in ", "out ", "var ", "in", "\n", "a", ",", "{", "}", " ", "/*", "*/"]),
    ("import", &["import", " ", "{", "}", ",", "a", "bc", "\"", "\\", "_", "\u{a0}", "*"]),
    ("marker", &[
        "// fmt-ignore", "//", "/", "fmt-ignore", "\n", " ", "{", "}", "a", ",", "\"", "/*", "*/",
    ]),
    ("comments", &["/", "*", "\n", " ", "a", "{", "}", "(", ",", "\\", "\"", "else"]),
    ("prefabs", &["$", "`", "``", "```", "$```", "\n", " ", "}", "{", "a", "\r", "\\"]),
    ("interpolation", &["\"", "'", "$", "{", "${", "}", "\\", " ", ",", "a", "+"]),
    ("endings", &["\r", "\n", "\r\n", " ", "a", "\t", "}", "else", "$```", "/*"]),
    ("brackets", &["(", ")", "{", "}", "[", "]", "\n", "a", "\\", "\"", ","]),
    ("spacing", &[",", " ", "  ", "\t", "\\", ")", "a", "\"", "//", "\u{a0}", "\u{3000}", "/*"]),
    ("white", &[
        "\u{b}", "\u{c}", "\u{85}", "\u{a0}", "\u{2028}", "\u{3000}", "\u{feff}", "a", "\n", "-",
        "+", "}", "else", "in ",
    ]),
    ("starts", &[
        "then", "else", "..", ".", "-", "(", " ", "\n", "a", "}", "\u{a0}", "{", "<", "//",
    ]),
];

/// What may stand behind a lone marker, and in the block that it protects.
#[rustfmt::skip]
pub const BLOCKS: [&str; 13] = [
    "(", ")", "{", "}", "\n", " ", "/*", "*/", "$```", "```", "else", " a ,", "// fmt-ignore\n",
];

/// How many sources of `length` letters there are.
pub fn count(alphabet: &[&str], length: u32) -> u64 {
    (alphabet.len() as u64).pow(length)
}

/// The source of `length` letters with this number, in the alphabet's order.
pub fn nth(alphabet: &[&str], length: u32, number: u64) -> String {
    let size = alphabet.len() as u64;
    let mut source = String::new();
    for place in (0..length).rev() {
        source.push_str(alphabet[(number / size.pow(place) % size) as usize]);
    }
    source
}

/// Characters and words out of which short random sources are made.
#[rustfmt::skip]
const TOKENS: &[&str] = &[
    "a", "b", "x", "1", "_", " ", " ", " ", "  ", "\t", "\n", "\n", "\n", "\r\n", "\r", ",", ",",
    "(", ")", "[", "]", "{", "}", "{", "}", "\"", "'", "\\", "$", "${", "/", "*", "//", "/*", "*/",
    "`", "```", "$```", "+", "-", "*", "/", "%", "**", "&", "|", "^", "&&", "||", "^^", "<", ">",
    "<=", ">=", "==", "!=", "<<", ">>", "=", "!", ".", "..", "...", "->", "=>", ":", ";", "else",
    "else ", "if", "if ", "then ", "match ", "await ", "in ", "out ", "var ", "import {",
    "import ", "from ", "// fmt-ignore", "// fmt-ignore\n", "/// fmt-ignore", "}\nelse", "} else",
    "é", "\u{a0}", "\u{3000}", "\u{85}", "\u{2028}", "\u{b}", "\u{feff}", "\u{200b}", "😀", "名",
];

/// A random source of at most `most` tokens.
pub fn tokens(random: &mut Random, most: usize) -> String {
    let n = random.below(most + 1);
    (0..n).map(|_| random.pick(TOKENS)).collect()
}

/// An import with odd names.
fn import(random: &mut Random) -> String {
    let names = [
        "a",
        "b",
        "cd",
        "",
        " ",
        "\u{a0}",
        "\"x,y\"",
        "{b}",
        "\\,",
        "é",
        "😀",
        "a b",
        "\t",
        "long_name",
    ];
    let mut source = String::from(random.pick(&[
        "import {",
        "import{",
        "import { ",
        "import \\{",
        "importé {",
        "import a {",
    ]));
    for _ in 0..random.below(7) {
        source.push_str(random.pick(&names));
        source.push_str(random.pick(&[",", ", ", " ,", ",,", ""]));
    }
    source.push_str(random.pick(&["}", " }", "} from \"l\"", "} * b", "}}", "", "} // c"]));
    source
}

/// Some imports, each on a line of its own, with blank names among the others.
pub fn imports(random: &mut Random) -> String {
    let mut source = String::new();
    for _ in 0..=random.below(4) {
        source.push_str("import {");
        for _ in 0..=random.below(8) {
            source.push_str(random.pick(&["a", "bc", "long_name", "", "", " ", "\u{a0}"]));
            source.push_str(random.pick(&[",", ", ", " ,"]));
        }
        source.push_str(random.pick(&["} from \"l\"\n", "}\n", "d } from 'm'\r\n"]));
    }
    source
}

/// Resolved values of .editorconfig, of which each may be unset.
pub fn values(random: &mut Random) -> Properties {
    const SIZES: [usize; 7] = [0, 1, 2, 8, 64, 65, usize::MAX];
    let size = |random: &mut Random| SIZES[random.below(SIZES.len())];
    Properties {
        style: [None, Some(IndentStyle::Tabs), Some(IndentStyle::Spaces)][random.below(3)],
        size: match random.below(3) {
            0 => None,
            1 => Some(IndentSize::UseTabWidth),
            _ => Some(IndentSize::Value(size(random))),
        },
        tab: random.one_in(2).then(|| TabWidth::Value(size(random))),
        max: match random.below(3) {
            0 => None,
            1 => Some(MaxLineLen::Off),
            _ => Some(MaxLineLen::Value(size(random))),
        },
        ending: [
            None,
            Some(EndOfLine::Lf),
            Some(EndOfLine::CrLf),
            Some(EndOfLine::Cr),
        ][random.below(4)],
        newline: [None, Some(false), Some(true)][random.below(3)].map(FinalNewline::Value),
    }
}

/// An expression with operators.
pub fn expression(random: &mut Random) -> String {
    let operands = [
        "a",
        "b1",
        "_",
        "(a+b)",
        "f(x, y)",
        "[c]",
        "{d}",
        "\"s\"",
        "'t'",
        "\"${a + b}\"",
        ":my-state",
        "é",
        "1e-5",
        "\\a",
        "-a",
        "...b",
        "😀",
        "if",
        "a.b",
        "\"😀\"",
    ];
    let operators = [
        "||", "^^", "&&", "|", "^", "&", "==", "!=", "<", ">", "<=", ">=", "<<", ">>", "..", "+",
        "-", "*", "/ ", "%", "**", "=", "->", "=>", "<<=", "+=", "**=", "...", " ", ",", " ,",
        "+ +", "- -", "\\+",
    ];
    let mut source = String::new();
    for _ in 0..=random.below(4) {
        source.push_str(random.pick(&operands));
        source.push_str(random.pick(&["", " ", "", "\t", "\u{a0}"]));
        source.push_str(random.pick(&operators));
        source.push_str(random.pick(&["", " ", ""]));
    }
    source.push_str(random.pick(&operands));
    source
}

/// A line of one of the kinds that the rules name.
fn line(random: &mut Random) -> String {
    match random.below(12) {
        0 => import(random),
        1 | 2 => expression(random),
        3 => random
            .pick(&[
                "}",
                "} ",
                "})",
                "else {",
                "else",
                "else if a {",
                "} else {",
                "else }",
                " } // c",
                "/* } */",
            ])
            .into(),
        4 => random
            .pick(&[
                "in a",
                "out b",
                "var c",
                "in ,a",
                "in\ta",
                "in",
                "var x = (",
                ")",
            ])
            .into(),
        5 => random
            .pick(&[
                "// fmt-ignore",
                " a  ,b // fmt-ignore",
                "/// fmt-ignore",
                "// c",
                "//\u{a0}fmt-ignore",
                "{ // fmt-ignore",
            ])
            .into(),
        6 => random.pick(&["", " ", "\t", "", "\u{3000}"]).into(),
        7 => random
            .pick(&[
                "f({",
                "})",
                "addRole(next, {",
                "}{{",
                "({[",
                "])",
                "\\{",
                "({)",
            ])
            .into(),
        8 => random
            .pick(&["/*", "*/", "/* a", " a */ b  ,c", "/* /* */", "*/ }"])
            .into(),
        9 => random
            .pick(&["$```", "```", " $``` a ``` ,b", "```}", "``` // fmt-ignore"])
            .into(),
        10 => random
            .pick(&[
                "then a", "+ b", ".c", "...d", "-(e)", "..f", "..", "- ", "else b",
            ])
            .into(),
        _ => tokens(random, 6),
    }
}

/// A random source: tokens, or a few lines.
pub fn short(random: &mut Random) -> String {
    match random.below(4) {
        0 => tokens(random, 12),
        1 => expression(random),
        2 => import(random),
        _ => {
            let n = 1 + random.below(5);
            let mut source = String::new();
            for i in 0..n {
                if i > 0 {
                    source.push_str(random.pick(&["\n", "\n", "\n", "\r\n"]));
                }
                if random.one_in(4) {
                    source.push_str(random.pick(&[" ", "  ", "\t"]));
                }
                source.push_str(&line(random));
            }
            if random.one_in(3) {
                source.push('\n');
            }
            source
        }
    }
}

/// Lines with tabs in their indents, names and strings and between operators.
#[rustfmt::skip]
pub fn tabbed(random: &mut Random) -> String {
    const NAMES: &[&str] = &[
        "a", "\t", "a\tb", "\ta", "long\tname", "\"\t\"", "é\t", "😀\tb", "", "\\\t", "cd",
    ];
    const OPERANDS: &[&str] = &[
        "a", "bc", "\"\t\"", "'x\ty'", "f(\ta,\tb)", "é", "😀", "\\\t", "long_name", "[\t]", "(c\t+ d)",
    ];
    const OPERATORS: &[&str] = &["+", "\t+\t", " *\t", "\t- ", " && ", "\t||", "..", "\t==\t", "\t\t** "];
    let mut source = String::new();
    for _ in 0..=random.below(6) {
        source.push_str(random.pick(&["", "", "\t", " \t", "\t\t", "   "]));
        match random.below(6) {
            0 => source.push_str(random.pick(&["{", "(", "if a {", "}", ")", "{\t{", "((["])),
            1 => {
                source.push_str("import {");
                for _ in 0..=random.below(6) {
                    source.push_str(random.pick(NAMES));
                    source.push_str(random.pick(&[",", ", ", ",\t", "\t,"]));
                }
                source.push_str(random.pick(&["}", "c\t}", "} from \"\tl\""]));
            }
            _ => {
                for _ in 0..=random.below(5) {
                    source.push_str(random.pick(OPERANDS));
                    source.push_str(random.pick(OPERATORS));
                }
                source.push('z');
            }
        }
        source.push_str(random.pick(&["\n", "\n", "\r\n", "\t\n"]));
    }
    source
}

/// What matters to the width of a line with tabs.
pub const TABS: [&str; 10] = [
    "a", "\t", "+", "-", " ", "\"", "(\n", "import {", "b,", "c}",
];

pub const TAB_INDENTS: [&str; 7] = ["\t", " \t", "\t ", "  ", "\t\t", "   \t  ", ""];

pub const INDENTS: [&str; 5] = ["  ", "", "\t", "    ", " \t"];

/// Options at random; small widths more often.
pub fn options(random: &mut Random) -> FormatOptions {
    FormatOptions {
        indent: random.pick(&INDENTS).into(),
        print_width: match random.below(8) {
            0 => None,
            1 => Some(100),
            2 => Some(0),
            _ => Some(random.below(21)),
        },
        end_of_line: [None, None, Some(LineEnding::Lf), Some(LineEnding::Crlf)][random.below(4)],
        insert_final_newline: random.one_in(2),
    }
}

/// Bytes that make a source ill-formed, and some that look so and aren't.
#[rustfmt::skip]
const BYTES: &[&[u8]] = &[
    b"\x80", b"\xbf", b"\xc0\x80", b"\xc1\xbf", b"\xc2", b"\xc3\xa9", b"\xe0\x80\x80",
    b"\xe0\x9f\xbf", b"\xe0\xa0\x80", b"\xe2\x82", b"\xed\x9f\xbf", b"\xed\xa0\x80",
    b"\xed\xbf\xbf", b"\xee\x80\x80", b"\xf0\x80\x80\x80", b"\xf0\x8f\xbf\xbf",
    b"\xf0\x90\x80\x80", b"\xf0\x9f\x98", b"\xf4\x8f\xbf\xbf", b"\xf4\x90\x80\x80",
    b"\xf5\x80\x80\x80", b"\xff", b"\xfe", b"\0", b"\x7f", b"\xef\xbf\xbf", b"\xef\xbb\xbf",
];

/// The operators in the order of a table of strengths.
pub const OPERATORS: [&str; 21] = [
    "||", "^^", "&&", "|", "^", "&", "==", "!=", "<", ">", "<=", ">=", "<<", ">>", "..", "+", "-",
    "*", "/", "%", "**",
];

/// The table with these strengths.
pub fn table(fields: &[u8; 21]) -> [u8; 11] {
    std::array::from_fn(|k| fields[2 * k] << 4 | fields.get(2 * k + 1).unwrap_or(&0))
}

/// A table: random strengths, with many zeros, few different ones or all fifteen, or the built-in one.
pub fn strengths(random: &mut Random) -> Vec<u8> {
    let shift = random.below(15);
    let kind = random.below(6);
    let mut field = |k: usize| match kind {
        0 => random.below(16),
        1 => [0, 1 + random.below(15)][random.below(2)],
        2 => 1 + random.below(2),
        3 => 1 + (7 * k + shift) % 15,
        _ => [0, 0, 0, 15][random.below(4)],
    };
    match kind {
        5 => Options::BUILT_IN_STRENGTHS.into(),
        _ => table(&std::array::from_fn(|k| field(k) as u8)).into(),
    }
}

/// A call that may be refused.
pub fn call(random: &mut Random) -> Call {
    let mut call = Call::new(short(random), &options(random));
    if random.one_in(3) {
        let at = random.below(call.source.len() + 1);
        call.source
            .splice(at..at, BYTES[random.below(BYTES.len())].iter().copied());
    }
    call.scratch = match random.below(8) {
        0 => Size::Needed(-1),
        1 => Size::Needed(1),
        2 => Size::Fixed(random.below(600)),
        _ => Size::Needed(0),
    };
    call.output = room(random);
    match random.below(16) {
        0 => call.indent = vec![b' '; 64],
        1 => call.indent = vec![b'\t'; 65],
        2 => call.indent = b" q".into(),
        3 => call.width_set = 2,
        4 => call.line_ending = 3,
        5 => call.final_newline = 3,
        6 => call.indent = b"\xc2\xa0".into(),
        7 => call.width_set = u64::MAX,
        8 => call.strengths.truncate(random.below(11)),
        9 => call.strengths.push(0),
        10 => call.strengths[10] |= 1 << random.below(4),
        _ => {}
    }
    call
}

/// Options that move characters, in turn: narrow, CRLF and LF, and as the source.
pub fn moving(number: u64) -> FormatOptions {
    let mut options = FormatOptions::default();
    match number % 4 {
        0 => {}
        1 => {
            options.print_width = Some(6);
            options.end_of_line = Some(LineEnding::Crlf);
        }
        2 => {
            options.indent = "\t".into();
            options.insert_final_newline = false;
        }
        _ => {
            options.print_width = Some(10);
            options.end_of_line = Some(LineEnding::Lf);
        }
    }
    options
}

/// A call of each of four kinds in turn: imports, tokens, lines as they are written, and one that may
/// be refused.
pub fn longer(random: &mut Random, number: u64) -> Call {
    let source = match number % 4 {
        0 => imports(random),
        1 => tokens(random, 60),
        2 => grammar::source(random, 400, 8),
        _ => return call(random),
    };
    Call::new(source, &options(random))
}

/// A length for the output, near the text's.
pub fn room(random: &mut Random) -> Size {
    match random.below(6) {
        0..3 => Size::Needed(0),
        3 => Size::Needed(-1),
        4 => Size::Needed(1 + random.below(9).cast_signed()),
        _ => Size::Fixed(random.below(40)),
    }
}
