//! Each claim of docs/DIFFERENCES.md about the Rust, run on it: its own comments that its behaviour
//! contradicts, and its `.editorconfig` step beside the specification.

use ec4rs::Properties;
use ec4rs::property::{EndOfLine, FinalNewline, IndentSize, IndentStyle, MaxLineLen, TabWidth};
use upstream::{FormatOptions, LineEnding, format_with, with_resolved};

fn at_width(width: usize) -> FormatOptions {
    FormatOptions {
        print_width: Some(width),
        ..FormatOptions::default()
    }
}

/// The options after the step, from the defaults.
fn stepped(values: Properties) -> FormatOptions {
    with_resolved(FormatOptions::default(), values)
}

#[test]
fn comments_that_the_rust_contradicts() {
    for (source, width, text) in [
        // "It only moves whitespace and line breaks, never tokens"
        ("import {\"x,y\"}", 5, "import {\n  \"x,\n  y\",\n}\n"),
        ("// }\nelse", 100, "// } else\n"),
        // "unless the `}` ends an `else if` rung"
        ("} else if a {\n}\nelse {", 100, "} else if a {\n} else {\n"),
        // "Trailing whitespace is always trimmed"
        ("(\n<a+b", 0, "(\n  \n    <a+b\n"),
        // "is what makes the result stable"
        ("a-a", 2, "a\n  -a\n"),
        ("a\n  -a", 2, "a\n-a\n"),
        // "as written", of the inside of a comment
        ("/*\n a  \n*/", 100, "/*\n a\n*/\n"),
        // "leading ... blank lines go"
        ("<b", 1, "\n  <b\n"),
        // "followed by whitespace or nothing"
        ("a\nthen\u{a0}b", 100, "a\nthen\u{a0}b\n"),
        ("a\nthen b", 100, "a\n  then b\n"),
        // "keeps the next line"
        ("// fmt-ignore\n\n  a ,b", 100, "// fmt-ignore\n\n  a ,b\n"),
    ] {
        assert_eq!(format_with(source, &at_width(width)), text, "{source:?}");
    }
}

/// So does the Rust; here the specification stands, and the text has none.
#[test]
fn final_newline_false_keeps_the_source_s_own() {
    let options = stepped(Properties {
        newline: Some(FinalNewline::Value(false)),
        ..Properties::default()
    });
    assert_eq!(format_with("a\n", &options), "a\n");
    assert_eq!(format_with("a", &options), "a");
}

#[test]
fn final_newline_true_gives_an_empty_source_one() {
    let options = stepped(Properties {
        newline: Some(FinalNewline::Value(true)),
        ..Properties::default()
    });
    assert_eq!(format_with("", &options), "\n");
}

#[test]
fn cr_is_ignored_and_ends_no_line() {
    let before = FormatOptions {
        end_of_line: Some(LineEnding::Crlf),
        ..FormatOptions::default()
    };
    let values = Properties {
        ending: Some(EndOfLine::Cr),
        ..Properties::default()
    };
    let options = with_resolved(before, values);
    assert_eq!(options.end_of_line, Some(LineEnding::Crlf));
    assert_eq!(format_with("a\rb\nc", &options), "a\rb\r\nc\r\n");
}

#[test]
fn tabs_with_another_size_give_one_tab_a_level() {
    let options = stepped(Properties {
        style: Some(IndentStyle::Tabs),
        size: Some(IndentSize::Value(4)),
        tab: Some(TabWidth::Value(8)),
        ..Properties::default()
    });
    assert_eq!(options.indent, "\t");
}

#[test]
fn tab_width_alone_is_taken_as_the_size() {
    let options = stepped(Properties {
        style: Some(IndentStyle::Spaces),
        tab: Some(TabWidth::Value(3)),
        ..Properties::default()
    });
    assert_eq!(options.indent, "   ");
}

#[test]
fn a_byte_order_mark_is_a_character_of_the_first_line() {
    let text = format_with("\u{feff}in a\n\nin b", &FormatOptions::default());
    assert_eq!(text, "\u{feff}in a\n\nin b\n");
}

#[test]
fn max_line_length_counts_utf16_units_and_off_splits_nothing() {
    let with = |max| {
        stepped(Properties {
            max: Some(max),
            ..Properties::default()
        })
    };
    let source = "\"\u{1f600}\" + b";
    let broken = "\"\u{1f600}\"\n  + b\n";
    let whole = format!("{source}\n");
    assert_eq!(format_with(source, &with(MaxLineLen::Value(7))), broken);
    assert_eq!(format_with(source, &with(MaxLineLen::Value(8))), whole);
    assert_eq!(format_with(source, &with(MaxLineLen::Off)), whole);
}

#[test]
fn an_indent_over_64_bytes_or_of_other_bytes_is_taken() {
    for indent in [" ".repeat(65), "q".to_string()] {
        let options = FormatOptions {
            indent: indent.clone(),
            ..FormatOptions::default()
        };
        assert_eq!(format_with("(\na", &options), format!("(\n{indent}a\n"));
    }
}
