//! The cases that the rules name: the Rust gives the texts that they say.

use upstream::{FormatOptions, format_counted};

fn given(source: &str, width: usize) -> (String, usize, usize) {
    let options = FormatOptions {
        print_width: Some(width),
        ..FormatOptions::default()
    };
    let counted = format_counted(source, &options);
    (counted.text, counted.imports_split, counted.blank_names)
}

#[test]
fn texts() {
    for (source, text) in [
        ("", "\n"),
        ("f(a ,b)", "f(a, b)\n"),
        ("addRole(next, {\nx\n})", "addRole(next, {\n  x\n})\n"),
        ("}\nelse {", "} else {\n"),
        ("in a\n\nin b", "in a\nin b\n"),
        ("in a\n\nout b", "in a\n\nout b\n"),
        ("\"a  ,b\"  ,c", "\"a  ,b\", c\n"),
        ("a\r\nb\nc", "a\nb\nc\n"),
        ("// }\nelse", "// } else\n"),
        ("\\ ,a", "\\, a\n"),
    ] {
        assert_eq!(given(source, 100), (text.into(), 0, 0));
    }
}

#[test]
fn splits() {
    let import = "import {a,,b} from \"l\"";
    for (source, width, text, imports, blanks) in [
        ("a + b*c", 7, "a + b*c\n", 0, 0),
        ("a + b*c", 6, "a\n  + b*c\n", 0, 0),
        (import, 10, "import {\n  a, b,\n} from \"l\"\n", 1, 1),
        ("\"😀\" + b", 7, "\"😀\"\n  + b\n", 0, 0),
        ("\"😀\" + b", 8, "\"😀\" + b\n", 0, 0),
    ] {
        assert_eq!(given(source, width), (text.into(), imports, blanks));
    }
}
