//! Each option of the text, and where options come from.

use crate::folder::Folder;

/// What standard input becomes.
fn text(arguments: &[&str], source: &str) -> String {
    let ran = Folder::new().feed(arguments, source);
    ran.quiet(0);
    ran.output
}

#[test]
fn indent_and_tabs() {
    let source = "f(\na\n)\n";
    assert_eq!(text(&[], source), "f(\n  a\n)\n");
    assert_eq!(text(&["--indent", "4"], source), "f(\n    a\n)\n");
    assert_eq!(text(&["--indent", "0"], source), "f(\na\n)\n");
    assert_eq!(text(&["--tabs"], source), "f(\n\ta\n)\n");
    assert_eq!(text(&["--tabs", "--indent=3"], source), "f(\n\ta\n)\n");
    assert_eq!(text(&["--indent", " \t"], source), "f(\n \ta\n)\n");
    assert_eq!(text(&["--tabs", "--indent= "], source), "f(\n\ta\n)\n");
}

#[test]
fn width() {
    let source = "a + b*c\n";
    assert_eq!(text(&[], source), source);
    assert_eq!(text(&["--width", "6"], source), "a\n  + b*c\n");
    assert_eq!(text(&["--width", "7"], source), source);
    let wide = format!("{} + b\n", "a".repeat(97));
    assert_eq!(text(&[], &wide), wide.replace(" + ", "\n  + "));
    assert_eq!(text(&["--no-width"], &wide), wide);
}

#[test]
fn end_of_line() {
    let (lf, crlf) = ("a\nb\n", "a\r\nb\r\n");
    for source in [lf, crlf] {
        assert_eq!(text(&["--end-of-line", "lf"], source), lf);
        assert_eq!(text(&["--end-of-line", "crlf"], source), crlf);
        assert_eq!(text(&["--end-of-line", "keep"], source), source);
        assert_eq!(text(&[], source), source);
    }
}

#[test]
fn final_newline() {
    for source in ["a", "a\n"] {
        assert_eq!(text(&["--final-newline", "always"], source), "a\n");
        assert_eq!(text(&["--final-newline", "never"], source), "a");
        assert_eq!(text(&["--final-newline", "as-source"], source), source);
        assert_eq!(text(&[], source), "a\n");
    }
}

#[test]
fn ruler_tab() {
    let source = "abcd\t+ e\n";
    assert_eq!(text(&["--width=10"], source), source);
    let ruled = text(&["--width=10", "--ruler-tab=4"], source);
    assert_eq!(ruled, "abcd\n  + e\n");
}

/// `+` binds tightest.
#[test]
fn strengths() {
    let arguments = ["--width=6", "--strengths", "112345667777889DdbBbc0"];
    assert_eq!(text(&arguments, "a + b*c"), "a + b\n  *c\n");
    let spaced = "11 23 45 66 77 77 88 9d db bb c0";
    let spaced = ["--width=6", "--strengths", spaced];
    assert_eq!(text(&spaced, "a + b*c"), "a + b\n  *c\n");
}

/// A sign at a line's start goes on with nothing, so the second pass takes its indent away.
#[test]
fn stable() {
    let source = "aaaa -5\n";
    assert_eq!(text(&["--width=6"], source), "aaaa\n  -5\n");
    assert_eq!(text(&["--width=6", "--stable"], source), "aaaa\n-5\n");
    let folder = Folder::new();
    folder.write("a.ws", source);
    folder.run(&["--width=6", "--stable", "a.ws"]).quiet(0);
    assert_eq!(folder.read("a.ws"), "aaaa\n-5\n");
}

/// The fifth pass changes it once more; that is told, and the text is the fifth's.
#[test]
fn a_text_that_is_late_to_settle() {
    let folder = Folder::new();
    let mut text = "import {bb-5 /a,) }".to_owned();
    let stable = folder.feed(&["--width=0", "--stable"], &text);
    for _ in 0..5 {
        let next = folder.feed(&["--width=0"], &text).output;
        assert_ne!(next, text);
        text = next;
    }
    assert_eq!(stable.output, text);
    let told = "<stdin>:1:1: it still changed at the fifth pass\n";
    assert_eq!((stable.status, stable.messages.as_str()), (Some(0), told));
}

/// A section for `wide` alone.
fn configured() -> Folder {
    let folder = Folder::new();
    let config = "root = true\n[*.ws]\nindent_size = 4\nindent_style = space\n\
                  [wide/*]\nmax_line_length = 6\n";
    folder.write(".editorconfig", config);
    folder.write("wide/a.ws", "f(\na + b*c\n)\n");
    folder.write("a.ws", "f(\na + b*c\n)\n");
    folder
}

#[test]
fn editorconfig_of_files() {
    let folder = configured();
    folder.run(&["."]).quiet(0);
    assert_eq!(folder.read("a.ws"), "f(\n    a + b*c\n)\n");
    assert_eq!(folder.read("wide/a.ws"), "f(\n    a\n        + b*c\n)\n");
}

#[test]
fn the_command_line_wins() {
    let folder = configured();
    let all = ["--indent=1", "--no-width", "."];
    folder.run(&all).quiet(0);
    assert_eq!(folder.read("a.ws"), "f(\n a + b*c\n)\n");
    assert_eq!(folder.read("wide/a.ws"), "f(\n a + b*c\n)\n");
    // what it doesn't set is as the files say
    folder.run(&["--tabs", "wide"]).quiet(0);
    assert_eq!(folder.read("wide/a.ws"), "f(\n\ta\n\t\t+ b*c\n)\n");
}

#[test]
fn no_editorconfig() {
    let folder = configured();
    folder.run(&["--no-editorconfig", "."]).quiet(0);
    assert_eq!(folder.read("wide/a.ws"), "f(\n  a + b*c\n)\n");
}

/// The file itself need not be there.
#[test]
fn editorconfig_of_standard_input() {
    let folder = configured();
    let source = "f(\na + b*c\n)\n";
    let text = |arguments: &[&str]| folder.feed(arguments, source).output;
    let wide = "f(\n    a\n        + b*c\n)\n";
    assert_eq!(text(&["--stdin-filepath", "wide/none.ws"]), wide);
    assert_eq!(text(&["--stdin-filepath", "wide/none.ws", "-"]), wide);
    assert_eq!(text(&["-"]), "f(\n  a + b*c\n)\n");
    let none = ["--stdin-filepath", "wide/none.ws", "--no-editorconfig"];
    assert_eq!(text(&none), "f(\n  a + b*c\n)\n");
}

/// The files of the folders that a path leads through and out of again don't count.
#[test]
fn editorconfig_of_paths_that_lead_up() {
    let folder = configured();
    let deep = "root = true\n[*]\nindent_size = 7\n";
    folder.write("wide/deep/.editorconfig", deep);
    for path in ["wide/deep/../a.ws", "wide/../wide/deep/../a.ws"] {
        let ran = folder.feed(&["--stdin-filepath", path], "f(\na + b*c\n)\n");
        assert_eq!(ran.output, "f(\n    a\n        + b*c\n)\n", "{path}");
    }
    folder.run(&["wide/deep/../../a.ws"]).quiet(0);
    assert_eq!(folder.read("a.ws"), "f(\n    a + b*c\n)\n");
}
