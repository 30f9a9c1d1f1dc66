//! The programs of `examples/`, on files of their own. `cargo test` builds them beside this test.

use std::path::{Path, PathBuf};
use std::process::{Command, Output};

/// A file in a folder of the test's own, beside an .editorconfig file.
fn file(test: &str, source: &str) -> PathBuf {
    let folder = Path::new(env!("CARGO_TARGET_TMPDIR")).join(test);
    std::fs::create_dir_all(&folder).expect("made");
    let config = "root = true\n[*.ws]\nindent_size = 4\nindent_style = space\n";
    std::fs::write(folder.join(".editorconfig"), config).expect("written");
    let file = folder.join("gate.ws");
    std::fs::write(&file, source).expect("written");
    file
}

/// Runs an example on a file.
fn run(name: &str, file: &Path, arguments: &[&str]) -> Output {
    let here = std::env::current_exe().expect("this test");
    let built = here.ancestors().nth(2).expect("deps and its folder");
    let program = built.join("examples").join(name);
    let output = Command::new(&program).arg(file).args(arguments).output();
    output.unwrap_or_else(|error| panic!("{}: {error}", program.display()))
}

fn printed(output: &Output) -> &str {
    std::str::from_utf8(&output.stdout).expect("UTF-8")
}

#[cfg(feature = "std")]
#[test]
fn save() {
    let file = file("save", "f(\u{1f600} ,b){\nc}\n");
    // before the b
    let output = run("save", &file, &["0", "6"]);
    let changes = "0:4 to 0:6 becomes \", \"\n0:9 to 1:0 becomes \"\\n    \"\n";
    let text = "f(\u{1f600}, b){\n    c}\n";
    assert_eq!(printed(&output), format!("{changes}caret 0:6\n{text}"));
    assert!(output.status.success());
    // behind the c
    let output = run("save", &file, &["1", "1"]);
    assert_eq!(printed(&output), format!("{changes}caret 1:5\n{text}"));
    assert!(!run("save", &file, &["2", "1"]).status.success());
}

#[test]
fn colours() {
    let file = file("colours", "a = \"b${c}\" // d\n\u{e9}\n");
    let output = run("colours", &file, &[]);
    let (string, comment, code) = ("\x1b[32m", "\x1b[90m", "\x1b[0m");
    let wanted =
        format!("a = {string}\"b${code}{{c}}{string}\"{code} {comment}// d{code}\n\u{e9}\n");
    assert_eq!(printed(&output), wanted);
    assert!(output.status.success());
}

#[cfg(feature = "std")]
#[test]
fn hook() {
    let tidy = file("tidy", "{\n    a\n}\n");
    let untidy = file("untidy", "{\n  a\n}\n");
    let output = run("hook", &tidy, &[]);
    assert_eq!((printed(&output), output.status.code()), ("", Some(0)));
    let output = run("hook", &tidy, &[untidy.to_str().expect("UTF-8")]);
    let wanted = format!("{}: not formatted\n", untidy.display());
    assert_eq!(printed(&output), wanted);
    assert_eq!(output.status.code(), Some(1));
    let broken = file("broken", "");
    std::fs::write(&broken, b"a\n\xf0\x9f\x98\x80\xff\n").expect("written");
    let output = run("hook", &broken, &[untidy.to_str().expect("UTF-8")]);
    let refused = format!(
        "{}:2:2: the source is not UTF-8 at byte 6\n",
        broken.display()
    );
    assert_eq!(printed(&output), refused + &wanted);
    assert_eq!(output.status.code(), Some(2));
}
