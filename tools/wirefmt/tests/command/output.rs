//! What is shown: diffs, lists, brackets.

use std::fs;
use std::process::{Command, Stdio};

use crate::folder::{Folder, SOURCE, TEXT};

#[test]
fn diff() {
    let folder = Folder::new();
    folder.write("b/a.ws", format!("1\n2\n3\n4\n{SOURCE}6\n7\n8\n9\n"));
    let ran = folder.run(&["--diff", "b"]);
    ran.quiet(0);
    let diff =
        "--- a/b/a.ws\n+++ b/b/a.ws\n@@ -2,7 +2,7 @@\n 2\n 3\n 4\n-f(a ,b)\n+f(a, b)\n 6\n 7\n 8\n";
    assert_eq!(ran.output, diff);
    let ran = folder.run(&["--check", "--diff", "b"]);
    assert_eq!(ran.messages, "b/a.ws:1:1: it would change (one pass)\n");
    assert_eq!((ran.status, ran.output.as_str()), (Some(1), diff));
    folder.feed(&["--diff", "--check"], TEXT).quiet(0);
}

#[test]
fn diff_of_endings() {
    let folder = Folder::new();
    let body = |source: &str, arguments: &[&str]| {
        let ran = folder.feed(&[&["--diff"], arguments].concat(), source);
        let names = "--- a/<stdin>\n+++ b/<stdin>\n";
        ran.output.strip_prefix(names).unwrap().to_owned()
    };
    let no_newline = "\\ No newline at end of file\n";
    assert_eq!(body("a", &[]), format!("@@ -1 +1 @@\n-a\n{no_newline}+a\n"));
    let never = ["--final-newline=never"];
    let shown = format!("@@ -1 +1 @@\n-a\n+a\n{no_newline}");
    assert_eq!(body("a\n", &never), shown);
    let crlf = body("a\r\nb\r\n", &["--end-of-line=lf"]);
    assert_eq!(crlf, "@@ -1,2 +1,2 @@\n-a\r\n-b\r\n+a\n+b\n");
    // an empty side
    assert_eq!(body("", &[]), "@@ -0,0 +1 @@\n+\n");
}

/// What the sources of the names become where a program takes their diff.
fn applied(program: &mut Command, names: [&str; 4]) {
    let folder = Folder::new();
    let sources = ["\n\n a\n", "f(a ,b)", "a\r\n  b\r\n", "f(\n[\r,\n\n\na\n"];
    for (name, source) in names.iter().zip(sources) {
        folder.write(name, source);
    }
    let diff = folder.run(&["--diff", "."]).output;
    folder.write("diff", &diff);
    let ran = program.current_dir(folder.path()).output().unwrap();
    assert!(ran.status.success(), "{ran:?}\n{diff}");
    for (name, source) in names.iter().zip(sources) {
        assert_eq!(folder.read(name), folder.feed(&[], source).output, "{name}");
        assert_ne!(folder.read(name), source, "{name}");
    }
}

#[test]
fn patch_applies_a_diff() {
    let names = ["plain.ws", "with space.ws", "back\\slash.ws", "tab\t\"é.ws"];
    let mut patch = Command::new("patch");
    applied(patch.args(["--strip=1", "--binary", "--input=diff"]), names);
}

/// Names with a newline too, which newer versions of `patch` refuse.
#[test]
fn git_applies_a_diff() {
    let names = ["plain.ws", "with space.ws", "new\nline.ws", "tab\t\"é.ws"];
    let mut git = Command::new("git");
    applied(git.args(["apply", "--whitespace=nowarn", "diff"]), names);
}

#[test]
fn list() {
    let folder = Folder::new();
    folder.write("raw.ws", SOURCE);
    folder.write("done.ws", TEXT);
    folder.write("new\nline.ws", SOURCE);
    let ran = folder.run(&["--list", "."]);
    ran.quiet(0);
    assert_eq!(ran.output, "\"./new\\nline.ws\"\n./raw.ws\n");
    let ran = folder.run(&["--list", "--null", "."]);
    assert_eq!(ran.output, "./new\nline.ws\0./raw.ws\0");
    assert_eq!(folder.run(&["--list", "--check", "."]).status, Some(1));
    assert_eq!(folder.run(&["--null", "."]).status, Some(2));
    assert_eq!(folder.read("raw.ws"), SOURCE);
    assert_eq!(folder.feed(&["--list"], SOURCE).output, "<stdin>\n");
    assert_eq!(folder.feed(&["--list"], TEXT).output, "");
}

#[test]
fn brackets() {
    let folder = Folder::new();
    let source = "f(a,\n\n[b, (c)\n";
    folder.write("a.ws", source);
    folder.write("closed.ws", "f(a ,\n\n[b, (c)\n])\n");
    let ran = folder.run(&["--brackets", "."]);
    ran.quiet(0);
    let still = "a bracket opened here is still open at the end";
    assert_eq!(
        ran.output,
        format!("./a.ws:1: {still}\n./a.ws:3: {still}\n")
    );
    assert_eq!(folder.read("a.ws"), source);
    let ran = folder.feed(&["--brackets", "--stdin-filepath=b.ws"], source);
    assert_eq!(ran.output, format!("b.ws:1: {still}\nb.ws:3: {still}\n"));
    // more than a formatter lists by itself
    let many = folder.feed(&["--brackets"], "(\n".repeat(1500)).output;
    assert_eq!(many.lines().count(), 1500);
    assert!(many.ends_with(&format!("<stdin>:1500: {still}\n")));
}

/// A reader who goes away early is no trouble to tell.
#[test]
fn a_closed_pipe() {
    let folder = Folder::new();
    for file in 0..600 {
        fs::write(folder.path().join(format!("{file}.ws")), SOURCE.repeat(99)).unwrap();
    }
    let mut command = folder.command(&["--diff", "."]);
    let mut child = command
        .stdout(Stdio::piped())
        .stderr(Stdio::piped())
        .spawn()
        .unwrap();
    drop(child.stdout.take());
    let ran = child.wait_with_output().unwrap();
    assert_eq!(
        (ran.status.code(), ran.stderr.as_slice()),
        (Some(2), &b""[..])
    );
}
