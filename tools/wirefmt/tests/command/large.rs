//! Many files, and long ones.

use std::fs;

use crate::folder::{Folder, SOURCE, TEXT};

const MIB: usize = 1_048_576;

#[test]
fn ten_thousand_files() {
    let folder = Folder::in_memory();
    let names: Vec<String> = (0..10_000)
        .map(|file| format!("{}/{file}.ws", file % 97))
        .collect();
    for name in &names {
        folder.write(name, SOURCE);
    }
    let listed = folder.run(&["--list", "."]).output;
    assert_eq!(listed.lines().count(), names.len());
    folder.run(&["."]).quiet(0);
    assert!(names.iter().all(|name| folder.read(name) == TEXT));
    folder.run(&["--check", "."]).quiet(0);
    let left = fs::read_dir(folder.path().join("0")).unwrap().count();
    assert_eq!(left, 10_000usize.div_ceil(97));
}

#[test]
fn one_mebibyte() {
    let folder = Folder::new();
    let source = SOURCE.repeat(MIB / SOURCE.len());
    assert_eq!(source.len(), MIB);
    let text = TEXT.repeat(MIB / SOURCE.len());
    folder.write("a.ws", &source);
    assert_eq!(folder.run(&["--check", "a.ws"]).status, Some(1));
    folder.run(&["a.ws"]).quiet(0);
    assert!(folder.read("a.ws") == text);
    assert!(folder.feed(&[], &source).output == text);
    let ran = folder.feed(&["--diff"], &source);
    ran.quiet(0);
    let removed = ran.output.lines().filter(|line| *line == "-f(a ,b)");
    assert_eq!(removed.count(), MIB / SOURCE.len());
}

/// The place of the first byte that is too much is told.
#[test]
fn more_than_a_mebibyte() {
    let folder = Folder::new();
    let source = SOURCE.repeat(MIB / SOURCE.len()) + "é";
    folder.write("a.ws", &source);
    let line = MIB / SOURCE.len() + 1;
    let what = format!("{line}:1: it goes on behind 1 MiB (1048576 bytes)");
    folder.run(&["a.ws"]).refused(&format!("a.ws:{what}"));
    assert!(folder.read("a.ws") == source);
    let ran = folder.feed(&[], source.repeat(9));
    ran.refused(&format!("<stdin>:{what}"));
    assert_eq!(ran.output, "");
}

/// A text may outgrow 64 MiB: one level deeper on each line.
#[test]
fn a_text_without_end() {
    let source = "(\n".repeat(20_000);
    let ran = Folder::new().feed(&[], &source);
    let needed = (0..20_000).map(|level| 2 * level + 2).sum::<usize>();
    let what = format!("the text would take {needed} bytes, and 64 MiB is the most");
    ran.refused(&format!("<stdin>:1:1: {what}"));
}

/// The first pass makes the text longer than a source may be.
#[test]
fn a_second_pass_that_is_refused() {
    let source = "(\n".repeat(2_000);
    let folder = Folder::new();
    assert!(folder.feed(&[], &source).output.len() > MIB);
    let what = "a pass makes it longer than 1 MiB, which the next can't take";
    let ran = folder.feed(&["--stable"], &source);
    ran.refused(&format!("<stdin>:1:1: {what}"));
}
