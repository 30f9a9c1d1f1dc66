//! Each exit status, and what is told.

use crate::folder::{Folder, SOURCE, TEXT};

/// Two files, of which one would change.
fn folder() -> Folder {
    let folder = Folder::new();
    folder.write("done.ws", TEXT);
    folder.write("raw.ws", SOURCE);
    folder
}

#[test]
fn check_tells_what_would_change() {
    let folder = folder();
    let ran = folder.run(&["--check", "."]);
    assert_eq!(ran.messages, "./raw.ws:1:1: it would change (one pass)\n");
    assert_eq!((ran.status, ran.output.as_str()), (Some(1), ""));
    assert_eq!(folder.read("raw.ws"), SOURCE);
    folder.run(&["--check", "done.ws"]).quiet(0);
    for ending in ["lf", "crlf"] {
        let arguments = ["--check", "--end-of-line", ending, "done.ws"];
        let status = i32::from(ending == "crlf");
        assert_eq!(folder.run(&arguments).status, Some(status), "{ending}");
    }
}

/// Whatever the options, status 1 means another text: blank lines at the end, an `else` that joins, each ending.
#[test]
fn check_agrees_with_the_text() {
    let folder = Folder::new();
    let sources = [
        "",
        "\n",
        "a",
        "a\n",
        "a\n\n",
        "a\r\n",
        "a\r\nb\n",
        "{\n}\nelse {\n}\n",
        "{\n} else {\n}\n",
        "\na\n",
    ];
    let (mut same, mut others) = (0, 0);
    for ending in ["keep", "lf", "crlf"] {
        for newline in ["always", "never", "as-source"] {
            let options = ["--end-of-line", ending, "--final-newline", newline];
            let check = [&["--check"][..], &options].concat();
            for source in sources {
                let changes = folder.feed(&options, source).output != source;
                let ran = folder.feed(&check, source);
                assert_eq!(
                    ran.status,
                    Some(i32::from(changes)),
                    "{source:?} {options:?}"
                );
                *(if changes { &mut others } else { &mut same }) += 1;
            }
        }
    }
    assert!(same > 9 && others > 9, "{same} {others}");
}

/// A fixed point of one pass is one of any number; else the passes meant are told.
#[test]
fn check_of_stable_texts() {
    let folder = Folder::new();
    let check = ["--check", "--stable", "--width=6"];
    folder.feed(&check, "aaaa\n-5\n").quiet(0);
    let ran = folder.feed(&check, "aaaa -5\n");
    assert_eq!(ran.messages, "<stdin>:1:1: it would change (--stable)\n");
    assert_eq!(ran.status, Some(1));
}

#[test]
fn check_of_standard_input() {
    let folder = Folder::new();
    folder.feed(&["--check"], TEXT).quiet(0);
    let ran = folder.feed(&["--check", "--stdin-filepath=b/c.ws"], SOURCE);
    assert_eq!(ran.messages, "b/c.ws:1:1: it would change (one pass)\n");
    assert_eq!((ran.status, ran.output.as_str()), (Some(1), ""));
}

/// The other files are formatted all the same.
#[test]
fn trouble_counts_more_than_a_change() {
    let folder = folder();
    folder.write("ill.ws", b"a\n\xc3\xa9b\xff\n");
    let ran = folder.run(&["--check", "."]);
    let ill = "./ill.ws:2:3: it is not UTF-8 from here on\n";
    let told = format!("{ill}./raw.ws:1:1: it would change (one pass)\n");
    assert_eq!(
        (ran.status, ran.messages.as_str()),
        (Some(2), told.as_str())
    );
    folder.run(&["."]).refused(ill.trim_end());
    assert_eq!(folder.read("raw.ws"), TEXT);
}

#[test]
fn ill_standard_input() {
    let ran = Folder::new().feed(&[], b"\xff");
    ran.refused("<stdin>:1:1: it is not UTF-8 from here on");
    assert_eq!(ran.output, "");
}

#[test]
fn a_missing_file() {
    let ran = folder().run(&["done.ws", "none.ws"]);
    ran.refused("none.ws:1:1: it can't be read: No such file or directory (os error 2)");
}

/// Each with words of its message.
const BAD_OPTIONS: [(&[&str], &str); 16] = [
    (
        &["--indent", "65"],
        "an indent is at most 64 spaces or tabs",
    ),
    (
        &["--tabs", "--indent", "65"],
        "an indent is at most 64 spaces",
    ),
    (&["--indent", "x"], "neither a number nor spaces and tabs"),
    (&["--indent", ""], "--indent"),
    (&["--width", "-1"], "'-1'"),
    (&["--width", "9", "--no-width"], "cannot be used with"),
    (
        &["--end-of-line", "cr"],
        "[possible values: keep, lf, crlf]",
    ),
    (&["--final-newline", "perhaps"], "always, never, as-source]"),
    (&["--ruler-tab", "17"], "the ruler tab is over 16 columns"),
    (&["--strengths", "1123456677778889aabbbc0"], "not 22 digits"),
    (
        &["--strengths", "11234566777788g9aabbc0"],
        "0 to 9 and a to f",
    ),
    (&["--strengths", "112345667777889aabbbc1"], "the last bits"),
    (&["--stdin-filepath", "a.ws"], "is for standard input"),
    (&["-"], "can't be named with other paths"),
    (&["--nothing"], "'--nothing'"),
    (&["--null"], "--list"),
];

#[test]
fn bad_options() {
    let folder = folder();
    let long = " ".repeat(65);
    let long = (&["--indent", &long][..], "an indent is at most 64");
    for (options, words) in BAD_OPTIONS.into_iter().chain([long]) {
        let ran = folder.run(&[options, &["raw.ws"]].concat());
        let first = ran.messages.lines().take(2).collect::<String>();
        assert!(first.starts_with("error: "), "{first}");
        assert!(first.contains(words), "{options:?}: {first}");
        assert_eq!((ran.status, ran.output.as_str()), (Some(2), ""));
        assert_eq!(folder.read("raw.ws"), SOURCE);
    }
}

/// What an .editorconfig file is refused for is told of each file that it is for.
#[test]
fn bad_editorconfig() {
    let folder = folder();
    let tell = |text: &[u8], what: &str| {
        folder.write(".editorconfig", text);
        let told = format!("raw.ws:1:1: its .editorconfig files: {what}");
        folder.run(&["raw.ws"]).refused(&told);
        assert_eq!(folder.read("raw.ws"), SOURCE);
    };
    let indent = "an indent is at most 64 spaces or tabs";
    tell(
        b"root=true\n[*]\nindent_style=space\nindent_size=65\n",
        indent,
    );
    tell(b"root=true\n# \xff\n", "one of them is not UTF-8");
    let long = vec![b'#'; 65_537];
    tell(&long, "an .editorconfig text is over 65536 bytes");
    std::fs::remove_file(folder.path().join(".editorconfig")).unwrap();
    std::fs::create_dir(folder.path().join(".editorconfig")).unwrap();
    let ran = folder.run(&["raw.ws"]);
    let unread = "its .editorconfig files can't be read: Is a directory (os error 21)";
    ran.refused(&format!("raw.ws:1:1: {unread}"));
}

#[test]
fn group() {
    let folder = Folder::new();
    let ran = folder.run(&["group", "-a + b*c"]);
    ran.quiet(0);
    assert_eq!(ran.output, "(-a + (b * c))\n");
    let ran = folder.run(&["group", "é\na"]);
    ran.refused("<expression>:1:1: this is not an expression from here on");
    let ran = folder.run(&["group", "a = b"]);
    ran.refused("<expression>:1:4: this is not an expression from here on");
    let deep = format!("{}a", "(".repeat(65));
    let ran = folder.run(&["group", &deep]);
    ran.refused("<expression>:1:65: this bracket stands deeper than 64");
    assert_eq!(folder.run(&["group"]).status, Some(2));
}

/// What can't be written is told, and is no success.
#[test]
fn a_full_standard_output() {
    let full = std::fs::File::create("/dev/full").unwrap();
    let folder = folder();
    let mut command = folder.command(&["--list", "."]);
    let ran = command.stdout(full).output().unwrap();
    let told = String::from_utf8(ran.stderr).unwrap();
    let full = "<stdout>:1:1: it can't be written: No space left on device (os error 28)\n";
    assert_eq!((ran.status.code(), told.as_str()), (Some(2), full));
    // nowhere to tell it
    let full = || std::fs::File::create("/dev/full").unwrap();
    let ran = command.stdout(full()).stderr(full()).output().unwrap();
    assert_eq!(ran.status.code(), Some(2));
    let mut check = folder.command(&["--check", "."]);
    let ran = check.stderr(full()).output().unwrap();
    assert_eq!(ran.status.code(), Some(1));
}
