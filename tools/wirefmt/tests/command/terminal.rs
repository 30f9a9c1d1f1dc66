//! On a terminal, which `script` makes.

use std::process::{Command, Stdio};

use crate::faults::with_fault;
use crate::folder::{Folder, SOURCE, WIREFMT, not_run};

/// What a terminal is sent by a command; nothing, and told, where no terminal can be made.
fn on_terminal(command: &mut Command, line: &str) -> Option<String> {
    let arguments: Vec<_> = command.get_args().collect();
    assert!(arguments.is_empty(), "the line has them");
    let mut script = Command::new("script");
    script.args([
        "--quiet",
        "--return",
        "--command",
        &format!("'{WIREFMT}' {line}"),
        "/dev/null",
    ]);
    script.current_dir(command.get_current_dir().unwrap());
    script.env("TERM", "xterm").env_remove("NO_COLOR");
    for (name, value) in command.get_envs() {
        script.env(name, value.unwrap());
    }
    let ran = script.stdin(Stdio::null()).output().unwrap();
    if ran
        .stderr
        .starts_with(b"script: failed to create pseudo-terminal")
    {
        not_run("what a terminal is sent (no pseudo-terminal can be made)");
        return None;
    }
    assert!(ran.status.success(), "{ran:?}");
    // the terminal's own endings
    Some(String::from_utf8(ran.stdout).unwrap().replace("\r\n", "\n"))
}

const NONE: [&str; 0] = [];

#[test]
fn a_diff_has_colours() {
    let folder = Folder::new();
    folder.write("a.ws", "a\nf(a ,b)\r\n");
    let Some(shown) = on_terminal(&mut folder.command(&NONE), "--diff a.ws") else {
        return;
    };
    let names = "\x1b[1m--- a/a.ws\x1b[m\n\x1b[1m+++ b/a.ws\x1b[m\n";
    let hunk = "\x1b[36m@@ -1,2 +1,2 @@\x1b[m\n a\n";
    let lines = "\x1b[31m-f(a ,b)^M\x1b[m\n\x1b[32m+f(a, b)\x1b[m\n";
    assert_eq!(shown, format!("{names}{hunk}{lines}"));
}

/// A source can't send the terminal commands of its own.
#[test]
fn control_characters_are_shown() {
    let folder = Folder::new();
    folder.write("a.ws", "f(a ,\"\x1b[2J\t\u{9b}\x7fé\")\n");
    let Some(shown) = on_terminal(&mut folder.command(&NONE), "--diff a.ws") else {
        return;
    };
    let line = "\x1b[32m+f(a, \"^[[2J\t\\u{9b}^?é\")\x1b[m\n";
    assert!(shown.ends_with(line), "{shown:?}");
}

#[test]
fn colours_can_be_refused() {
    let folder = Folder::new();
    folder.write("a.ws", SOURCE);
    for (name, value) in [("NO_COLOR", "1"), ("TERM", "dumb")] {
        let mut command = folder.command(&NONE);
        let Some(shown) = on_terminal(command.env(name, value), "--diff a.ws") else {
            return;
        };
        assert!(shown.ends_with("\n-f(a ,b)\n+f(a, b)\n"), "{name} {shown}");
    }
}

/// Each file takes 20 ms, on as many threads as there are processors.
#[test]
fn progress_is_shown_after_a_second() {
    let threads = std::thread::available_parallelism().unwrap().get();
    let files = 75 * threads;
    let folder = Folder::new();
    for file in 0..files {
        folder.write(format!("{file}.ws"), SOURCE);
    }
    let bar = format!("of {files} files");
    let Some(quick) = on_terminal(&mut folder.command(&NONE), "--list .") else {
        return;
    };
    assert!(!quick.contains(&bar), "{quick}");
    let mut slow = with_fault(&folder, "slow fsync", &[]);
    let slow = on_terminal(&mut slow, ".").unwrap();
    assert!(slow.contains(&bar), "{slow}");
}
