//! Faults: a full disk, no permission, an end between writing and renaming, others at work on the same files. After
//! each, a file is as it was or is formatted.

use std::fs::{self, Permissions};
use std::io;
use std::os::unix::fs::{MetadataExt, PermissionsExt, chown};
use std::os::unix::process::{CommandExt, ExitStatusExt};
use std::path::PathBuf;
use std::process::{Child, Command, ExitStatus, Stdio};
use std::sync::OnceLock;
use std::thread;
use std::time::Duration;

use crate::folder::{Folder, Ran, SOURCE, TEXT, WIREFMT, not_run};

fn is_root() -> bool {
    fs::metadata("/proc/self").unwrap().uid() == 0
}

/// The library of tests/faults.c, which stands before the C library's `rename` and `fsync`.
fn faults() -> &'static PathBuf {
    static LIBRARY: OnceLock<PathBuf> = OnceLock::new();
    LIBRARY.get_or_init(|| {
        let library = PathBuf::from(env!("CARGO_TARGET_TMPDIR")).join("faults.so");
        let source = concat!(env!("CARGO_MANIFEST_DIR"), "/tests/faults.c");
        let mut compile = Command::new("cc");
        compile.args(["-shared", "-fPIC", "-Wall", "-Werror", source, "-o"]);
        assert!(compile.arg(&library).status().unwrap().success());
        library
    })
}

/// A command in which a fault happens, to the file `a.ws`.
pub fn with_fault(folder: &Folder, fault: &str, arguments: &[&str]) -> Command {
    let mut command = folder.command(arguments);
    command.env("LD_PRELOAD", faults()).env("FAULT", fault);
    command.env("FAULT_FILE", folder.path().join("a.ws"));
    command
}

fn run_with_fault(fault: &str) -> (Folder, Ran) {
    let folder = Folder::new();
    folder.write("a.ws", SOURCE);
    let ran = with_fault(&folder, fault, &["a.ws"]).output().unwrap();
    (folder, ran.into())
}

const NOT_REPLACED: &str = "a.ws:1:1: it was not replaced";

#[test]
fn killed_between_writing_and_renaming() {
    let folder = Folder::new();
    folder.write("a.ws", SOURCE);
    let mut command = with_fault(&folder, "kill at rename", &["a.ws"]);
    let ran = command.output().unwrap();
    assert_eq!(ran.status.signal(), Some(9));
    assert_eq!(folder.read("a.ws"), SOURCE);
    // what was written is left under a name that no run takes for a source
    let names = folder.names();
    assert_eq!(names.len(), 2, "{names:?}");
    assert_eq!(folder.read(&names[0]), TEXT);
    folder.run(&["."]).quiet(0);
    assert_eq!(folder.read("a.ws"), TEXT);
    assert_eq!(folder.names(), names);
}

#[test]
fn a_sync_or_a_rename_that_fails() {
    for fault in ["fail at fsync", "fail at rename"] {
        let (folder, ran) = run_with_fault(fault);
        ran.refused(&format!("{NOT_REPLACED}: Input/output error (os error 5)"));
        folder.holds(&["a.ws"], SOURCE);
        assert_eq!(folder.names(), ["a.ws"]);
    }
}

#[test]
fn a_file_that_is_changed_meanwhile() {
    let (folder, ran) = run_with_fault("change at fsync");
    ran.refused("a.ws:1:1: it was changed while it was formatted; it was left alone");
    assert_eq!(folder.read("a.ws"), format!("{SOURCE}changed"));
    assert_eq!(folder.names(), ["a.ws"]);
}

#[test]
fn a_file_that_vanishes_meanwhile() {
    let (folder, ran) = run_with_fault("remove at fsync");
    ran.refused(&format!(
        "{NOT_REPLACED}: No such file or directory (os error 2)"
    ));
    assert!(folder.names().is_empty(), "{:?}", folder.names());
}

#[test]
fn a_file_that_becomes_a_link_meanwhile() {
    let (folder, ran) = run_with_fault("link at fsync");
    let told = "Too many levels of symbolic links (os error 40)";
    ran.refused(&format!("{NOT_REPLACED}: {told}"));
    let link = fs::read_link(folder.path().join("a.ws")).unwrap();
    assert_eq!(link.to_str(), Some("elsewhere"));
    assert_eq!(folder.names(), ["a.ws"]);
}

/// A file system of 64 KiB, which only root may make.
struct Small(Folder);

impl Small {
    fn new() -> Option<Self> {
        let folder = Folder::new();
        let mut mount = Command::new("mount");
        mount.args(["-t", "tmpfs", "-o", "size=64k", "none"]);
        let mounted = mount.arg(folder.path()).stderr(Stdio::null()).status();
        mounted.unwrap().success().then(|| Self(folder))
    }
}

impl Drop for Small {
    fn drop(&mut self) {
        let _ = Command::new("umount").arg(self.0.path()).status();
    }
}

#[test]
fn a_full_disk() {
    let Some(small) = Small::new() else {
        return not_run("a full disk (no file system can be mounted)");
    };
    let folder = &small.0;
    folder.write(".editorconfig", "root = true\n");
    let source = SOURCE.repeat(5000);
    folder.write("a.ws", &source);
    let told = format!("{NOT_REPLACED}: No space left on device (os error 28)");
    folder.run(&["a.ws"]).refused(&told);
    assert!(folder.read("a.ws") == source);
    assert_eq!(folder.names(), ["a.ws"]);
    // with room it is formatted
    folder.write("a.ws", SOURCE);
    folder.run(&["a.ws"]).quiet(0);
    assert_eq!(folder.read("a.ws"), TEXT);
}

/// The command in a folder, without what root may do beyond others (`capabilities`, as setpriv names them).
fn without(folder: &Folder, capabilities: &str, arguments: &[&str]) -> Option<Ran> {
    if !is_root() {
        return Some(folder.run(arguments));
    }
    let bounds = format!("--bounding-set={capabilities}");
    let mut command = Command::new("setpriv");
    command.args([&bounds, "--inh-caps=-all", WIREFMT]);
    let ran = command.args(arguments).current_dir(folder.path()).output();
    ran.ok()
        .map(Ran::from)
        .filter(|ran| !ran.messages.starts_with("setpriv:"))
}

/// Reading and writing without permission.
const PASSED_OVER: &str = "-dac_override,-dac_read_search";

fn set_mode(folder: &Folder, name: &str, mode: u32) {
    fs::set_permissions(folder.path().join(name), Permissions::from_mode(mode)).unwrap();
}

const DENIED: &str = "Permission denied (os error 13)";

#[test]
fn a_read_only_folder() {
    let folder = Folder::new();
    folder.write("a.ws", SOURCE);
    set_mode(&folder, ".", 0o555);
    let ran = without(&folder, PASSED_OVER, &["a.ws"]);
    set_mode(&folder, ".", 0o755);
    let Some(ran) = ran else {
        return not_run("a read-only folder (setpriv can't take root's privileges)");
    };
    ran.refused(&format!("{NOT_REPLACED}: {DENIED}"));
    assert_eq!(
        (folder.read("a.ws").as_str(), folder.names()),
        (SOURCE, vec!["a.ws".to_owned()])
    );
}

/// One that can't be written, though its folder can; one that can't be read; a folder that can't be read.
#[test]
fn files_without_permission() {
    let folder = Folder::new();
    for name in ["a.ws", "b.ws", "c/d.ws", "e.ws"] {
        folder.write(name, SOURCE);
    }
    for (name, mode) in [("a.ws", 0o444), ("b.ws", 0o200), ("c", 0o000)] {
        set_mode(&folder, name, mode);
    }
    let ran = without(&folder, PASSED_OVER, &["."]);
    for name in ["a.ws", "b.ws", "c"] {
        set_mode(&folder, name, 0o755);
    }
    let Some(ran) = ran else {
        return not_run("files without permission (setpriv can't take root's privileges)");
    };
    let unread = format!("it can't be read: {DENIED}");
    let told = format!("./{NOT_REPLACED}: {DENIED}\n./b.ws:1:1: {unread}\n./c:1:1: {unread}\n");
    assert_eq!((ran.status, ran.messages), (Some(2), told));
    folder.holds(&["a.ws", "b.ws", "c/d.ws"], SOURCE);
    assert_eq!(folder.read("e.ws"), TEXT);
    assert_eq!(folder.names(), ["a.ws", "b.ws", "c", "e.ws"]);
}

/// The owner is kept or, where that isn't allowed, the file.
#[test]
fn the_owner_is_kept() {
    if !is_root() {
        return not_run("the owner is kept (only root can give a file away)");
    }
    let folder = Folder::new();
    folder.write("a.ws", SOURCE);
    let path = folder.path().join("a.ws");
    chown(&path, Some(12_345), Some(23_456)).unwrap();
    set_mode(&folder, "a.ws", 0o666);
    let owner = || {
        fs::metadata(&path)
            .map(|data| (data.uid(), data.gid()))
            .unwrap()
    };
    match without(&folder, "-chown", &["a.ws"]) {
        Some(ran) => {
            let lost = "its owner can't be kept: Operation not permitted (os error 1)";
            ran.refused(&format!("{NOT_REPLACED}: {lost}"));
            assert_eq!(
                (folder.read("a.ws").as_str(), owner()),
                (SOURCE, (12_345, 23_456))
            );
        }
        None => not_run("an owner that can't be kept (setpriv can't take root's privileges)"),
    }
    folder.run(&["a.ws"]).quiet(0);
    assert_eq!(
        (folder.read("a.ws").as_str(), owner()),
        (TEXT, (12_345, 23_456))
    );
}

/// All of them have written their texts before the first is renamed, so that they get in each other's way.
#[test]
fn four_at_once_in_one_folder() {
    let folder = Folder::new();
    let names: Vec<String> = (0..40).map(|file| format!("{file:02}.ws")).collect();
    for name in &names {
        folder.write(name, SOURCE);
    }
    let start = |_| {
        let mut command = with_fault(&folder, "slow fsync", &["."]);
        command
            .stdout(Stdio::piped())
            .stderr(Stdio::piped())
            .spawn()
            .unwrap()
    };
    let started: Vec<Child> = (0..4).map(start).collect();
    for child in started {
        Ran::from(child.wait_with_output().unwrap()).quiet(0);
    }
    assert_eq!(folder.names(), names);
    folder.holds(&names, TEXT);
}

/// A run over slow files that is sent a signal once it has begun; the folder, and how it ended. What the signal does
/// to it at first (the default, or nothing) is set, since a run in the background inherits that.
fn sent(signal: i32, at_first: libc::sighandler_t) -> (Folder, ExitStatus) {
    let folder = Folder::new();
    for file in 0..FILES {
        folder.write(format!("{file}.ws"), SOURCE);
    }
    let mut command = with_fault(&folder, "slow fsync", &["."]);
    // SAFETY: between fork and exec only this call is made, which may be made there.
    unsafe {
        command.pre_exec(move || match libc::signal(signal, at_first) {
            libc::SIG_ERR => Err(io::Error::last_os_error()),
            _ => Ok(()),
        });
    }
    let mut child = command.spawn().unwrap();
    while folder.read("0.ws") == SOURCE {
        thread::sleep(Duration::from_millis(1));
    }
    let process = i32::try_from(child.id()).unwrap();
    // SAFETY: it takes two numbers; the process is not waited for yet, so the number is still its own.
    assert_eq!(unsafe { libc::kill(process, signal) }, 0);
    let status = child.wait().unwrap();
    (folder, status)
}

const FILES: usize = 200;

/// Ctrl-C, a closed terminal, a request to end: the files at work are finished, the rest are as they were.
#[test]
fn told_to_end() {
    for signal in [libc::SIGINT, libc::SIGTERM, libc::SIGHUP] {
        let (folder, status) = sent(signal, libc::SIG_DFL);
        assert_eq!(status.signal(), Some(signal));
        let names = folder.names();
        assert_eq!(names.len(), FILES, "a temporary file is left");
        let (done, others): (Vec<_>, Vec<_>) =
            names.iter().partition(|name| folder.read(name) == TEXT);
        assert!(!done.is_empty() && !others.is_empty());
        folder.holds(&others, SOURCE);
    }
}

/// As `nohup` starts it.
#[test]
fn a_signal_that_is_ignored() {
    let (folder, status) = sent(libc::SIGHUP, libc::SIG_IGN);
    assert_eq!(status.code(), Some(0));
    assert_eq!(folder.names().len(), FILES);
    folder.holds(&folder.names(), TEXT);
}
