//! Files and folders in place.

use std::ffi::{CStr, CString, OsStr};
use std::fs::{self, Permissions};
use std::os::unix::ffi::OsStrExt;
use std::os::unix::fs::{MetadataExt, PermissionsExt, symlink};
use std::process::Command;

use crate::folder::{Folder, SOURCE, TEXT, not_run};

#[test]
fn named_files_are_formatted() {
    let folder = Folder::new();
    for name in [
        "a.ws",
        "b.txt",
        "with space.ws",
        "new\nline.ws",
        "é.ws",
        "-.ws",
    ] {
        folder.write(name, SOURCE);
        folder.run(&[format!("./{name}")]).quiet(0);
        assert_eq!(folder.read(name), TEXT, "{name:?}");
    }
}

/// Only those that end in .ws, hidden ones too, none of version control's own.
#[test]
fn the_sources_of_folders_are_formatted() {
    let folder = Folder::new();
    let ours = [
        "a.ws",
        "b/c/d.ws",
        ".e.ws",
        ".f/g.ws",
        "h.ws/i.ws",
        "new\nline/j k.ws",
    ];
    let others = ["a.txt", "b/ws", ".ws", ".git/k.ws", "b/.hg/l.ws", "m.WS"];
    for name in ours.iter().chain(&others) {
        folder.write(name, SOURCE);
    }
    folder.run(&["."]).quiet(0);
    folder.holds(&ours, TEXT);
    folder.holds(&others, SOURCE);
}

/// With a repository and without; a file or a folder that is named is formatted all the same.
#[test]
fn ignored_files_are_left_out() {
    for repository in [false, true] {
        let folder = Folder::new();
        if repository {
            let mut git = Command::new("git");
            let made = git.args(["init", "--quiet"]).current_dir(folder.path());
            assert!(made.status().unwrap().success());
        }
        folder.write(".gitignore", "out/\n*.gen.ws\n!keep.gen.ws\n");
        folder.write("b/.gitignore", "/own.ws\n");
        let left_out = ["out/a.ws", "a.gen.ws", "b/b.gen.ws", "b/own.ws"];
        let ours = ["a.ws", "keep.gen.ws", "own.ws", "b/c.ws"];
        for name in left_out.iter().chain(&ours) {
            folder.write(name, SOURCE);
        }
        folder.run(&["."]).quiet(0);
        folder.holds(&left_out, SOURCE);
        folder.holds(&ours, TEXT);
        // those of the folders above count too
        folder.write("b/d.gen.ws", SOURCE);
        folder.run(&["b"]).quiet(0);
        assert_eq!(folder.read("b/d.gen.ws"), SOURCE);
        folder.run(&["a.gen.ws", "out"]).quiet(0);
        folder.holds(&["a.gen.ws", "out/a.ws"], TEXT);
    }
}

/// A second thread would find it changed.
#[test]
fn a_file_named_twice_is_formatted_once() {
    let folder = Folder::new();
    // the second pass changes it again
    folder.write("b/a.ws", "aaaa -5\n");
    let twice = ["--width=6", "b/a.ws", "b", "./b/../b/a.ws", "b/./a.ws"];
    folder.run(&twice).quiet(0);
    assert_eq!(folder.read("b/a.ws"), "aaaa\n  -5\n");
    let ran = folder.run(&["--list", "--width=6", "b/a.ws", "b"]);
    assert_eq!(ran.output, "b/a.ws\n");
}

#[test]
fn permissions_are_kept() {
    let folder = Folder::new();
    let path = folder.path().join("a.ws");
    for mode in [0o600, 0o640, 0o755, 0o4755, 0o666] {
        fs::write(&path, SOURCE).unwrap();
        fs::set_permissions(&path, Permissions::from_mode(mode)).unwrap();
        folder.run(&["a.ws"]).quiet(0);
        assert_eq!(folder.read("a.ws"), TEXT);
        assert_eq!(fs::metadata(&path).unwrap().mode() & 0o7777, mode);
    }
    assert_eq!(folder.names(), ["a.ws"]);
}

fn c_path(folder: &Folder, file: &str) -> CString {
    CString::new(folder.path().join(file).as_os_str().as_bytes()).unwrap()
}

/// The value of an extended attribute of `a.ws`, if it has it.
fn attribute(folder: &Folder, name: &CStr) -> Option<Vec<u8>> {
    let path = c_path(folder, "a.ws");
    let mut value = vec![0_u8; 99];
    let buffer = value.as_mut_ptr().cast();
    // SAFETY: both names end in NUL, and the buffer has this length.
    let length = unsafe { libc::getxattr(path.as_ptr(), name.as_ptr(), buffer, 99) };
    value.truncate(usize::try_from(length).ok()?);
    Some(value)
}

/// Gives a file an extended attribute; `false`, and told, where the file system has none.
fn set_attribute(folder: &Folder, file: &str, name: &CStr, value: &[u8]) -> bool {
    let path = c_path(folder, file);
    let (bytes, length) = (value.as_ptr().cast(), value.len());
    // SAFETY: both names end in NUL, and pointer and length are those of a slice.
    let set = unsafe { libc::setxattr(path.as_ptr(), name.as_ptr(), bytes, length, 0) == 0 };
    if !set {
        not_run("extended attributes are kept (the file system has none)");
    }
    set
}

/// An access control list: the owner reads and writes, user 12345 too, the group and all others read.
const LIST: &[u8] = b"\x02\0\0\0\x01\0\x06\0\xff\xff\xff\xff\x02\0\x06\0\x39\x30\0\0\
    \x04\0\x04\0\xff\xff\xff\xff\x10\0\x06\0\xff\xff\xff\xff\x20\0\x04\0\xff\xff\xff\xff";

const ACCESS: &CStr = c"system.posix_acl_access";

#[test]
fn extended_attributes_are_kept() {
    let folder = Folder::new();
    for (name, value) in [(c"user.note", &b"a\0b"[..]), (ACCESS, LIST)] {
        folder.write("a.ws", SOURCE);
        if !set_attribute(&folder, "a.ws", name, value) {
            continue;
        }
        folder.run(&["a.ws"]).quiet(0);
        assert_eq!(folder.read("a.ws"), TEXT);
        assert_eq!(attribute(&folder, name).as_deref(), Some(value), "{name:?}");
    }
}

/// A file that had no access control list gets none from its folder.
#[test]
fn no_access_control_list_is_added() {
    let folder = Folder::new();
    folder.write("a.ws", SOURCE);
    if !set_attribute(&folder, ".", c"system.posix_acl_default", LIST) {
        return;
    }
    assert_eq!(attribute(&folder, ACCESS), None);
    folder.run(&["a.ws"]).quiet(0);
    assert_eq!(folder.read("a.ws"), TEXT);
    assert_eq!(attribute(&folder, ACCESS), None);
    // a new file does get one
    fs::remove_file(folder.path().join("a.ws")).unwrap();
    folder.write("a.ws", SOURCE);
    assert!(attribute(&folder, ACCESS).is_some());
}

/// A file that is formatted is not written again.
#[test]
fn what_is_formatted_stays() {
    let folder = Folder::new();
    folder.write("a.ws", TEXT);
    let inode = || fs::metadata(folder.path().join("a.ws")).unwrap().ino();
    let before = inode();
    folder.run(&["a.ws"]).quiet(0);
    assert_eq!(inode(), before);
    folder.write("a.ws", SOURCE);
    folder.run(&["a.ws"]).quiet(0);
    assert_ne!(inode(), before);
}

/// Named or found in a folder.
#[test]
fn links_are_told_and_left_alone() {
    let folder = Folder::new();
    folder.write("target.txt", SOURCE);
    folder.write("other/b.ws", SOURCE);
    folder.write("c/d.ws", SOURCE);
    let links = [
        ("../target.txt", "c/link.ws"),
        ("none", "c/open.ws"),
        ("../other", "c/folder"),
    ];
    for (target, link) in links {
        symlink(target, folder.path().join(link)).unwrap();
    }
    let told = |name: &str| format!("{name}:1:1: it is a link; it was left alone\n");
    let ran = folder.run(&["c"]);
    assert_eq!(ran.messages, told("c/link.ws") + &told("c/open.ws"));
    assert_eq!(
        (ran.status, folder.read("c/d.ws").as_str()),
        (Some(2), TEXT)
    );
    for name in ["c/link.ws", "c/open.ws", "c/folder"] {
        folder.run(&[name]).refused(told(name).trim_end());
    }
    assert_eq!(folder.read("target.txt"), SOURCE);
    assert_eq!(folder.read("other/b.ws"), SOURCE);
    for (target, link) in links {
        let link = fs::read_link(folder.path().join(link)).unwrap();
        assert_eq!(link.as_os_str(), target);
    }
}

#[test]
fn a_file_with_two_names_is_told_and_left_alone() {
    let folder = Folder::new();
    folder.write("a.ws", SOURCE);
    let path = |name| folder.path().join(name);
    fs::hard_link(path("a.ws"), path("b.ws")).unwrap();
    let what =
        "it has another name (a hard link), which replacing would part from it; it was left alone";
    folder.run(&["a.ws"]).refused(&format!("a.ws:1:1: {what}"));
    assert_eq!(
        (folder.read("a.ws"), folder.read("b.ws")),
        (SOURCE.into(), SOURCE.into())
    );
    assert_eq!(folder.names(), ["a.ws", "b.ws"]);
    assert_eq!(folder.run(&["--check", "a.ws"]).status, Some(1));
}

#[test]
fn names_that_are_not_utf8_are_told_and_left_alone() {
    let folder = Folder::new();
    let name = OsStr::from_bytes(b"a\xff.ws");
    folder.write(name, SOURCE);
    folder.write("b.ws", SOURCE);
    let left = "its name is not UTF-8; it was left alone";
    folder
        .run(&[name])
        .refused(&format!("\"a\\377.ws\":1:1: {left}"));
    folder
        .run(&["."])
        .refused(&format!("\"./a\\377.ws\":1:1: {left}"));
    assert_eq!(
        (folder.read(name), folder.read("b.ws")),
        (SOURCE.into(), TEXT.into())
    );
}

#[test]
fn what_is_no_regular_file_is_told() {
    let folder = Folder::new();
    let made = Command::new("mkfifo")
        .arg(folder.path().join("pipe.ws"))
        .status();
    assert!(made.unwrap().success());
    let left = "it is not a regular file; it was left alone";
    folder
        .run(&["."])
        .refused(&format!("./pipe.ws:1:1: {left}"));
    folder
        .run(&["/dev/null"])
        .refused(&format!("/dev/null:1:1: {left}"));
}
