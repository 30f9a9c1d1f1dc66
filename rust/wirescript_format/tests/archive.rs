//! What a build says of `WIRESCRIPT_LIB` and of the archive.

#[path = "../archive.rs"]
mod archive;

use archive::{archive, folder};
use std::ffi::OsStr;
use std::path::{Path, PathBuf};

const USUAL: &str = "/usual";

fn set_to(value: &str) -> Result<PathBuf, String> {
    folder(Some(OsStr::new(value)), Path::new(USUAL))
}

/// A folder of this test's own, with one archive in it.
fn made() -> PathBuf {
    let made = Path::new(env!("CARGO_TARGET_TMPDIR")).join("archives");
    std::fs::create_dir_all(made.join("libfolder.a")).expect("made");
    std::fs::write(made.join("libhere.a"), "!<arch>\n").expect("written");
    made
}

#[test]
fn the_folder() {
    assert_eq!(folder(None, Path::new(USUAL)), Ok(USUAL.into()));
    let made = made();
    assert_eq!(set_to(made.to_str().expect("UTF-8")), Ok(made));
}

#[test]
fn a_relative_folder_is_refused() {
    for value in ["target/staticlib", ".", ""] {
        let what = set_to(value).expect_err("refused");
        assert!(what.contains(&format!("\"{value}\"")), "{what}");
        assert!(what.contains("absolute path of the folder"), "{what}");
    }
}

#[test]
fn the_archive_itself_is_no_folder() {
    let file = made().join("libhere.a");
    let what = set_to(file.to_str().expect("UTF-8")).expect_err("refused");
    assert!(what.contains("absolute path of its folder"), "{what}");
}

#[test]
fn the_archive() {
    let made = made();
    assert_eq!(archive(&made, "here"), Ok(made.join("libhere.a")));
    // a folder of that name is no archive
    for (folder, library) in [
        (made.clone(), "gone"),
        (made.clone(), "folder"),
        (made.join("gone"), "here"),
    ] {
        let what = archive(&folder, library).expect_err("refused");
        assert!(
            what.contains(&format!("`scripts/archives.py {library}`")),
            "{what}"
        );
        assert!(what.contains("WIRESCRIPT_LIB"), "{what}");
    }
}
