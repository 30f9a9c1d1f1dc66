//! The files that paths mean.

use std::collections::HashSet;
use std::error::Error;
use std::ffi::OsStr;
use std::fs;
use std::path::{Path, PathBuf};

use ignore::{DirEntry, WalkBuilder};

use crate::report::Trouble;

/// Folders in which version control keeps its own files.
const OWN_FOLDERS: [&str; 4] = [".git", ".hg", ".jj", ".svn"];

/// A file, or a folder that can't be read.
pub type Found = Result<PathBuf, (PathBuf, Trouble)>;

/// Each path that is no folder, whatever its name is, and the .ws files of the others; none twice.
pub fn files(paths: &[PathBuf]) -> Vec<Found> {
    let mut found = Vec::new();
    for path in paths {
        // a link to a folder is no folder
        if fs::symlink_metadata(path).is_ok_and(|data| data.is_dir()) {
            found.extend(folder(path));
        } else {
            found.push(Ok(path.clone()));
        }
    }
    if paths.len() > 1 {
        let mut known = HashSet::new();
        found.retain(|found| match found {
            Ok(path) => known.insert(whole(path)),
            Err(_) => true,
        });
    }
    found
}

/// The path with its folder's links and `..` resolved; as it is where there is no such folder.
pub fn whole(path: &Path) -> PathBuf {
    let folder = match path.parent() {
        Some(folder) if folder != Path::new("") => folder,
        _ => Path::new("."),
    };
    match (folder.canonicalize(), path.file_name()) {
        (Ok(folder), Some(name)) => folder.join(name),
        _ => path.to_path_buf(),
    }
}

fn folder(path: &Path) -> impl Iterator<Item = Found> {
    let own = |entry: &DirEntry| {
        let name = entry.file_name().to_str();
        entry.depth() == 0 || !name.is_some_and(|name| OWN_FOLDERS.contains(&name))
    };
    let walk = WalkBuilder::new(path)
        .hidden(false)
        .require_git(false)
        .sort_by_file_name(OsStr::cmp)
        .filter_entry(own)
        .build();
    let root = path.to_path_buf();
    walk.filter_map(move |entry| match entry {
        Ok(entry) if is_source(&entry) => Some(Ok(entry.into_path())),
        Ok(_) => None,
        Err(error) => Some(Err(unread(error, &root))),
    })
}

fn is_source(entry: &DirEntry) -> bool {
    let folder = entry.file_type().is_some_and(|kind| kind.is_dir());
    !folder && entry.path().extension() == Some(OsStr::new("ws"))
}

/// A folder that can't be read, under its own name where the error tells it.
fn unread(error: ignore::Error, root: &Path) -> (PathBuf, Trouble) {
    match error {
        ignore::Error::WithDepth { err, .. } => unread(*err, root),
        ignore::Error::WithPath { path, err } => (path, told(&err)),
        other => (root.to_path_buf(), told(&other)),
    }
}

/// The error at the bottom, without the path that stands before the message.
fn told(error: &ignore::Error) -> Trouble {
    let mut cause: &dyn Error = match error.io_error() {
        Some(error) => error,
        None => error,
    };
    while let Some(next) = cause.source() {
        cause = next;
    }
    Trouble::whole(format!("it can't be read: {cause}"))
}
