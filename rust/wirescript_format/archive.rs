//! Where the archives of the proved library are. The build scripts take this file in, and a test.

use std::ffi::OsStr;
use std::path::{Path, PathBuf};

/// The folder that `WIRESCRIPT_LIB` names, else the usual one; or what to do about it. A relative path is
/// refused: a build script runs in its crate's folder, not in the one where cargo was called.
pub fn folder(set: Option<&OsStr>, usual: &Path) -> Result<PathBuf, String> {
    let Some(set) = set.map(Path::new) else {
        return Ok(usual.into());
    };
    let shown = set.display();
    if !set.is_absolute() {
        return Err(format!(
            "WIRESCRIPT_LIB is \"{shown}\": set it to the absolute path of the folder that holds libwirescript.a"
        ));
    }
    if set.is_file() {
        return Err(format!(
            "WIRESCRIPT_LIB is the file \"{shown}\": set it to the absolute path of its folder"
        ));
    }
    Ok(set.into())
}

/// The archive of a library in a folder; or what to do where it is missing.
pub fn archive(folder: &Path, library: &str) -> Result<PathBuf, String> {
    let path = folder.join(format!("lib{library}.a"));
    if path.is_file() {
        return Ok(path);
    }
    Err(format!(
        "there is no \"{}\": `scripts/archives.py {library}` in the repository's root writes target/staticlib/lib{library}.a; \
         to link one that stands elsewhere, set WIRESCRIPT_LIB to the absolute path of its folder",
        path.display()
    ))
}
