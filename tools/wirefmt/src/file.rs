//! Files, read and replaced so that nothing is lost.

use std::fs::{self, File, OpenOptions, Permissions};
use std::io::{self, Read, Write};
use std::os::unix::fs::{MetadataExt, OpenOptionsExt, PermissionsExt, fchown};
use std::path::{Path, PathBuf};
use std::process;
use std::sync::atomic::{AtomicUsize, Ordering};

use wirescript_format::MAX_SOURCE;

use crate::attributes;
use crate::report::Trouble;

/// What a source is read from: of one that is too long, no more than it takes to refuse it.
pub fn read_source(from: impl Read) -> io::Result<Vec<u8>> {
    let mut bytes = Vec::new();
    from.take(MAX_SOURCE as u64 + 1).read_to_end(&mut bytes)?;
    Ok(bytes)
}

/// The bytes of a regular file that is named without a link.
pub fn read(path: &Path) -> Result<Vec<u8>, Trouble> {
    if path.to_str().is_none() {
        return Err(Trouble::whole("its name is not UTF-8; it was left alone"));
    }
    let failed = |error| Trouble::io("it can't be read", &error);
    let kind = fs::symlink_metadata(path).map_err(failed)?.file_type();
    if kind.is_symlink() {
        return Err(Trouble::whole("it is a link; it was left alone"));
    }
    if !kind.is_file() {
        return Err(Trouble::whole(
            "it is not a regular file; it was left alone",
        ));
    }
    let file = open(OpenOptions::new().read(true), path).map_err(failed)?;
    read_source(file).map_err(failed)
}

/// Opens a file that is no link; one that became a pipe meanwhile doesn't block.
fn open(how: &mut OpenOptions, path: &Path) -> io::Result<File> {
    how.custom_flags(libc::O_NOFOLLOW | libc::O_NONBLOCK)
        .open(path)
}

/// Replaces a file by a text if its bytes are still those that were read; on an error it is as it was.
pub fn replace(path: &Path, read: &[u8], text: &[u8]) -> Result<(), Trouble> {
    let failed = |error| Trouble::io("it was not replaced", &error);
    // for writing, so that a read-only file is not replaced
    let old = open(OpenOptions::new().read(true).write(true), path).map_err(failed)?;
    if old.metadata().map_err(failed)?.nlink() > 1 {
        return Err(Trouble::whole(
            "it has another name (a hard link), which replacing would part from it; it was left alone",
        ));
    }
    let temporary = Temporary::beside(path).map_err(failed)?;
    temporary.fill(text, &old).map_err(failed)?;
    let now = open(OpenOptions::new().read(true), path).map_err(failed)?;
    let now = read_source(now).map_err(failed)?;
    if now == text {
        // another run was faster
        return Ok(());
    }
    if now != read {
        return Err(Trouble::whole(
            "it was changed while it was formatted; it was left alone",
        ));
    }
    temporary.rename(path).map_err(failed)
}

/// A file beside another, removed unless it takes the other's name.
struct Temporary {
    path: PathBuf,
    file: File,
}

impl Temporary {
    fn beside(path: &Path) -> io::Result<Self> {
        static COUNT: AtomicUsize = AtomicUsize::new(0);
        loop {
            let count = COUNT.fetch_add(1, Ordering::Relaxed);
            let path = path.with_file_name(format!(".wirefmt-{}-{count}.tmp", process::id()));
            let mut new = OpenOptions::new();
            match new.write(true).create_new(true).mode(0o600).open(&path) {
                Ok(file) => return Ok(Self { path, file }),
                Err(error) if error.kind() == io::ErrorKind::AlreadyExists => {}
                Err(error) => return Err(error),
            }
        }
    }

    /// Writes the bytes, gives the file the owner, attributes and permissions of another, and syncs it.
    fn fill(&self, bytes: &[u8], old: &File) -> io::Result<()> {
        (&self.file).write_all(bytes)?;
        let (new, kept) = (self.file.metadata()?, old.metadata()?);
        if (new.uid(), new.gid()) != (kept.uid(), kept.gid()) {
            let owner = fchown(&self.file, Some(kept.uid()), Some(kept.gid()));
            owner.map_err(|error| lost("its owner", &error))?;
        }
        attributes::copy(old, &self.file).map_err(|error| lost("its attributes", &error))?;
        // last, since a change of the owner drops bits
        let mode = Permissions::from_mode(kept.mode() & 0o7777);
        self.file.set_permissions(mode)?;
        self.file.sync_all()
    }

    fn rename(self, path: &Path) -> io::Result<()> {
        fs::rename(&self.path, path)
    }
}

fn lost(what: &str, error: &io::Error) -> io::Error {
    io::Error::other(format!("{what} can't be kept: {error}"))
}

impl Drop for Temporary {
    fn drop(&mut self) {
        // after a rename there is none of this name
        let _ = fs::remove_file(&self.path);
    }
}
