//! The files on disk.

use std::fs;
use std::io::{self, ErrorKind, Read};
use std::path::{Component, Path, PathBuf};
use std::string::String;
use std::vec::Vec;

use super::{FILE_NAME, MAX_TEXT, TEXTS};

/// A path and the texts of its directories, as [`EditorConfig::read`](crate::EditorConfig::read) takes them.
#[derive(Clone, Debug, Default, PartialEq, Eq)]
pub struct Files {
    /// The path from the top, its parts joined by slashes.
    pub path: String,
    /// The text of its own directory, then of each one up.
    pub texts: Vec<Vec<u8>>,
}

/// Finds the .editorconfig files of a file: the texts of its directory and of up to seven above it.
/// The file itself need not be there. A path that isn't absolute starts at the current directory; one
/// with a `..` in it leads through no directory that the file isn't in.
/// A file that is missing is an empty text; of one that is too long no more is read than it takes to
/// refuse it.
///
/// ```
/// use wirescript_format::{Options, editorconfig::find};
///
/// let folder = std::env::temp_dir().join(format!("find-{}", std::process::id()));
/// std::fs::create_dir_all(folder.join("src"))?;
/// std::fs::write(folder.join(".editorconfig"), "root = true\n[src/*.ws]\nindent_size = 4\n")?;
/// let files = find(folder.join("src/gate.ws"))?;
/// assert_eq!((files.texts[0].len(), files.texts[1].len() > 0), (0, true));
/// let options = Options::from_editorconfig(&files.path, &files.texts)?;
/// assert_eq!(options, Options::new().indent("    "));
/// std::fs::remove_dir_all(folder)?;
/// # Ok::<(), Box<dyn std::error::Error>>(())
/// ```
///
/// # Errors
/// Where the current directory or a file can't be read, or the path isn't UTF-8.
pub fn find(file: impl AsRef<Path>) -> io::Result<Files> {
    let file = direct(&std::path::absolute(file)?);
    let directories: Vec<PathBuf> = file
        .ancestors()
        .skip(1)
        .take(TEXTS)
        .map(Path::to_path_buf)
        .collect();
    let mut parts = Vec::new();
    for part in file
        .components()
        .skip_while(|part| !matches!(part, Component::Normal(_) | Component::ParentDir))
    {
        let part = part.as_os_str().to_str();
        parts.push(part.ok_or_else(|| io::Error::new(ErrorKind::InvalidData, "not UTF-8"))?);
    }
    let texts = directories
        .iter()
        .map(|directory| text_of(&directory.join(FILE_NAME)))
        .collect::<io::Result<_>>()?;
    Ok(Files {
        path: parts.join("/"),
        texts,
    })
}

/// The path itself or, where it has a `..`, its directory's own path and its name. It stays as it is
/// where there is no such directory.
fn direct(file: &Path) -> PathBuf {
    if !file.components().any(|part| part == Component::ParentDir) {
        return file.to_path_buf();
    }
    match (file.parent().map(Path::canonicalize), file.file_name()) {
        (Some(Ok(directory)), Some(name)) => directory.join(name),
        _ => file.to_path_buf(),
    }
}

/// The text of a file, cut one byte behind the longest; empty where there is none.
fn text_of(path: &Path) -> io::Result<Vec<u8>> {
    let file = match fs::File::open(path) {
        Ok(file) => file,
        Err(error) if matches!(error.kind(), ErrorKind::NotFound | ErrorKind::NotADirectory) => {
            return Ok(Vec::new());
        }
        Err(error) => return Err(error),
    };
    let mut text = Vec::new();
    file.take(MAX_TEXT as u64 + 1).read_to_end(&mut text)?;
    Ok(text)
}
