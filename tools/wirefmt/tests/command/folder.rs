//! A folder for a test, and the command run in it.

use std::ffi::OsStr;
use std::fs;
use std::io::{self, Write};
use std::path::{Path, PathBuf};
use std::process::{Command, Output, Stdio};
use std::sync::atomic::{AtomicUsize, Ordering};

pub const WIREFMT: &str = env!("CARGO_BIN_EXE_wirefmt");

/// A source and its text.
pub const SOURCE: &str = "f(a ,b)\n";
pub const TEXT: &str = "f(a, b)\n";

/// Says that a test could not be made here; the test runner shows it.
pub fn not_run(what: &str) {
    let _ = writeln!(io::stderr(), "not run: {what}");
}

/// A new folder, in which no .editorconfig file from above counts; removed at the end.
pub struct Folder(PathBuf);

impl Folder {
    pub fn new() -> Self {
        Self::under(&std::env::temp_dir()).unwrap()
    }

    /// In memory where that can be, so that syncing takes no time.
    pub fn in_memory() -> Self {
        Self::under(Path::new("/dev/shm")).unwrap_or_else(|_| Self::new())
    }

    fn under(parent: &Path) -> io::Result<Self> {
        static COUNT: AtomicUsize = AtomicUsize::new(0);
        let count = COUNT.fetch_add(1, Ordering::Relaxed);
        let folder = Self(parent.join(format!("wirefmt-test-{}-{count}", std::process::id())));
        fs::create_dir(&folder.0)?;
        folder.write(".editorconfig", "root = true\n");
        Ok(folder)
    }

    pub fn path(&self) -> &Path {
        &self.0
    }

    /// Writes a file, and the folders above it.
    pub fn write(&self, name: impl AsRef<Path>, text: impl AsRef<[u8]>) {
        let path = self.0.join(name);
        fs::create_dir_all(path.parent().unwrap()).unwrap();
        fs::write(path, text).unwrap();
    }

    pub fn read(&self, name: impl AsRef<Path>) -> String {
        fs::read_to_string(self.0.join(name)).unwrap()
    }

    /// Checks that all these files have one text.
    #[track_caller]
    pub fn holds(&self, names: &[impl AsRef<Path>], text: &str) {
        for name in names {
            assert_eq!(self.read(name), text, "{}", name.as_ref().display());
        }
    }

    /// The names of the files that stand directly in it, but for .editorconfig.
    pub fn names(&self) -> Vec<String> {
        let entries = fs::read_dir(&self.0).unwrap();
        let mut names: Vec<String> = entries
            .map(|entry| entry.unwrap().file_name().to_string_lossy().into_owned())
            .filter(|name| name != ".editorconfig")
            .collect();
        names.sort();
        names
    }

    pub fn command<Argument: AsRef<OsStr>>(&self, arguments: &[Argument]) -> Command {
        let mut command = Command::new(WIREFMT);
        command.args(arguments).current_dir(&self.0);
        command.stdin(Stdio::null());
        command
    }

    pub fn run<Argument: AsRef<OsStr>>(&self, arguments: &[Argument]) -> Ran {
        self.command(arguments).output().unwrap().into()
    }

    /// Runs with a standard input.
    pub fn feed(&self, arguments: &[&str], input: impl AsRef<[u8]>) -> Ran {
        let mut command = self.command(arguments);
        command.stdin(Stdio::piped()).stdout(Stdio::piped());
        let mut child = command.stderr(Stdio::piped()).spawn().unwrap();
        let mut stdin = child.stdin.take().unwrap();
        let input = input.as_ref().to_vec();
        // one that refuses its arguments reads nothing
        let feeder = std::thread::spawn(move || stdin.write_all(&input));
        let output = child.wait_with_output().unwrap();
        let _ = feeder.join().unwrap();
        output.into()
    }
}

impl Drop for Folder {
    fn drop(&mut self) {
        let _ = fs::remove_dir_all(&self.0);
    }
}

/// What a run came to.
#[derive(Debug)]
pub struct Ran {
    /// `None` where a signal ended it.
    pub status: Option<i32>,
    pub output: String,
    pub messages: String,
}

impl From<Output> for Ran {
    fn from(output: Output) -> Self {
        Self {
            status: output.status.code(),
            output: String::from_utf8(output.stdout).unwrap(),
            messages: String::from_utf8(output.stderr).unwrap(),
        }
    }
}

impl Ran {
    /// Checks the status and that nothing was told.
    #[track_caller]
    pub fn quiet(&self, status: i32) {
        let told = (self.status, self.messages.as_str());
        assert_eq!(told, (Some(status), ""), "{self:?}");
    }

    /// Checks status 2 and the one message.
    #[track_caller]
    pub fn refused(&self, message: &str) {
        let told = (self.status, self.messages.as_str());
        assert_eq!(told, (Some(2), format!("{message}\n").as_str()), "{self:?}");
    }
}
