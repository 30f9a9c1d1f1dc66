//! Plays tools/hooks/pre-commit in real repositories.

#[path = "command/folder.rs"]
#[expect(dead_code, reason = "the tests of the command use the rest")]
mod folder;

use std::fs;
use std::os::unix::fs::{PermissionsExt, symlink};
use std::path::Path;
use std::process::{Command, Output};

use folder::{Folder, SOURCE, TEXT, WIREFMT};

/// A repository of its own with the hook.
struct Repository(Folder);

impl Repository {
    fn new() -> Self {
        let repository = Self(Folder::new());
        repository.done(&["init", "--quiet"]);
        let hook = Path::new(env!("CARGO_MANIFEST_DIR")).join("../hooks/pre-commit");
        let installed = repository.0.path().join(".git/hooks/pre-commit");
        fs::copy(hook, &installed).expect("the hook");
        fs::set_permissions(installed, fs::Permissions::from_mode(0o755)).expect("its mode");
        repository
    }

    fn git(&self, arguments: &[&str]) -> Output {
        self.git_with(arguments, WIREFMT)
    }

    /// Without the settings of the user and of the machine.
    fn git_with(&self, arguments: &[&str], wirefmt: &str) -> Output {
        Command::new("git")
            .args(["-c", "user.name=a", "-c", "user.email=a@b"])
            .args(arguments)
            .current_dir(self.0.path())
            .env_clear()
            .env("PATH", std::env::var_os("PATH").unwrap_or_default())
            .env("HOME", self.0.path())
            .env("GIT_CONFIG_NOSYSTEM", "1")
            .env("WIREFMT", wirefmt)
            .output()
            .expect("git starts")
    }

    fn done(&self, arguments: &[&str]) {
        let output = self.git(arguments);
        assert!(output.status.success(), "{arguments:?}: {output:?}");
    }

    fn write(&self, name: &str, text: impl AsRef<[u8]>) {
        self.0.write(name, text);
    }

    /// Writes a file and stages it.
    fn stage(&self, name: &str, text: impl AsRef<[u8]>) {
        self.write(name, text);
        self.done(&["add", "--", name]);
    }

    fn commit(&self) {
        self.done(&["commit", "--quiet", "--message=m"]);
    }

    /// The commit must stop; gives what was told.
    fn stopped(&self, arguments: &[&str]) -> String {
        let before = self.git(&["rev-parse", "HEAD"]).stdout;
        let output = self.git(&[&["commit", "--quiet", "--message=m"], arguments].concat());
        let told = String::from_utf8(output.stderr).expect("UTF-8");
        assert_eq!(output.status.code(), Some(1), "{told}");
        assert_eq!(self.git(&["rev-parse", "HEAD"]).stdout, before);
        told
    }
}

#[test]
fn the_first_commit_and_the_next() {
    let repository = Repository::new();
    repository.stage("a.ws", SOURCE);
    repository.stage("b.txt", SOURCE);
    let told = repository.stopped(&[]);
    assert!(told.contains("a.ws") && !told.contains("b.txt"), "{told}");
    repository.stage("a.ws", TEXT);
    repository.commit();
    repository.stage("folder/c.ws", SOURCE);
    let told = repository.stopped(&[]);
    assert!(
        told.contains("folder/c.ws") && !told.contains("a.ws"),
        "{told}"
    );
    repository.stage("folder/c.ws", TEXT);
    repository.commit();
}

/// The work tree says one thing and the index another.
#[test]
fn the_staged_content_counts() {
    let check = |repository: &Repository| repository.0.run(&["--check", "a.ws"]).status;
    let repository = Repository::new();
    repository.stage("a.ws", SOURCE);
    repository.write("a.ws", TEXT);
    assert_eq!(check(&repository), Some(0));
    repository.stopped(&[]);
    repository.stage("a.ws", TEXT);
    repository.write("a.ws", SOURCE);
    assert_eq!(check(&repository), Some(1));
    repository.commit();
    // with -a, and with a path, git commits from another index
    repository.stopped(&["-a"]);
    repository.stopped(&["a.ws"]);
    repository.stage("b.ws", SOURCE);
    repository.write("a.ws", "f(a, b, c)\n");
    repository.done(&["commit", "--quiet", "--message=m", "a.ws"]);
}

#[test]
fn names_of_every_kind() {
    let names = [
        "a b.ws",
        "a\nb.ws",
        "-x.ws",
        "1:x.ws",
        "\u{e9}\"'\\$x.ws",
        " .ws",
        "*.ws",
        "deep er/\n/x.ws",
    ];
    for name in names {
        let repository = Repository::new();
        // settings are found only by the right path
        let folder = format!("{name} folder");
        repository.write(
            &format!("{folder}/.editorconfig"),
            "root = true\n[*]\nindent_size = 4\n",
        );
        let name = format!("{folder}/{name}");
        repository.stage(&name, "{\n  a\n}\n");
        repository.stopped(&[]);
        repository.stage(&name, "{\n    a\n}\n");
        repository.commit();
    }
}

#[test]
fn what_is_gone_moved_or_no_file() {
    let repository = Repository::new();
    repository.write("a.ws", SOURCE);
    repository.done(&["add", "a.ws"]);
    repository.done(&["commit", "--quiet", "--message=m", "--no-verify"]);
    // what was there before isn't looked at, nor what goes
    repository.stage("b.ws", TEXT);
    repository.commit();
    repository.done(&["rm", "--quiet", "b.ws"]);
    repository.commit();
    // a file under another name is a new one
    repository.done(&["mv", "a.ws", "c.ws"]);
    assert!(repository.stopped(&[]).contains("c.ws"));
    repository.stage("c.ws", TEXT);
    repository.commit();
    // one that is only announced isn't part of the commit
    repository.write("d.ws", SOURCE);
    repository.done(&["add", "--intent-to-add", "d.ws"]);
    symlink("no  where", repository.0.path().join("link.ws")).expect("a link");
    repository.done(&["add", "link.ws"]);
    repository.commit();
}

/// What an amended commit has beyond the old one is looked at; a new message alone is fine.
#[test]
fn amended_commits() {
    let repository = Repository::new();
    repository.stage("a.ws", SOURCE);
    repository.done(&["commit", "--quiet", "--message=m", "--no-verify"]);
    repository.done(&["commit", "--quiet", "--message=n", "--amend"]);
    repository.stage("b.ws", SOURCE);
    let told = repository.stopped(&["--amend"]);
    assert!(
        told.contains("b.ws:1:1: ") && !told.contains("a.ws"),
        "{told}"
    );
    repository.stage("b.ws", TEXT);
    repository.done(&["commit", "--quiet", "--message=m", "--amend"]);
}

/// A submodule is another repository, whatever its name.
#[test]
fn submodules() {
    let (inner, outer) = (Repository::new(), Repository::new());
    inner.stage("a.ws", SOURCE);
    inner.done(&["commit", "--quiet", "--message=m", "--no-verify"]);
    let url = inner.0.path().to_str().expect("UTF-8");
    let local = ["-c", "protocol.file.allow=always"];
    let add = ["submodule", "--quiet", "add", url, "inner.ws"];
    outer.done(&[&local[..], &add].concat());
    outer.commit();
    let kind = outer.git(&["ls-tree", "HEAD", "inner.ws"]).stdout;
    assert!(kind.starts_with(b"160000 commit "), "{kind:?}");
    outer.stage("b.ws", SOURCE);
    let told = outer.stopped(&[]);
    assert!(!told.contains("inner.ws"), "{told}");
}

#[test]
fn settings_of_the_repository() {
    let repository = Repository::new();
    repository.write(
        ".editorconfig",
        "root = true\n[four/*.ws]\nindent_size = 4\n",
    );
    repository.stage("four/a.ws", "{\n    a\n}\n");
    repository.commit();
    repository.stage("two/a.ws", "{\n    a\n}\n");
    assert!(repository.stopped(&[]).contains("two/a.ws"));
    repository.stage("two/a.ws", "{\n  a\n}\n");
    repository.commit();
}

/// Endings are CRLF in the work tree and LF in the repository.
#[test]
fn line_endings_of_the_work_tree() {
    let repository = Repository::new();
    repository.write(".editorconfig", "root = true\n[*]\nend_of_line = crlf\n");
    repository.stage(".gitattributes", "*.ws text eol=crlf\n");
    repository.stage("a.ws", "f(a, b)\r\n");
    assert_eq!(
        repository.git(&["cat-file", "blob", ":a.ws"]).stdout,
        TEXT.as_bytes()
    );
    repository.commit();
    repository.stage("a.ws", "f(a ,b)\r\n");
    repository.stopped(&[]);
}

#[test]
fn a_refusal_and_a_missing_program() {
    let repository = Repository::new();
    repository.stage("a.ws", b"ab\n\xff\n");
    assert!(repository.stopped(&[]).contains("a.ws:2:1: "));
    repository.stage("a.ws", TEXT);
    let output = repository.git_with(&["commit", "--quiet", "--message=m"], "no-wirefmt");
    assert_eq!(output.status.code(), Some(1));
    let told = String::from_utf8(output.stderr).expect("UTF-8");
    assert_eq!(
        told,
        "pre-commit: there is no program 'no-wirefmt' (WIREFMT names another)\n"
    );
    repository.commit();
}
