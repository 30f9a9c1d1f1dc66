//! Runs tools/packages.sh on a machine that programs of the tests' own stand for, so that nothing is installed.

#[path = "command/folder.rs"]
#[expect(dead_code, reason = "the tests of the command use the rest")]
mod folder;

use std::fs;
use std::os::unix::fs::PermissionsExt;
use std::path::Path;
use std::process::Command;

use folder::{Folder, Ran};

const SCRIPT: &str = concat!(env!("CARGO_MANIFEST_DIR"), "/../packages.sh");

/// The machine: its user, the state of all packages, the version of its cargo and those that apt has.
struct Machine {
    user: &'static str,
    state: &'static str,
    cargo: &'static str,
    /// `package)version;;` for each, as a `case` of the shell takes it.
    packages: &'static str,
}

const FRESH: Machine = Machine {
    user: "0",
    state: "not-installed",
    cargo: "1.85.0",
    packages: "",
};

impl Machine {
    /// Runs the script; gives what it came to, and what was asked of apt-get.
    fn run(&self) -> (Ran, String) {
        let folder = Folder::new();
        let Self {
            user,
            state,
            cargo,
            packages,
        } = self;
        let programs = [
            ("id", format!("echo {user}")),
            ("dpkg-query", format!("echo {state}")),
            (
                "cargo",
                format!("echo 'cargo {cargo} (f2d3ce0bd 2026-03-21)'"),
            ),
            (
                "apt-cache",
                format!("case $3 in {packages} *) exit 1;; esac"),
            ),
            ("apt-get", "echo \"$@\" >> asked".to_owned()),
        ];
        for (name, body) in programs {
            folder.write(
                name,
                format!("#!/bin/sh\ncd '{}'\n{body}\n", folder.path().display()),
            );
            let mode = fs::Permissions::from_mode(0o755);
            fs::set_permissions(folder.path().join(name), mode).unwrap();
        }
        let path = std::env::var("PATH").unwrap();
        let path = format!("{}:{path}", folder.path().display());
        let ran = Command::new(SCRIPT).env("PATH", path).output().unwrap();
        let asked = fs::read_to_string(folder.path().join("asked")).unwrap_or_default();
        (ran.into(), asked)
    }
}

/// The packages of the list, in its order.
fn listed() -> String {
    let list = Path::new(SCRIPT).with_file_name("packages.txt");
    let list = fs::read_to_string(list).unwrap();
    assert!(list.lines().count() > 5);
    list.trim_end().replace('\n', " ")
}

fn installing(packages: &str) -> String {
    format!("update\ninstall --yes --no-install-recommends {packages}\n")
}

#[test]
fn nothing_is_missing() {
    let state = "installed";
    for user in ["0", "1000"] {
        let (ran, asked) = Machine {
            user,
            state,
            ..FRESH
        }
        .run();
        ran.quiet(0);
        assert_eq!((ran.output, asked), (String::new(), String::new()));
    }
}

#[test]
fn what_is_missing_is_installed() {
    let (ran, asked) = FRESH.run();
    ran.quiet(0);
    assert_eq!(asked, installing(&listed()));
}

/// Debian 12 has two, of which one is too old.
#[test]
fn a_cargo_that_is_too_old() {
    let old = "cargo) echo 'Version: 0.66.0+ds1-1';;";
    let packages =
        "cargo) echo 'Version: 0.66.0+ds1-1';; cargo-web) echo 'Version: 1.96.0+dfsg1-1~deb12u2';;";
    for cargo in ["1.84.1", ""] {
        let (ran, asked) = Machine {
            cargo,
            packages,
            ..FRESH
        }
        .run();
        ran.quiet(0);
        assert_eq!(asked, installing(&format!("{} cargo-web", listed())));
    }
    let machine = Machine {
        cargo: "1.63.0",
        packages: old,
        ..FRESH
    };
    let (ran, asked) = machine.run();
    let told = "no Debian package here has cargo 1.85 or newer; https://rustup.rs tells how to install it\n";
    assert_eq!((ran.status, ran.messages.as_str()), (Some(1), told));
    assert_eq!(asked, "update\n");
}

#[test]
fn others_than_root_are_told() {
    let machine = Machine {
        user: "1000",
        cargo: "1.63.0",
        ..FRESH
    };
    let (ran, asked) = machine.run();
    let missing = format!("{} cargo (1.85 or newer)", listed());
    let told =
        format!("packages are missing: {missing}; as root, tools/packages.sh installs them\n");
    assert_eq!((ran.status, ran.messages), (Some(1), told));
    assert_eq!(asked, "");
}
