//! Brings the Rust formatter from `WIRESCRIPT_SRC` (by default `../shared/docs/src`
//! beside the repository) into the build folder. The four files are copied as they
//! are; two modules are appended to format.rs, so that `src/reach.rs` and `src/blocks.rs`
//! become children of that module and can call its private functions. The test module
//! that format.rs names isn't there; an empty file stands for it.
//!
//! A second copy, the module `asked`, differs in two functions of split.rs, `width` and
//! `precedence`, which ask `src/choices.rs`.

use std::path::{Path, PathBuf};
use std::{env, fs};

fn main() {
    println!("cargo::rerun-if-env-changed=WIRESCRIPT_SRC");
    let here = PathBuf::from(env::var_os("CARGO_MANIFEST_DIR").expect("set by cargo"));
    let out = PathBuf::from(env::var_os("OUT_DIR").expect("set by cargo"));
    let src = env::var_os("WIRESCRIPT_SRC")
        .map_or_else(|| here.join("../../../shared/docs/src"), PathBuf::from);
    let analysis = src.join("crates/wirescript/src/analysis");

    let asked = out.join("asked");
    for folder in [&out, &asked] {
        fs::create_dir_all(folder.join("format")).expect("the build folder can be written");
        for name in ["format/options.rs", "format/scan.rs"] {
            fs::write(folder.join(name), read(&analysis.join(name))).expect("written");
        }
        fs::write(folder.join("format/tests.rs"), "").expect("written");
    }
    let split = read(&analysis.join("format/split.rs"));
    fs::write(out.join("format/split.rs"), &split).expect("written");
    fs::write(asked.join("format/split.rs"), asking(&split)).expect("written");
    let format = read(&analysis.join("format.rs"));
    let reach = child(&here, "reach");
    let both = format!("{format}{reach}{}", child(&here, "blocks"));
    fs::write(out.join("format.rs"), both).expect("written");
    fs::write(asked.join("format.rs"), format + &reach).expect("written");
    fs::write(asked.join("mod.rs"), "pub mod format;\n").expect("written");
    fs::write(out.join("upstream.rs"), "pub mod format;\npub mod asked;\n").expect("written");
}

/// A module of this crate's, for the end of format.rs.
fn child(here: &Path, name: &str) -> String {
    let path = here.join(format!("src/{name}.rs"));
    println!("cargo::rerun-if-changed={}", path.display());
    format!("\n#[path = {path:?}]\npub mod {name};\n")
}

/// split.rs with another `width` and another `precedence`.
fn asking(split: &str) -> String {
    let body = "s.encode_utf16().count()";
    assert_eq!(split.matches(body).count(), 1, "the body of `width`");
    let head = "fn precedence(op: &str) -> Option<u8> {\n";
    assert_eq!(split.matches(head).count(), 1, "where strengths are found");
    let asks = format!(
        "{head}    crate::choices::strength(op, own)\n}}\n\nfn own(op: &str) -> Option<u8> {{\n"
    );
    split
        .replace(body, "crate::choices::column(s)")
        .replace(head, &asks)
}

fn read(path: &Path) -> String {
    println!("cargo::rerun-if-changed={}", path.display());
    fs::read_to_string(path).unwrap_or_else(|error| {
        panic!(
            "{}: {error} (set WIRESCRIPT_SRC to the folder of the Rust formatter's source)",
            path.display()
        )
    })
}
