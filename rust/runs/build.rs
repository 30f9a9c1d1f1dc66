//! With the feature `parts`: links `libwirescript_parts.a` from the folder of `libwirescript.a`, which the
//! build script of `wirescript_format` tells.

#[allow(dead_code)]
#[path = "../wirescript_format/archive.rs"]
mod archive;

use std::env;
use std::path::PathBuf;

fn main() {
    println!("cargo::rerun-if-changed=build.rs");
    if env::var_os("CARGO_FEATURE_PARTS").is_none() {
        return;
    }
    let folder = env::var_os("DEP_WIRESCRIPT_FOLDER").expect("told by wirescript_format");
    let folder = PathBuf::from(folder);
    match archive::archive(&folder, "wirescript_parts") {
        Err(what) => println!("cargo::error={what}"),
        Ok(archive) => {
            println!("cargo::rerun-if-changed={}", archive.display());
            println!("cargo::rustc-link-search=native={}", folder.display());
            for program in ["parts", "leaves"] {
                println!("cargo::rustc-link-arg-bin={program}=-lwirescript_parts");
            }
        }
    }
}
