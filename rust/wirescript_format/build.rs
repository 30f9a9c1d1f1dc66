//! Links `libwirescript.a` from the folder `WIRESCRIPT_LIB`, by default the repository's
//! `target/staticlib`. Without the archive the build fails, and says what to do; but docs.rs has none.

mod archive;

use std::env;
use std::path::PathBuf;

fn main() {
    println!("cargo::rerun-if-env-changed=WIRESCRIPT_LIB");
    // documentation alone links nothing
    if env::var_os("DOCS_RS").is_some() {
        return;
    }
    if let Err(what) = link() {
        println!("cargo::error={what}");
    }
}

fn link() -> Result<(), String> {
    let here = PathBuf::from(env::var_os("CARGO_MANIFEST_DIR").expect("set by cargo"));
    let root = here.ancestors().nth(2).expect("two folders above");
    let usual = root.join("target/staticlib");
    let folder = archive::folder(env::var_os("WIRESCRIPT_LIB").as_deref(), &usual)?;
    let archive = archive::archive(&folder, "wirescript")?;
    println!("cargo::rerun-if-changed={}", archive.display());
    println!("cargo::rustc-link-search=native={}", folder.display());
    println!("cargo::rustc-link-lib=static=wirescript");
    // for the build scripts of crates that link another archive of the same folder
    println!("cargo::metadata=folder={}", folder.display());
    Ok(())
}
