//! What a hook does before a commit: names the files that formatting would change.
//!
//!     hook FILE..
//!
//! Status 0 if all are formatted, 1 if one isn't, 2 if one can't be. Nothing is written.

use std::error::Error;

use wirescript_format::{Formatter, LineEnding, Options, editorconfig};

/// The options for a file. A check needs a fixed line ending: LF, where .editorconfig files don't say.
fn options(file: &str) -> Result<Options, Box<dyn Error>> {
    let files = editorconfig::find(file)?;
    let options = Options::from_editorconfig(&files.path, &files.texts)?;
    Ok(match options.get_line_ending() {
        LineEnding::Kept => options.line_ending(LineEnding::Lf),
        _ => options,
    })
}

/// What is to be said of a file, and the status that it gives.
fn checked(file: &str, formatter: &mut Formatter) -> Result<Option<(String, u8)>, Box<dyn Error>> {
    let source = std::fs::read(file)?;
    Ok(match formatter.is_formatted(&source, &options(file)?) {
        Ok(true) => None,
        Ok(false) => Some((format!("{file}: not formatted"), 1)),
        Err(refusal) => {
            let place = refusal.position(&source).unwrap_or_default();
            let (line, column) = (place.line + 1, place.column + 1);
            Some((format!("{file}:{line}:{column}: {refusal}"), 2))
        }
    })
}

fn main() -> std::process::ExitCode {
    let mut formatter = Formatter::new();
    let mut worst = 0;
    for file in std::env::args().skip(1) {
        let found = checked(&file, &mut formatter);
        let found = found.unwrap_or_else(|error| Some((format!("{file}: {error}"), 2)));
        if let Some((what, status)) = found {
            println!("{what}");
            worst = worst.max(status);
        }
    }
    worst.into()
}
