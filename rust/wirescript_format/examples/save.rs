//! What an editor does when a file is saved: finds its options, asks where the caret goes and what changes, and puts
//! the changes into its buffer, so that folds and marks elsewhere stay.
//!
//!     save FILE LINE COLUMN
//!
//! FILE is the file; LINE and COLUMN are the caret's, from 0, the column in UTF-16 units as editors count them. Prints
//! each change, the caret's new place and the text; the file stays as it is.

use std::error::Error;

use wirescript_format::{Formatter, LineIndex, Options, apply, editorconfig};

fn main() -> Result<(), Box<dyn Error>> {
    let mut arguments = std::env::args().skip(1);
    let mut next = || arguments.next().ok_or("usage: save FILE LINE COLUMN");
    let (file, line, column) = (next()?, next()?.parse()?, next()?.parse()?);
    let source = std::fs::read_to_string(&file)?;
    let files = editorconfig::find(&file)?;
    let options = Options::from_editorconfig(&files.path, &files.texts)?;

    // an editor keeps its formatter, whose buffers are used again
    let mut formatter = Formatter::new();
    let lines = LineIndex::new(&source);
    let caret = lines.offset_utf16(line, column).ok_or("no such place")?;
    let caret = lines.position(caret);
    let moved = formatter.format_with_caret(&source, &options, caret.line, caret.column)?;
    let (line, column) = (moved.line, moved.column);

    let found = formatter.format_changes(&source, &options)?;
    for change in &found.changes {
        let (from, to) = (
            lines.position(change.range.start),
            lines.position(change.range.end),
        );
        println!(
            "{}:{} to {}:{} becomes {:?}",
            from.line, from.utf16_column, to.line, to.utf16_column, change.text
        );
    }
    let text = apply(&source, &found.changes);
    let lines = LineIndex::new(&text);
    let caret = lines
        .offset(line, column)
        .ok_or("the caret is in the text")?;
    let caret = lines.position(caret);
    println!("caret {}:{}", caret.line, caret.utf16_column);
    print!("{text}");
    Ok(())
}
