//! The options of a file: the defaults, what its .editorconfig files say, then the command line.

use std::path::Path;

use wirescript_format::editorconfig::{self, Files};
use wirescript_format::{EditorConfig, Options, Refusal};

use crate::arguments::Job;
use crate::report::{Trouble, words};

/// The options for a file; where there is none (standard input without a path), without .editorconfig.
pub fn options(job: &Job, file: Option<&Path>) -> Result<Options, Trouble> {
    let options = match file {
        Some(file) if !job.no_editorconfig => configured(&Options::new(), file)?,
        _ => Options::new(),
    };
    let chosen = job.chosen.over(options);
    chosen.map_err(|refusal| Trouble::whole(words(refusal)))
}

/// Options with what the .editorconfig files of a file set.
pub fn configured(options: &Options, file: &Path) -> Result<Options, Trouble> {
    let what = "its .editorconfig files can't be read";
    let files = editorconfig::find(file).map_err(|error| Trouble::io(what, &error))?;
    let Files { path, texts } = files;
    let config = EditorConfig::read(path, &texts).map_err(refused)?;
    options.with_editorconfig(config).map_err(refused)
}

fn refused(refusal: Refusal) -> Trouble {
    let what = match refusal {
        Refusal::NotUtf8 { .. } => "one of them is not UTF-8".to_owned(),
        other => words(other),
    };
    Trouble::whole(format!("its .editorconfig files: {what}"))
}
