//! Formats files and standard input.

use std::env;
use std::io::{self, IsTerminal, Write};
use std::path::Path;

use rayon::prelude::*;
use wirescript_format::{Options, Refusal};

use crate::arguments::Job;
use crate::diff::{Colours, unified};
use crate::progress::Progress;
use crate::report::{Report, Status, Trouble};
use crate::text::Text;
use crate::walk::Found;
use crate::{file, name, settings, stop, text, walk};

/// How many files are reported together.
const TOGETHER: usize = 256;

/// A source, its options, and its path or what stands for one.
struct Source<'a> {
    path: &'a Path,
    bytes: Vec<u8>,
    options: Options,
}

impl Source<'_> {
    fn refused(&self, refusal: Refusal) -> Trouble {
        Trouble::refused(refusal, &self.bytes)
    }

    /// The text that the job asks for; whether it settled is told.
    fn text(&self, job: &Job, report: &mut Report) -> Result<String, Trouble> {
        let text = text::text(&self.bytes, &self.options, job.stable);
        let Text { text, unsettled } = text.map_err(|refusal| self.refused(refusal))?;
        if unsettled {
            let note = Trouble::whole("it still changed at the fifth pass");
            report.tell(&name::shown(self.path), &note, Status::Fine);
        }
        Ok(text)
    }

    fn would_change(&self, job: &Job, report: &mut Report) -> Result<bool, Trouble> {
        let unchanged = text::unchanged(&self.bytes, &self.options);
        if unchanged.map_err(|refusal| self.refused(refusal))? {
            return Ok(false);
        }
        Ok(!job.stable || self.text(job, report)?.as_bytes() != self.bytes)
    }
}

/// Formats all files of the paths: those of a chunk in parallel, reported in order.
pub fn files(job: &Job) -> io::Result<Status> {
    let found = walk::files(&job.paths);
    let progress = Progress::new(found.len());
    if job.writes() {
        stop::listen();
    }
    let step = |found| {
        if stop::asked() {
            return Report::default();
        }
        let report = file_report(job, found);
        progress.step();
        report
    };
    let mut status = Status::Fine;
    for chunk in found.chunks(TOGETHER) {
        let reports: Vec<Report> = chunk.par_iter().map(step).collect();
        let worst = reports.iter().map(|report| report.status).max();
        status = status.max(worst.unwrap_or_default());
        progress.aside(|| reports.iter().try_for_each(publish))?;
    }
    progress.end();
    stop::obey();
    Ok(status)
}

/// Formats standard input to standard output.
pub fn stdin(job: &Job) -> io::Result<Status> {
    let path = job.stdin_filepath.as_deref();
    let shown = path.unwrap_or(Path::new("<stdin>"));
    let mut report = Report::default();
    if let Err(trouble) = stdin_report(job, path, shown, &mut report) {
        report.tell(&name::shown(shown), &trouble, Status::Trouble);
    }
    publish(&report)?;
    Ok(report.status)
}

fn stdin_report(
    job: &Job,
    file: Option<&Path>,
    path: &Path,
    report: &mut Report,
) -> Result<(), Trouble> {
    let bytes = file::read_source(io::stdin().lock());
    let source = Source {
        path,
        bytes: bytes.map_err(|error| Trouble::io("it can't be read", &error))?,
        options: settings::options(job, file)?,
    };
    if let Some(text) = treat(job, &source, report)? {
        report.output = text.into_bytes();
    }
    Ok(())
}

fn file_report(job: &Job, found: &Found) -> Report {
    let mut report = Report::default();
    let (path, done) = match found {
        Ok(path) => (path, format_file(job, path, &mut report)),
        Err((path, trouble)) => (path, Err(trouble.clone())),
    };
    if let Err(trouble) = done {
        report.tell(&name::shown(path), &trouble, Status::Trouble);
    }
    report
}

fn format_file(job: &Job, path: &Path, report: &mut Report) -> Result<(), Trouble> {
    let source = Source {
        path,
        bytes: file::read(path)?,
        options: settings::options(job, Some(path))?,
    };
    match treat(job, &source, report)? {
        Some(text) if text.as_bytes() != source.bytes => {
            file::replace(path, &source.bytes, text.as_bytes())
        }
        _ => Ok(()),
    }
}

/// Gives the text where one is to be written, else reports.
fn treat(job: &Job, source: &Source, report: &mut Report) -> Result<Option<String>, Trouble> {
    if job.writes() {
        return source.text(job, report).map(Some);
    }
    look(job, source, report)?;
    Ok(None)
}

/// Reports on a source, which stays as it is.
fn look(job: &Job, source: &Source, report: &mut Report) -> Result<(), Trouble> {
    if job.brackets {
        brackets(source, report)?;
    }
    let changes = if job.diff {
        let text = source.text(job, report)?;
        diff(source, &text, report)
    } else if job.check || job.list {
        source.would_change(job, report)?
    } else {
        false
    };
    if changes {
        told(job, source.path, report);
    }
    Ok(())
}

/// Says that a source would change.
fn told(job: &Job, path: &Path, report: &mut Report) {
    if job.list && job.null {
        report.output.extend(path.as_os_str().as_encoded_bytes());
        report.output.push(0);
    } else if job.list {
        report.output.extend(name::shown(path).as_bytes());
        report.output.push(b'\n');
    }
    if job.check {
        let passes = if job.stable { "--stable" } else { "one pass" };
        let trouble = Trouble::whole(format!("it would change ({passes})"));
        report.tell(&name::shown(path), &trouble, Status::WouldChange);
    }
}

/// Shows the diff, and says whether there is one.
fn diff(source: &Source, text: &str, report: &mut Report) -> bool {
    let old = std::str::from_utf8(&source.bytes).expect("others are refused");
    let shown = unified(source.path, old, text, colours());
    report.output.extend(shown.as_bytes());
    old != text
}

/// Colours on a terminal that knows them, unless they are unwanted.
fn colours() -> &'static Colours {
    let unwanted = env::var_os("NO_COLOR").is_some_and(|value| !value.is_empty());
    let dumb = env::var_os("TERM").is_some_and(|name| name == "dumb");
    if io::stdout().is_terminal() && !unwanted && !dumb {
        &Colours::TERMINAL
    } else {
        &Colours::NONE
    }
}

fn brackets(source: &Source, report: &mut Report) -> Result<(), Trouble> {
    let lines = text::open_brackets(&source.bytes, &source.options);
    let name = name::shown(source.path);
    for line in lines.map_err(|refusal| source.refused(refusal))? {
        let line = line + 1;
        writeln!(
            report.output,
            "{name}:{line}: a bracket opened here is still open at the end"
        )
        .expect("a vector takes all");
    }
    Ok(())
}

pub fn publish(report: &Report) -> io::Result<()> {
    let mut output = io::stdout().lock();
    output.write_all(&report.output)?;
    output.flush()?;
    // who closed standard error doesn't want them
    let _ = io::stderr().write_all(report.messages.as_bytes());
    Ok(())
}
