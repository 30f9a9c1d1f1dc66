//! `wirefmt`: formats Wirescript files, folders and standard input; `wirefmt lsp` is a language server.

mod arguments;
mod attributes;
mod diff;
mod file;
mod lsp;
mod name;
mod progress;
mod report;
mod run;
mod settings;
mod stop;
mod text;
mod walk;

use std::io::{self, ErrorKind, Write};
use std::process::ExitCode;

use clap::{CommandFactory, Parser};

use arguments::{Arguments, Command, Job};
use report::{Report, Status, Trouble};

fn main() -> ExitCode {
    let arguments = Arguments::parse();
    let status = match arguments.command {
        Some(Command::Lsp { .. }) => return lsp::run(io::stdin().lock(), io::stdout().lock()),
        Some(Command::Group { expression }) => group(&expression),
        None => format(&arguments.job),
    };
    let status = status.unwrap_or_else(|error| {
        // a reader who has seen enough needs no message
        if error.kind() != ErrorKind::BrokenPipe {
            let _ = writeln!(io::stderr(), "<stdout>:1:1: it can't be written: {error}");
        }
        Status::Trouble
    });
    ExitCode::from(status as u8)
}

fn format(job: &Job) -> io::Result<Status> {
    if let Some(fault) = job.fault() {
        let kind = clap::error::ErrorKind::ValueValidation;
        Arguments::command().error(kind, fault).exit();
    }
    if job.takes_stdin() {
        run::stdin(job)
    } else {
        run::files(job)
    }
}

/// Prints how an expression groups.
fn group(expression: &str) -> io::Result<Status> {
    let mut report = Report::default();
    match wirescript_format::group(expression) {
        Ok(text) => writeln!(report.output, "{text}")?,
        Err(refusal) => {
            let trouble = Trouble::refused(refusal, expression.as_bytes());
            report.tell("<expression>", &trouble, Status::Trouble);
        }
    }
    run::publish(&report)?;
    Ok(report.status)
}
