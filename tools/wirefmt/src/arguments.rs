//! The command line.

use std::path::{Path, PathBuf};
use std::str::FromStr;

use clap::{Args, Parser, Subcommand, ValueEnum};
use wirescript_format::{FinalNewline, LineEnding, Options, Refusal};

use crate::report::words;

/// Formats Wirescript: files, the .ws files of folders, and standard input.
#[derive(Parser)]
#[command(
    version,
    args_conflicts_with_subcommands = true,
    after_help = "Exit status: 0; 1 if --check finds a file that would change; \
                  2 for a refusal, a file that can't be read or replaced, or a bad option."
)]
pub struct Arguments {
    #[command(subcommand)]
    pub command: Option<Command>,
    #[command(flatten)]
    pub job: Job,
}

#[derive(Subcommand)]
pub enum Command {
    /// Bracket every operation of an expression, so that it shows how it groups
    Group {
        #[arg(allow_hyphen_values = true)]
        expression: String,
    },
    /// A language server on standard input and output
    Lsp {
        /// Changes nothing: some editors say so where they start a server
        #[arg(long, hide = true)]
        stdio: bool,
    },
}

/// What to format, and what to do with the text.
#[derive(Args)]
#[expect(
    clippy::struct_excessive_bools,
    reason = "each is a flag of the command line"
)]
pub struct Job {
    /// Files, and folders whose .ws files are meant; `-` or nothing: standard input
    #[arg(value_name = "PATH")]
    pub paths: Vec<PathBuf>,
    /// Write nothing; tell the files that one pass would change (or --stable), with exit status 1
    #[arg(long)]
    pub check: bool,
    /// Write nothing; show what would change as a unified diff
    #[arg(long)]
    pub diff: bool,
    /// Write nothing; list the files that would change
    #[arg(long)]
    pub list: bool,
    /// With --list: names as they are, each ended by NUL
    #[arg(short = '0', long, requires = "list")]
    pub null: bool,
    /// Write nothing; show the lines whose brackets are never closed
    #[arg(long)]
    pub brackets: bool,
    /// Format until nothing changes, at most five times; the default is one pass
    #[arg(long)]
    pub stable: bool,
    /// The path that standard input has, for the .editorconfig files and for messages
    #[arg(long, value_name = "PATH")]
    pub stdin_filepath: Option<PathBuf>,
    /// Look for no .editorconfig files
    #[arg(long)]
    pub no_editorconfig: bool,
    #[command(flatten)]
    pub chosen: Chosen,
}

impl Job {
    /// Whether standard input is meant.
    pub fn takes_stdin(&self) -> bool {
        self.paths.is_empty() || self.names_stdin()
    }

    fn names_stdin(&self) -> bool {
        self.paths.iter().any(|path| path == Path::new("-"))
    }

    /// Whether files are to be replaced.
    pub fn writes(&self) -> bool {
        !(self.check || self.diff || self.list || self.brackets)
    }

    /// What stands against the command line as a whole.
    pub fn fault(&self) -> Option<String> {
        if self.names_stdin() && self.paths.len() > 1 {
            return Some("'-' (standard input) can't be named with other paths".to_owned());
        }
        if self.stdin_filepath.is_some() && !self.takes_stdin() {
            return Some("--stdin-filepath is for standard input, and a path is named".to_owned());
        }
        let options = self.chosen.over(Options::new());
        let refusal = options.and_then(|options| wirescript_format::format("", &options));
        refusal.err().map(words)
    }
}

/// The options that the command line sets.
#[derive(Args)]
pub struct Chosen {
    /// Indent by this many spaces, at most 64, or by these spaces and tabs themselves [default: 2]
    #[arg(long, value_name = "SPACES", help_heading = "Options of the text")]
    indent: Option<Indent>,
    /// Indent by tabs, whatever --indent says
    #[arg(long, help_heading = "Options of the text")]
    tabs: bool,
    /// Split lines that are wider than this, in UTF-16 units [default: 100]
    #[arg(long, value_name = "COLUMNS", help_heading = "Options of the text")]
    width: Option<u64>,
    /// Split no line
    #[arg(long, conflicts_with = "width", help_heading = "Options of the text")]
    no_width: bool,
    /// How lines end [default: keep]
    #[arg(long, value_name = "ENDING", help_heading = "Options of the text")]
    end_of_line: Option<Ending>,
    /// Whether the text ends in a line ending [default: always]
    #[arg(long, value_name = "WHEN", help_heading = "Options of the text")]
    final_newline: Option<Final>,
    /// How far apart tab stops are, at most 16; 0: a tab is one column [default: 0]
    #[arg(long, value_name = "COLUMNS", help_heading = "Options of the text")]
    ruler_tab: Option<u64>,
    /// How tightly operators bind: 21 hexadecimal digits, one for each of
    /// || ^^ && | ^ & == != < > <= >= << >> .. + - * / % **, and a 0 behind them
    #[arg(long, value_name = "DIGITS", help_heading = "Options of the text")]
    strengths: Option<Strengths>,
}

impl Chosen {
    /// The options with those that the command line sets.
    pub fn over(&self, mut options: Options) -> Result<Options, Refusal> {
        match &self.indent {
            Some(Indent::Spaces(spaces)) => options = options.indent_with(self.tabs, *spaces)?,
            Some(Indent::Themselves(indent)) if !self.tabs => options = options.indent(indent),
            _ if self.tabs => options = options.indent_with(true, 0)?,
            _ => {}
        }
        if self.no_width || self.width.is_some() {
            options = options.width(self.width);
        }
        if let Some(ending) = self.end_of_line {
            options = options.line_ending(ending.into());
        }
        if let Some(newline) = self.final_newline {
            options = options.final_newline(newline.into());
        }
        if let Some(columns) = self.ruler_tab {
            options = options.ruler_tab(columns);
        }
        if let Some(Strengths(table)) = &self.strengths {
            options = options.strengths(table.as_slice());
        }
        Ok(options)
    }
}

#[derive(Clone)]
enum Indent {
    Spaces(u64),
    Themselves(String),
}

impl FromStr for Indent {
    type Err = &'static str;

    fn from_str(value: &str) -> Result<Self, Self::Err> {
        if !value.is_empty() && value.bytes().all(|byte| matches!(byte, b' ' | b'\t')) {
            return Ok(Self::Themselves(value.to_owned()));
        }
        let spaces = value.parse().map(Self::Spaces);
        spaces.map_err(|_| "it is neither a number nor spaces and tabs")
    }
}

#[derive(Clone, Copy, ValueEnum)]
enum Ending {
    /// CRLF if more of the lines end so than in LF alone, else LF
    #[value(alias = "kept")]
    Keep,
    Lf,
    Crlf,
}

impl From<Ending> for LineEnding {
    fn from(ending: Ending) -> Self {
        match ending {
            Ending::Keep => Self::Kept,
            Ending::Lf => Self::Lf,
            Ending::Crlf => Self::Crlf,
        }
    }
}

#[derive(Clone, Copy, ValueEnum)]
enum Final {
    #[value(alias = "true")]
    Always,
    #[value(alias = "false")]
    Never,
    /// If the source does
    #[value(aliases = ["source", "keep"])]
    AsSource,
}

impl From<Final> for FinalNewline {
    fn from(newline: Final) -> Self {
        match newline {
            Final::Always => Self::Always,
            Final::Never => Self::Never,
            Final::AsSource => Self::AsSource,
        }
    }
}

/// A table of strengths, two hexadecimal digits for each byte.
#[derive(Clone)]
struct Strengths(Vec<u8>);

impl FromStr for Strengths {
    type Err = &'static str;

    fn from_str(digits: &str) -> Result<Self, Self::Err> {
        let digits = digits.chars().filter(|digit| *digit != ' ');
        let digits: Option<Vec<u32>> = digits.map(|digit| digit.to_digit(16)).collect();
        let digits = digits.ok_or("hexadecimal digits are 0 to 9 and a to f")?;
        if digits.len() != 22 {
            return Err("there are not 22 digits");
        }
        let byte = |pair: &[u32]| u8::try_from(pair[0] * 16 + pair[1]).expect("two digits");
        Ok(Self(digits.chunks(2).map(byte).collect()))
    }
}
