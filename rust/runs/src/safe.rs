//! Calls of the host crate's safe functions: what they are given, what they must tell by the Rust,
//! and what they tell.

use crate::call::{Call, Chosen, Size};
use crate::model;
use ec4rs::Properties;
use ec4rs::property;
use wirescript_format::{
    EditorConfig, EndOfLine, FinalNewline, Formatter, IndentSize, IndentStyle, LineEnding,
    MaxLineLength, Options, TextKind,
};

/// What a safe function is given. Options and values are the Rust's, which can name what the host
/// crate's can.
#[derive(Clone, Debug, PartialEq, Eq)]
pub enum SafeCall {
    /// By a formatter whose texts have at most so many bytes, or by the function `format`.
    Format {
        source: Vec<u8>,
        options: Chosen,
        most: Option<Size>,
    },
    Kind {
        source: Vec<u8>,
        line: u64,
        column: u64,
    },
    Indent {
        options: Chosen,
        tabs: bool,
        size: u64,
    },
    Config {
        options: Chosen,
        values: Properties,
    },
}

/// What a formatting call tells.
#[derive(Clone, Debug, PartialEq, Eq)]
pub struct Formatted {
    pub text: String,
    pub imports_split: u64,
    pub blank_names: u64,
    pub open_brackets: u64,
    pub opened: Vec<u64>,
}

impl From<wirescript_format::Formatted> for Formatted {
    fn from(told: wirescript_format::Formatted) -> Self {
        Self {
            text: told.text,
            imports_split: told.imports_split,
            blank_names: told.blank_names,
            open_brackets: told.open_brackets,
            opened: told.opened,
        }
    }
}

/// What a safe function tells; a refusal by its number and place.
#[derive(Clone, Debug, PartialEq, Eq)]
pub enum Told {
    Formatted(Formatted),
    Kind(TextKind),
    Options(Options),
    Refused(u64, u64),
}

/// What a call must tell.
pub struct Must {
    pub told: Told,
    /// The longest text, for a formatter.
    pub most: Option<usize>,
}

impl SafeCall {
    pub fn must(&self) -> Must {
        let told = match self {
            Self::Format {
                source,
                options,
                most,
            } => return must_format(&Call::chosen(source.clone(), options), *most),
            Self::Kind {
                source,
                line,
                column,
            } => must_kind(source, *line, *column),
            Self::Indent {
                options,
                tabs,
                size,
            } => {
                let call = Call::chosen("", options);
                must_settle(model::indent_with(&call, u64::from(*tabs), *size).as_ref())
            }
            Self::Config { options, values } => {
                let options = Call::chosen("", options).options();
                must_settle(options.and_then(|o| model::configured(o, *values)).as_ref())
            }
        };
        Must { told, most: None }
    }
}

/// The lines that a formatter lists by default.
fn listed(mut lines: Vec<u64>) -> Vec<u64> {
    lines.truncate(Formatter::LISTED);
    lines
}

fn must_format(call: &Call, most: Option<Size>) -> Must {
    let found = model::text_of(call);
    let most = most.map(|size| size.of(model::length(&found)));
    let told = match found {
        Err((number, place)) => Told::Refused(number, place),
        Ok(counted) if counted.text.len() > most.unwrap_or(Formatter::MOST) => {
            Told::Refused(5, counted.text.len() as u64)
        }
        Ok(counted) => Told::Formatted(Formatted {
            text: counted.text,
            imports_split: counted.imports_split as u64,
            blank_names: counted.blank_names as u64,
            open_brackets: counted.open_lines.len() as u64,
            opened: listed(counted.open_lines),
        }),
    };
    Must { told, most }
}

fn must_kind(source: &[u8], line: u64, column: u64) -> Told {
    let kind = model::text_kind_at(source, line, column, usize::MAX);
    match (kind.refusal, kind.kind) {
        (0, 0) => Told::Kind(TextKind::Code),
        (0, 1) => Told::Kind(TextKind::Str),
        (0, _) => Told::Kind(TextKind::Comment),
        (number, _) => Told::Refused(number, kind.place),
    }
}

fn must_settle(options: Option<&Chosen>) -> Told {
    options.map_or(Told::Refused(2, 0), |options| {
        Told::Options(options_of(options))
    })
}

/// The host crate's options that are these.
pub fn options_of(chosen: &Chosen) -> Options {
    let options = &chosen.rust;
    Options::new()
        .indent(&*options.indent)
        .width(options.print_width.map(|width| width as u64))
        .line_ending(match options.end_of_line {
            None => LineEnding::Kept,
            Some(upstream::LineEnding::Lf) => LineEnding::Lf,
            Some(upstream::LineEnding::Crlf) => LineEnding::Crlf,
        })
        .final_newline(match (chosen.never, options.insert_final_newline) {
            (true, _) => FinalNewline::Never,
            (false, true) => FinalNewline::Always,
            (false, false) => FinalNewline::AsSource,
        })
        .ruler_tab(chosen.ruler)
}

/// The host crate's values that are the Rust's.
fn config_of(values: Properties) -> EditorConfig {
    let mut config = EditorConfig::new();
    config.indent_style = values.style.map(|style| match style {
        property::IndentStyle::Tabs => IndentStyle::Tabs,
        property::IndentStyle::Spaces => IndentStyle::Spaces,
    });
    config.indent_size = values.size.map(|size| match size {
        property::IndentSize::UseTabWidth => IndentSize::Tab,
        property::IndentSize::Value(n) => IndentSize::Value(n as u64),
    });
    config.tab_width = values.tab.map(|property::TabWidth::Value(n)| n as u64);
    config.max_line_length = values.max.map(|max| match max {
        property::MaxLineLen::Off => MaxLineLength::Off,
        property::MaxLineLen::Value(n) => MaxLineLength::Value(n as u64),
    });
    config.end_of_line = values.ending.map(|ending| match ending {
        property::EndOfLine::Lf => EndOfLine::Lf,
        property::EndOfLine::CrLf => EndOfLine::Crlf,
        property::EndOfLine::Cr => EndOfLine::Cr,
    });
    config.insert_final_newline = values.newline.map(|property::FinalNewline::Value(v)| v);
    config
}

/// What the host crate tells. The formatter is kept from call to call, as an editor keeps it.
pub fn told(call: &SafeCall, most: Option<usize>, formatter: &mut Formatter) -> Told {
    let found = match call {
        SafeCall::Format {
            source, options, ..
        } => {
            let options = options_of(options);
            let text = match most {
                None => wirescript_format::format(source, &options),
                Some(bytes) => {
                    *formatter = std::mem::take(formatter).most(bytes);
                    let lent = formatter.format(source, &options);
                    lent.map(wirescript_format::Formatted::into_owned)
                }
            };
            text.map(|text| Told::Formatted(text.into()))
        }
        SafeCall::Kind {
            source,
            line,
            column,
        } => formatter
            .text_kind_at(source, *line, *column)
            .map(Told::Kind),
        SafeCall::Indent {
            options,
            tabs,
            size,
        } => options_of(options)
            .indent_with(*tabs, *size)
            .map(Told::Options),
        SafeCall::Config { options, values } => options_of(options)
            .with_editorconfig(config_of(*values))
            .map(Told::Options),
    };
    found.unwrap_or_else(|refusal| Told::Refused(refusal.number(), refusal.place()))
}
