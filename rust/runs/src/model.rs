//! What each call must come to: the Rust's answers, and the refusals that the Rust
//! doesn't have.

use crate::call::{Call, Chosen, Outcome, Settled, kind_scratch_needed, scratch_needed};
use ec4rs::Properties;
use ec4rs::property::{EndOfLine, FinalNewline, IndentSize, IndentStyle, MaxLineLen, TabWidth};
use upstream::TextKind;
use wirescript_format::Options;
use wirescript_format::raw::{Answer, Kind, Resolved, Settings};

const MAX_SOURCE: usize = 1_048_576;

/// The strengths of a table, and its last four bits: it is one number of 88 bits.
fn fields(table: &[u8; 11]) -> ([u8; 21], u8) {
    let number = table.iter().fold(0, |n: u128, b| n << 8 | u128::from(*b));
    let field = |k: usize| (number >> (84 - 4 * k) & 15) as u8;
    (std::array::from_fn(field), field(21))
}

/// The text and the counts of a call to which none of refusals 12, 13, 1, 2, 11, 3 and 4 applies; else the
/// refusal's number and place.
pub fn text_of(call: &Call) -> Result<upstream::Counted, (u64, u64)> {
    let Ok(table) = <[u8; 11]>::try_from(&call.strengths[..]) else {
        return Err((12, 0));
    };
    let (strengths, rest) = fields(&table);
    if rest != 0 {
        return Err((13, 0));
    }
    if call.source.len() > MAX_SOURCE {
        return Err((1, MAX_SOURCE as u64));
    }
    let Some(options) = call.options() else {
        return Err((2, 0));
    };
    if call.ruler_tab > 16 {
        return Err((11, 0));
    }
    let needed = scratch_needed(&call.source);
    if call.scratch_length() < needed {
        return Err((3, needed as u64));
    }
    match std::str::from_utf8(&call.source) {
        Ok(source) if table == Options::BUILT_IN_STRENGTHS => Ok(options.format(source)),
        Ok(source) => {
            let step = call.ruler_tab as usize;
            let counted = upstream::format_by(source, &options.rust, step, Some(strengths));
            Ok(options.ended(source, counted))
        }
        Err(error) => Err((4, error.valid_up_to() as u64)),
    }
}

fn refused((number, place): (u64, u64)) -> Outcome {
    let answer = Answer {
        refusal: number,
        place,
        ..Answer::default()
    };
    Outcome {
        answer,
        text: Vec::new(),
        opened: Vec::new(),
    }
}

/// The outcome where the output has `room`.
pub fn outcome(found: &Result<upstream::Counted, (u64, u64)>, room: usize) -> Outcome {
    match found {
        Err(refusal) => refused(*refusal),
        Ok(counted) if counted.text.len() > room => refused((5, counted.text.len() as u64)),
        Ok(counted) => Outcome {
            answer: Answer {
                refusal: 0,
                place: 0,
                length: counted.text.len() as u64,
                imports_split: counted.imports_split as u64,
                blank_names: counted.blank_names as u64,
                open_brackets: counted.open_lines.len() as u64,
            },
            text: counted.text.clone().into_bytes(),
            opened: counted.open_lines.clone(),
        },
    }
}

pub fn text_kind_at(source: &[u8], line: u64, column: u64, scratch: usize) -> Kind {
    let refuse = |refusal, place| Kind {
        refusal,
        place,
        kind: 0,
    };
    if source.len() > MAX_SOURCE {
        return refuse(1, MAX_SOURCE as u64);
    }
    let needed = kind_scratch_needed(source);
    if scratch < needed {
        return refuse(3, needed as u64);
    }
    match std::str::from_utf8(source) {
        Err(error) => refuse(4, error.valid_up_to() as u64),
        Ok(source) => Kind {
            refusal: 0,
            place: 0,
            kind: match upstream::text_kind_at(source, line as usize, column as usize) {
                TextKind::Code => 0,
                TextKind::Str => 1,
                TextKind::Comment => 2,
            },
        },
    }
}

/// The text's length, 0 where there is none.
pub fn length(found: &Result<upstream::Counted, (u64, u64)>) -> usize {
    found.as_ref().map_or(0, |counted| counted.text.len())
}

/// The options that `indent_with` gives; `None` is refusal 2. A call's options are what is
/// changed.
pub fn indent_with(call: &Call, tabs: u64, size: u64) -> Option<Chosen> {
    let options = call.options()?;
    (tabs <= 1 && size <= 64).then(|| Chosen {
        rust: options.rust.indent_with(tabs == 1, size as usize),
        ..options
    })
}

/// The options that the `.editorconfig` step gives; `None` is refusal 2.
pub fn editorconfig(call: &Call, values: Resolved) -> Option<Chosen> {
    configured(call.options()?, properties(values)?)
}

/// The same of options and values that are allowed. `insert_final_newline = false` gives never, as the
/// specification says; the Rust keeps the source's own ending.
pub fn configured(options: Chosen, values: Properties) -> Option<Chosen> {
    // the size that the step resolves to
    let size = match (values.size, values.tab) {
        (Some(IndentSize::Value(n)), _) | (_, Some(TabWidth::Value(n))) => n,
        _ => 0,
    };
    if size > 64 {
        return None;
    }
    let set = Chosen {
        rust: upstream::with_resolved(options.rust, values),
        never: false,
        ruler: options.ruler,
    };
    Some(match values.newline {
        Some(FinalNewline::Value(false)) => set.never(),
        None if options.never => set.never(),
        _ => set,
    })
}

/// What a setting step leaves where the output has `room`.
pub fn settled(options: Option<&Chosen>, room: usize) -> Settled {
    let refused = |refusal, place| Settled {
        answer: Settings {
            refusal,
            place: place as u64,
            ..Settings::default()
        },
        indent: Vec::new(),
    };
    let Some(options) = options else {
        return refused(2, 0);
    };
    let length = options.rust.indent.len();
    if length > room {
        return refused(5, length);
    }
    let s = options.choices();
    Settled {
        answer: Settings {
            refusal: 0,
            place: 0,
            indent_len: length as u64,
            width_set: s.width_set,
            width: s.width,
            line_ending: s.line_ending,
            final_newline: s.final_newline,
        },
        indent: s.indent.into(),
    }
}

/// The values that the numbers name, if each names one.
fn properties(r: Resolved) -> Option<Properties> {
    Some(Properties {
        style: match r.style {
            0 => None,
            1 => Some(IndentStyle::Tabs),
            2 => Some(IndentStyle::Spaces),
            _ => return None,
        },
        size: match r.size_kind {
            0 => None,
            1 => Some(IndentSize::UseTabWidth),
            2 => Some(IndentSize::Value(r.size as usize)),
            _ => return None,
        },
        tab: match r.tab_set {
            0 => None,
            1 => Some(TabWidth::Value(r.tab as usize)),
            _ => return None,
        },
        max: match r.max_kind {
            0 => None,
            1 => Some(MaxLineLen::Off),
            2 => Some(MaxLineLen::Value(r.max as usize)),
            _ => return None,
        },
        ending: match r.ending {
            0 => None,
            1 => Some(EndOfLine::Lf),
            2 => Some(EndOfLine::CrLf),
            3 => Some(EndOfLine::Cr),
            _ => return None,
        },
        newline: match r.newline {
            0 => None,
            n @ (1 | 2) => Some(FinalNewline::Value(n == 2)),
            _ => return None,
        },
    })
}
