//! A smaller check that still differs.

use crate::call::{Call, Size};
use crate::compare::{Buffers, Check, Place};
use crate::library::Library;
use crate::safe::SafeCall;
use wirescript_format::Options;

/// Makes a check that differs as small as it gets.
pub fn shrink(library: &dyn Library, check: Check) -> Check {
    let mut buffers = Buffers::default();
    smallest(check, &mut |check| buffers.check(library, check).is_some())
}

/// Makes a check of which something holds as small as it gets: the first smaller one of which it
/// holds still, again and again.
pub fn smallest(check: Check, holds: &mut dyn FnMut(&Check) -> bool) -> Check {
    let mut best = check;
    loop {
        let mut smaller = None;
        candidates(&best, &mut |check| {
            let taken = holds(&check);
            if taken {
                smaller = Some(check);
            }
            taken
        });
        match smaller {
            Some(check) => best = check,
            None => return best,
        }
    }
}

/// Tries sources with a part cut out, larger parts first, then with a character made
/// plain, until one is taken.
fn sources(source: &[u8], take: &mut dyn FnMut(Vec<u8>) -> bool) -> bool {
    // where a source is UTF-8 its parts stay so
    let cuts: Vec<usize> = match std::str::from_utf8(source) {
        Ok(text) => text
            .char_indices()
            .map(|(i, _)| i)
            .chain([text.len()])
            .collect(),
        Err(_) => (0..=source.len()).collect(),
    };
    let n = cuts.len() - 1;
    let mut size = n;
    while size > 0 {
        for start in (0..=n - size).step_by(size.div_ceil(2)) {
            let mut smaller = source.to_vec();
            smaller.drain(cuts[start]..cuts[start + size]);
            if take(smaller) {
                return true;
            }
        }
        size /= 2;
    }
    for plain in [b'a', b' '] {
        for pair in cuts.windows(2) {
            let old = &source[pair[0]..pair[1]];
            if old != b"a" && old != b" " && old != b"\n" {
                let mut plainer = source.to_vec();
                plainer.splice(pair[0]..pair[1], [plain]);
                if take(plainer) {
                    return true;
                }
            }
        }
    }
    false
}

/// Tries smaller checks until one is taken.
fn candidates(check: &Check, take: &mut dyn FnMut(Check) -> bool) -> bool {
    match check {
        Check::Kinds(source) => sources(source, &mut |s| take(Check::Kinds(s))),
        Check::Kind(place) => {
            let with = |change: &dyn Fn(&mut Place)| {
                let mut other = place.clone();
                change(&mut other);
                Check::Kind(other)
            };
            sources(&place.source, &mut |s| {
                take(with(&|p| p.source.clone_from(&s)))
            }) || (place.line > 0 && take(with(&|p| p.line -= 1)))
                || (place.column > 0 && take(with(&|p| p.column -= 1)))
        }
        Check::Format(call) => {
            sources(&call.source, &mut |source| {
                take(Check::Format(Call {
                    source,
                    ..call.clone()
                }))
            }) || PLAINER.iter().any(|change| {
                let mut other = call.clone();
                change(&mut other);
                other != *call && take(Check::Format(other))
            })
        }
        Check::Safe(call) => safe_candidates(call, &mut |c| take(Check::Safe(c))),
        Check::Indent { .. } | Check::Config { .. } | Check::Far { .. } => false,
    }
}

/// The same for a call of a safe function: a smaller source, then a smaller width.
fn safe_candidates(call: &SafeCall, take: &mut dyn FnMut(SafeCall) -> bool) -> bool {
    match call {
        SafeCall::Format {
            source,
            options,
            most,
        } => {
            let with = |source: Vec<u8>, width: Option<usize>| {
                let mut options = options.clone();
                options.rust.print_width = width;
                SafeCall::Format {
                    source,
                    options,
                    most: *most,
                }
            };
            let width = options.rust.print_width;
            sources(source, &mut |s| take(with(s, width)))
                || width.is_some_and(|w| w > 0 && take(with(source.clone(), Some(w / 2))))
        }
        SafeCall::Kind {
            source,
            line,
            column,
        } => sources(source, &mut |source| {
            take(SafeCall::Kind {
                source,
                line: *line,
                column: *column,
            })
        }),
        SafeCall::Indent { .. } | SafeCall::Config { .. } => false,
    }
}

const PLAINER: [fn(&mut Call); 12] = [
    |c| c.strengths = Options::BUILT_IN_STRENGTHS.into(),
    |c| c.output = Size::Needed(0),
    |c| c.scratch = Size::Needed(0),
    |c| c.final_newline = c.final_newline.min(1),
    |c| c.final_newline = c.final_newline.min(2),
    |c| c.line_ending = 0,
    |c| c.ruler_tab = 0,
    |c| c.ruler_tab /= 2,
    |c| c.indent.truncate(2),
    |c| c.width_set = 0,
    |c| c.width /= 2,
    |c| c.width = c.width.saturating_sub(1),
];
