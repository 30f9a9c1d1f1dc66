//! `wirescript_is_formatted` beside the Rust: yes where its text is the source, and refusals; the lines read beside a
//! model written from the request.
//!
//!     check [CALLS]
//!
//! CALLS calls of each stage of `diff` that formats (by default 2,000). Each is asked as it is and with both fixed
//! endings, and so are the Rust's text and that text with one change. Those of the safe stages are asked through the
//! host crate's `Formatter::check`.

use runs::call::{Call, Chosen, Size};
use runs::compare::Check;
use runs::lent::Lent;
use runs::random::Random;
use runs::safe::{SafeCall, options_of};
use runs::{argument, model, stages};
use upstream::{FormatOptions, LineEnding};
use wirescript_format::Formatter;
use wirescript_format::raw::{self, CheckAnswer};

/// How long a source may be for the model of the lines read that formats every beginning of it.
const MODELLED: usize = 2_000;

/// How long the Rust's text may be to be asked about.
const ASKED: usize = 1 << 20;

/// The settled text of a text so far: all lines before the last one that holds more than white space.
fn settled(text: &str) -> &str {
    let holding = text.trim_end();
    &text[..holding.rfind('\n').map_or(0, |lf| lf + 1)]
}

/// Whether the settled text after so many lines is a beginning of the source.
fn begins(call: &Call, source: &str, lines: usize) -> bool {
    let Some(last) = lines.checked_sub(1) else {
        return true;
    };
    let end = source.match_indices('\n').nth(last);
    let end = end.map_or(source.len(), |(lf, _)| lf);
    let so_far = Call {
        source: source[..end].into(),
        // an ending after the last line, so that each line has one
        final_newline: 1,
        scratch: Size::Needed(0),
        ..call.clone()
    };
    let text = model::text_of(&so_far).expect("a beginning is accepted");
    source.starts_with(settled(&text.text))
}

/// Whether so many lines are read: up to the first after which the settled text is no beginning of the source, or all.
/// A settled text is a beginning of every later one, so of a long source the last two decide.
fn reads(call: &Call, source: &str, read: usize) -> bool {
    let lines = source.split('\n').count();
    if source.len() <= MODELLED {
        let stops = (1..=lines).find(|&line| !begins(call, source, line));
        return read == stops.unwrap_or(lines);
    }
    let stops = read == lines || !begins(call, source, read);
    (1..=lines).contains(&read) && begins(call, source, read - 1) && stops
}

/// What the request says, whatever lines are read.
fn must(call: &Call) -> CheckAnswer {
    let found = model::text_of(call);
    let kept = call.line_ending == 0 && !matches!(found, Err((1 | 12 | 13, _)));
    let (refusal, place) = match found {
        _ if kept => (2, 0),
        Err(refused) => refused,
        Ok(counted) => {
            return CheckAnswer {
                formatted: u64::from(counted.text.as_bytes() == call.source),
                ..CheckAnswer::default()
            };
        }
    };
    CheckAnswer {
        refusal,
        place,
        ..CheckAnswer::default()
    }
}

#[derive(Default)]
struct Told {
    yes: u64,
    no: u64,
    early: u64,
    refused: u64,
    formatter: Formatter,
}

impl Told {
    /// Compares an answer, and counts it.
    fn judge(&mut self, call: &Call, answer: CheckAnswer) {
        let shown = || format!("{:?} {call:?}", String::from_utf8_lossy(&call.source));
        let must = CheckAnswer {
            lines_read: answer.lines_read,
            ..must(call)
        };
        assert_eq!(answer, must, "{}", shown());
        if answer.refusal > 0 {
            assert_eq!(answer.lines_read, 0, "{}", shown());
            self.refused += 1;
            return;
        }
        let source = std::str::from_utf8(&call.source).expect("accepted");
        let read = answer.lines_read as usize;
        let all = read == source.split('\n').count();
        assert!(reads(call, source, read), "{}", shown());
        assert!(all || answer.formatted == 0, "{}", shown());
        let counted = match (answer.formatted, all) {
            (1, _) => &mut self.yes,
            (_, true) => &mut self.no,
            _ => &mut self.early,
        };
        *counted += 1;
    }

    fn compare(&mut self, call: &Call) {
        let mut scratch = Lent::new(call.scratch_length());
        let answer = raw::is_formatted(&call.source, call.choices(), scratch.lend());
        assert!(scratch.holds(&[]), "{call:?}");
        self.judge(call, answer);
    }

    /// The call as it is and with both fixed endings, and the same of the Rust's text and of that text changed.
    fn all(&mut self, call: &Call, random: &mut Random) {
        self.compare(call);
        for line_ending in [1, 2] {
            let mut call = Call {
                line_ending,
                ..call.clone()
            };
            self.compare(&call);
            let Ok(counted) = model::text_of(&call) else {
                continue;
            };
            if counted.text.len() > ASKED {
                continue;
            }
            call.scratch = Size::Needed(0);
            call.source = counted.text.into_bytes();
            self.compare(&call);
            let place = random.below(call.source.len() + 1);
            match call.source.get(place) {
                Some(b' ' | b'\n' | b'\t') if random.one_in(2) => {
                    call.source.remove(place);
                }
                _ => call.source.insert(place, b' '),
            }
            self.compare(&call);
        }
    }

    /// The same source through the host crate, with each choice of an ending.
    fn by_host(&mut self, source: &[u8], chosen: &Chosen) {
        for end_of_line in [None, Some(LineEnding::Lf), Some(LineEnding::Crlf)] {
            let rust = FormatOptions {
                end_of_line,
                ..chosen.rust.clone()
            };
            let chosen = Chosen {
                rust,
                ..chosen.clone()
            };
            let told = self.formatter.check(source, &options_of(&chosen));
            let answer = match told {
                Ok(check) => CheckAnswer {
                    formatted: u64::from(check.formatted),
                    lines_read: check.lines_read,
                    ..CheckAnswer::default()
                },
                Err(refusal) => CheckAnswer {
                    refusal: refusal.number(),
                    place: refusal.place(),
                    ..CheckAnswer::default()
                },
            };
            self.judge(&Call::chosen(source, &chosen), answer);
        }
    }
}

fn main() {
    let most = argument(1, 2_000);
    let mut told = Told::default();
    let mut random = Random::new(19);
    for stage in stages::all(19) {
        for number in 0..stage.count.unwrap_or(most).min(most) {
            match stage.check(number) {
                Check::Format(call) => told.all(&call, &mut random),
                Check::Safe(SafeCall::Format {
                    source, options, ..
                }) => {
                    told.by_host(&source, &options);
                }
                _ => {}
            }
        }
    }
    let Told {
        yes,
        no,
        early,
        refused,
        ..
    } = told;
    assert!(
        yes.min(no).min(early).min(refused) > 0,
        "each kind of answer comes"
    );
    println!(
        "{yes} yes, {no} no when all lines are read, {early} no before that, {refused} refused: all agree"
    );
}
