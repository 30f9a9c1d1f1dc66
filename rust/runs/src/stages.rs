//! The stages of a differential run. A stage gives the check of each number; the same
//! seed and number give the same check.

use crate::call::{Call, Size};
use crate::compare::{Check, Place};
use crate::grammar;
use crate::random::Random;
use crate::safe::SafeCall;
use crate::sources::{self, ALPHABETS};
use upstream::{FormatOptions, LineEnding};
use wirescript_format::raw::Resolved;

type Make = Box<dyn Fn(u64) -> Check + Sync>;

pub struct Stage {
    pub name: String,
    /// How many checks there are; `None` for a stage without an end.
    pub count: Option<u64>,
    make: Make,
}

impl Stage {
    /// The check of a number, in whose options the Rust has every choice.
    pub fn beside_rust(&self, number: u64) -> Check {
        (self.make)(number)
    }

    /// The check of a number. A third of the texts of every stage never end in a line ending.
    pub fn check(&self, number: u64) -> Check {
        let mut check = self.beside_rust(number);
        if number % 3 == 2 {
            match &mut check {
                Check::Format(call) if call.final_newline < 2 => call.final_newline = 2,
                Check::Safe(
                    SafeCall::Format { options, .. }
                    | SafeCall::Indent { options, .. }
                    | SafeCall::Config { options, .. },
                ) => *options = options.clone().never(),
                _ => {}
            }
        }
        check
    }

    fn new(name: &str, count: Option<u64>, make: impl Fn(u64) -> Check + Sync + 'static) -> Self {
        Self {
            name: name.into(),
            count,
            make: Box::new(make),
        }
    }

    fn list(name: &str, checks: Vec<Check>) -> Self {
        let count = checks.len() as u64;
        Self::new(name, Some(count), move |n| checks[n as usize].clone())
    }
}

/// The stages whose sources have protected blocks, which the Rust doesn't have.
pub const BLOCKS: [&str; 2] = ["short blocks", "blocks"];

/// The stages whose calls have a ruler, which the Rust lacks.
pub const RULED: [&str; 3] = ["rulers", "ruled short sources", "ruled"];

/// The stages whose calls have strengths of their own, which the Rust lacks.
pub const TABLED: [&str; 2] = ["strengths", "pairs of strengths"];

/// The stage around the limits of length.
pub const LIMITS: &str = "limits";

/// The stage that takes longest for each check.
pub const LONG: &str = "long sources";

/// Every stage, the short ones first.
pub fn all(seed: u64) -> Vec<Stage> {
    let mut stages = vec![
        Stage::list("cases of the rules", cases()),
        Stage::list("safe cases", safe_cases()),
        Stage::list(LIMITS, limits()),
        Stage::list(LONG, long_sources()),
        Stage::list("indent_with", indents()),
        Stage::list("editorconfig", configs()),
        strength_pairs(),
        every("twelve", &sources::TWELVE, 6, &TWELVE_WIDTHS),
    ];
    for (name, alphabet) in &ALPHABETS[1..] {
        stages.push(every(name, alphabet, 5, &WIDTHS));
    }
    stages.push(every_kind(4));
    stages.push(Stage::list(RULED[0], rulers()));
    stages.push(every_ruled(5, 25));
    let random = move |salt: u64, n: u64| {
        let mut random = Random::new(seed.wrapping_mul(1000).wrapping_add(salt));
        Random::new(random.number() ^ n.wrapping_mul(0x2545_f491_4f6c_dd1d))
    };
    stages.push(Stage::new("short", None, move |n| {
        let mut r = random(1, n);
        let call = Call::new(sources::short(&mut r), &sources::options(&mut r));
        Check::Format(Call {
            output: sources::room(&mut r),
            ..call
        })
    }));
    stages.push(Stage::new("refusals", None, move |n| {
        Check::Format(sources::call(&mut random(2, n)))
    }));
    stages.push(Stage::new(RULED[2], None, move |n| {
        Check::Format(ruled(&mut random(7, n)))
    }));
    stages.push(Stage::new("grammar", None, move |n| {
        let mut r = random(3, n);
        let source = written(&mut r);
        Check::Format(Call {
            output: sources::room(&mut r),
            ..Call::new(source, &wide(&mut r))
        })
    }));
    stages.push(Stage::new("mutations", None, move |n| {
        let mut r = random(4, n);
        let source = written(&mut r);
        let source = grammar::mutate(&mut r, &source);
        Check::Format(Call {
            output: sources::room(&mut r),
            ..Call::new(source, &wide(&mut r))
        })
    }));
    stages.push(Stage::new("kinds", None, move |n| {
        let mut r = random(5, n);
        match r.below(4) {
            0 => Check::Kinds(sources::short(&mut r).into()),
            1 => Check::Kinds(sources::call(&mut r).source),
            _ => {
                let source = written(&mut r);
                let source = grammar::mutate(&mut r, &source);
                let line = r.below(source.matches('\n').count() + 2);
                let width = source
                    .split('\n')
                    .nth(line)
                    .map_or(0, |l| l.chars().count());
                Check::Kind(Place {
                    source: source.into(),
                    line: line as u64,
                    column: r.below(width + 2) as u64,
                    scratch: [0, 0, 0, -1, 1][r.below(5)],
                })
            }
        }
    }));
    stages.push(Stage::new(TABLED[0], None, move |n| {
        Check::Format(tabled(&mut random(8, n)))
    }));
    stages.push(Stage::new("safe", None, move |n| {
        Check::Safe(safe(&mut random(6, n)))
    }));
    stages.push(short_blocks(5));
    stages.push(Stage::new(BLOCKS[1], None, move |n| {
        Check::Format(blocks(&mut random(9, n)))
    }));
    stages
}

/// A call with strengths of its own.
fn tabled(r: &mut Random) -> Call {
    let source = match r.below(3) {
        0 => sources::short(r),
        1 => written(r),
        _ => sources::expression(r),
    };
    Call {
        strengths: sources::strengths(r),
        output: sources::room(r),
        ..Call::new(unmarked(&source), &wide(r))
    }
}

/// A call whose source has lone markers before lines that open brackets.
fn blocks(r: &mut Random) -> Call {
    let mut source = sources::tokens(r, 6);
    for _ in 0..=r.below(3) {
        source.push_str("\n// fmt-ignore\n");
        source.push_str(["(", "{\n", " [a", "{ {"][r.below(4)]);
        source.push_str(&sources::tokens(r, 12));
    }
    Call {
        output: sources::room(r),
        ..Call::new(source, &sources::options(r))
    }
}

/// A call of a safe function; most of them format.
fn safe(r: &mut Random) -> SafeCall {
    match r.below(12) {
        0 => SafeCall::Indent {
            options: loose(r).into(),
            tabs: r.one_in(2),
            size: SIZES[r.below(SIZES.len())],
        },
        1 => SafeCall::Config {
            options: loose(r).into(),
            values: sources::values(r),
        },
        2 => SafeCall::Kind {
            source: sources::call(r).source,
            line: r.below(4) as u64,
            column: r.below(12) as u64,
        },
        kind => {
            let (source, options) = match kind {
                3 => (sources::call(r).source, loose(r)),
                4 | 5 => (sources::short(r).into(), sources::options(r)),
                6 => (written(r).into(), wide(r)),
                7 => {
                    let source = written(r);
                    (grammar::mutate(r, &source).into(), wide(r))
                }
                _ => (sources::imports(r).into(), sources::options(r)),
            };
            SafeCall::Format {
                source,
                options: options.into(),
                most: (!r.one_in(4)).then(|| sources::room(r)),
            }
        }
    }
}

const SIZES: [u64; 8] = [0, 1, 2, 8, 63, 64, 65, u64::MAX];

/// Options that may be refused.
fn loose(r: &mut Random) -> FormatOptions {
    let mut options = sources::options(r);
    match r.below(8) {
        0 => options.indent = " ".repeat(64),
        1 => options.indent = "\t".repeat(65),
        2 => options.indent = " q".into(),
        3 => options.indent = "\u{a0}".into(),
        _ => {}
    }
    options
}

fn written(r: &mut Random) -> String {
    let length = [50, 200, 1000, 4000][r.below(4)];
    let noise = [0, 4, 10, 30][r.below(4)];
    grammar::source(r, length, noise)
}

/// Options with widths that suit longer lines.
fn wide(r: &mut Random) -> FormatOptions {
    let print_width = match r.below(6) {
        0 => None,
        1 => Some(100),
        2 => Some(r.below(20)),
        _ => Some(20 + r.below(80)),
    };
    FormatOptions {
        print_width,
        ..sources::options(r)
    }
}

const WIDTHS: [Option<usize>; 3] = [Some(0), Some(4), None];
const TWELVE_WIDTHS: [Option<usize>; 5] = [Some(0), Some(1), Some(3), Some(4), None];

/// Every source over an alphabet up to a length, at some widths. The order is scattered,
/// so that a run cut short has some of each kind.
fn every(
    name: &str,
    alphabet: &'static [&'static str],
    most: u32,
    widths: &'static [Option<usize>],
) -> Stage {
    let sources: u64 = (0..=most)
        .map(|length| sources::count(alphabet, length))
        .sum();
    let count = sources * widths.len() as u64;
    Stage::new(name, Some(count), move |n| {
        let n = scatter(n, count);
        let source = numbered(alphabet, n / widths.len() as u64);
        let mut r = Random::new(n);
        let options = FormatOptions {
            print_width: widths[(n % widths.len() as u64) as usize],
            ..sources::options(&mut r)
        };
        Check::Format(Call {
            output: sources::room(&mut r),
            ..Call::new(source, &options)
        })
    })
}

/// Every ruler and some beyond the last, alone and with other refusals.
fn rulers() -> Vec<Check> {
    let mut checks = Vec::new();
    for ruler in (0..=17).chain([255, 256, 272, 1 << 32, (1 << 32) + 4, u64::MAX]) {
        for width in 0..=24 {
            for source in [
                "abcd\t+ e",
                "{\nabc\t+ d\n}",
                "import {a\tb, c, d}",
                "\"\t\" + b",
            ] {
                for indent in sources::TAB_INDENTS {
                    checks.push(format_check(source, |c| {
                        (c.indent, c.width, c.ruler_tab) = (indent.into(), width, ruler);
                    }));
                }
            }
        }
        let at = |change: fn(&mut Call)| {
            format_check(&b"a\t+ b\xff"[..], move |c| {
                c.ruler_tab = ruler;
                change(c);
            })
        };
        checks.push(at(|_| {}));
        checks.push(at(|c| c.line_ending = 3));
        checks.push(at(|c| c.indent = b"q".into()));
        checks.push(at(|c| c.scratch = Size::Needed(-1)));
        checks.push(at(|c| c.output = Size::Fixed(0)));
        checks.push(at(|c| c.source = vec![b'\t'; MIB + 1]));
    }
    checks
}

/// Every source over the letters that matter to tabs, at every ruler from 1 to 16 and every small
/// width.
fn every_ruled(most: u32, widths: u64) -> Stage {
    let sources: u64 = (0..=most)
        .map(|length| sources::count(&sources::TABS, length))
        .sum();
    let count = sources * 16 * widths;
    Stage::new(RULED[1], Some(count), move |n| {
        let n = scatter(n, count);
        let mut r = Random::new(n);
        let source = numbered(&sources::TABS, n / (16 * widths));
        let mut call = Call::new(source, &sources::options(&mut r));
        call.indent = r.pick(&sources::TAB_INDENTS).into();
        (call.width_set, call.width) = (1, n % widths);
        call.ruler_tab = 1 + n / widths % 16;
        call.output = sources::room(&mut r);
        Check::Format(call)
    })
}

/// A call at a ruler, on lines with tabs; a ruler over 16 is refused.
fn ruled(r: &mut Random) -> Call {
    let source = match r.below(8) {
        0 => written(r),
        _ => sources::tabbed(r),
    };
    let mut call = Call::new(unmarked(&source), &sources::options(r));
    call.indent = match r.below(12) {
        0 => b"\t".repeat(1 + r.below(64)),
        1 => b" \t ".repeat(1 + r.below(21)),
        _ => r.pick(&sources::TAB_INDENTS).into(),
    };
    (call.width_set, call.width) = (1, r.below(60) as u64);
    call.ruler_tab = match r.below(24) {
        0 => 17,
        1 => 16 + r.number() / 2,
        _ => r.below(17) as u64,
    };
    call.output = sources::room(r);
    if r.one_in(16) {
        call.scratch = Size::Needed(-1);
    }
    call
}

/// A lone marker, and behind it every text over an alphabet up to a length.
fn short_blocks(most: u32) -> Stage {
    let alphabet = &sources::BLOCKS;
    let count = (0..=most)
        .map(|length| sources::count(alphabet, length))
        .sum();
    Stage::new(BLOCKS[0], Some(count), move |n| {
        let n = scatter(n, count);
        let source = format!("// fmt-ignore\n{}", numbered(alphabet, n));
        let mut r = Random::new(n);
        Check::Format(Call {
            output: sources::room(&mut r),
            ..Call::new(source, &sources::options(&mut r))
        })
    })
}

/// The source with no marker, so that it has no protected block, which the models of strengths and
/// rulers don't have.
fn unmarked(source: &str) -> String {
    source.replace("fmt-ignore", "fmt_ignore")
}

/// Two operators in a line, each with every strength.
fn strength_pairs() -> Stage {
    let operators = &sources::OPERATORS;
    let each = operators.len() as u64;
    Stage::new(TABLED[1], Some(each * each * 256), move |n| {
        let n = scatter(n, each * each * 256);
        let (first, second) = ((n / 256 / each) as usize, (n / 256 % each) as usize);
        let mut fields = [1; 21];
        fields[first] = (n / 16 % 16) as u8;
        fields[second] = (n % 16) as u8;
        let source = format!("a {} b {} c", operators[first], operators[second]);
        let options = FormatOptions {
            print_width: Some(n as usize % 7),
            ..FormatOptions::default()
        };
        Check::Format(Call {
            strengths: sources::table(&fields).into(),
            ..Call::new(source, &options)
        })
    })
}

/// Every place of every short source of the two alphabets that matter to text kinds.
fn every_kind(most: u32) -> Stage {
    let chosen: Vec<&[&str]> = ALPHABETS
        .iter()
        .filter(|a| ["twelve", "comments", "prefabs", "interpolation", "endings"].contains(&a.0))
        .map(|a| a.1)
        .collect();
    let sizes: Vec<u64> = chosen
        .iter()
        .map(|a| (0..=most).map(|length| sources::count(a, length)).sum())
        .collect();
    let count = sizes.iter().sum();
    Stage::new("kinds of short sources", Some(count), move |n| {
        let mut n = scatter(n, count);
        let mut which = 0;
        while n >= sizes[which] {
            n -= sizes[which];
            which += 1;
        }
        Check::Kinds(numbered(chosen[which], n).into())
    })
}

/// The source with a number, shorter ones first.
fn numbered(alphabet: &[&str], mut n: u64) -> String {
    let mut length = 0;
    while n >= sources::count(alphabet, length) {
        n -= sources::count(alphabet, length);
        length += 1;
    }
    sources::nth(alphabet, length, n)
}

/// A permutation of the numbers under `count`.
fn scatter(n: u64, count: u64) -> u64 {
    fn gcd(a: u64, b: u64) -> u64 {
        if b == 0 { a } else { gcd(b, a % b) }
    }
    let mut step = 0x9e37_79b1 % count.max(1);
    while gcd(step, count) != 1 {
        step += 1;
    }
    ((u128::from(n) + 1) * u128::from(step) % u128::from(count)) as u64
}

fn format_check(source: impl Into<Vec<u8>>, change: impl Fn(&mut Call)) -> Check {
    let mut call = Call::new(source, &FormatOptions::default());
    change(&mut call);
    Check::Format(call)
}

/// The cases that the rules name.
fn cases() -> Vec<Check> {
    let plain = |s: &str| format_check(s, |_| {});
    let at = |s: &str, width: u64| format_check(s, move |c| c.width = width);
    vec![
        plain(""),
        format_check("", |c| c.final_newline = 0),
        plain("f(a ,b)"),
        plain("addRole(next, {\nx\n})"),
        plain("}\nelse {"),
        plain("in a\n\nin b"),
        plain("in a\n\nout b"),
        plain("\"a  ,b\"  ,c"),
        at("a + b*c", 7),
        at("a + b*c", 6),
        at("import {a,,b} from \"l\"", 10),
        plain("a\r\nb\nc"),
        plain("// }\nelse"),
        plain("\\ ,a"),
        at("\"😀\" + b", 7),
        at("\"😀\" + b", 8),
        format_check(vec![0xff], |_| {}),
        format_check("a", |c| c.indent = b"q".into()),
        // a text that gets shorter while it is made
        plain(&format!("// fmt-ignore\n}}{}\nelse", " ".repeat(1000))),
        format_check("a\n\n\n\n", |c| c.output = Size::Fixed(2)),
        // past the end of the output
        format_check("(\n".repeat(500), |c| c.output = Size::Fixed(10)),
        format_check("(\n".repeat(500), |c| {
            c.indent = vec![b' '; 64];
            c.output = Size::Fixed(100_000);
        }),
        Check::Far {
            lines: 40_000,
            indent: 64,
            output: 1000,
        },
    ]
}

/// Through the safe functions: imports whose two counts differ, kinds, setting steps, the cases of the
/// rules, and each refusal that these functions can tell. What is quick comes first.
fn safe_cases() -> Vec<Check> {
    [
        safe_imports(),
        safe_kinds(),
        safe_indents(),
        safe_rules(),
        safe_refusals(),
    ]
    .concat()
}

/// A source through the function `format`, and through a formatter whose texts have at most about as many bytes.
fn safe_formats(source: &[u8], options: &FormatOptions) -> Vec<Check> {
    let sizes = [0, 1, -1, 4000].map(|more| Some(Size::Needed(more)));
    [None]
        .into_iter()
        .chain(sizes)
        .map(|most| {
            Check::Safe(SafeCall::Format {
                source: source.into(),
                options: options.clone().into(),
                most,
            })
        })
        .collect()
}

fn safe_imports() -> Vec<Check> {
    let narrow = FormatOptions {
        print_width: Some(10),
        ..FormatOptions::default()
    };
    let lists = [
        &["a,b"][..],
        &["a,,,b"],
        &[",", "a"],
        &["a,b", ",a,b", "c,d"],
        &["a,,b,,c,,", ",,,d"],
    ];
    let import = |names: &&str| format!("import {{{names}}} from \"l\"\n");
    lists
        .iter()
        .map(|names| names.iter().map(import).collect::<String>())
        .flat_map(|source| safe_formats(source.as_bytes(), &narrow))
        .collect()
}

fn safe_kinds() -> Vec<Check> {
    let mut checks = Vec::new();
    for source in [&b"a \"s\" // c"[..], b"\xff", &vec![b'a'; MIB + 1]] {
        for column in [0, 3, 8, u64::MAX] {
            checks.push(Check::Safe(SafeCall::Kind {
                source: source.into(),
                line: 0,
                column,
            }));
        }
    }
    checks
}

fn safe_indents() -> Vec<Check> {
    let mut checks = Vec::new();
    for options in starting_options() {
        for (tabs, size) in [(true, 8), (false, 3), (true, 65), (false, 64), (false, 65)] {
            checks.push(Check::Safe(SafeCall::Indent {
                options: options.clone().into(),
                tabs,
                size,
            }));
        }
    }
    checks
}

fn safe_rules() -> Vec<Check> {
    let mut checks = Vec::new();
    for check in cases() {
        if let Check::Format(call) = check
            && let Some(options) = call.options()
        {
            checks.extend(safe_formats(&call.source, &options.rust));
        }
    }
    checks
}

fn safe_refusals() -> Vec<Check> {
    let mut checks = Vec::new();
    for indent in ["q", "\u{a0}", "\0", &" ".repeat(64), &"\t".repeat(65)] {
        let options = FormatOptions {
            indent: indent.into(),
            ..FormatOptions::default()
        };
        checks.extend(safe_formats(b"{\na", &options));
        checks.extend(safe_formats(b"\xff", &options));
    }
    let plain = FormatOptions::default();
    for source in [
        &b"a\xff"[..],
        "(\n".repeat(500).as_bytes(),
        &vec![b'a'; MIB],
        &vec![b'a'; MIB + 1],
    ] {
        checks.extend(safe_formats(source, &plain));
    }
    checks
}

const MIB: usize = 1_048_576;

/// Sizes at each limit and beside it, and refusals that meet.
fn limits() -> Vec<Check> {
    let mut checks = Vec::new();
    for indent in [
        vec![b' '; 64],
        vec![b'\t'; 65],
        vec![b' '; 65],
        b" \t ".into(),
        b"".into(),
        b"\n".into(),
        vec![0],
        vec![0xa0],
    ] {
        for source in [&b"{\na"[..], b"", b"\xff"] {
            for scratch in [Size::Needed(0), Size::Needed(-1), Size::Fixed(0)] {
                for output in [Size::Needed(0), Size::Needed(-1), Size::Fixed(0)] {
                    let indent = indent.clone();
                    checks.push(format_check(source, move |c| {
                        c.indent.clone_from(&indent);
                        c.scratch = scratch;
                        c.output = output;
                    }));
                }
            }
        }
    }
    for number in [
        0,
        1,
        2,
        3,
        4,
        255,
        256,
        257,
        1 << 32,
        (1 << 32) + 1,
        u64::MAX,
    ] {
        checks.push(format_check("a\r\n", |c| c.width_set = number));
        checks.push(format_check("a\r\n", |c| c.line_ending = number));
        checks.push(format_check("a", |c| c.final_newline = number));
        checks.push(format_check("a + b", |c| c.width = number));
        checks.push(format_check("a + b", |c| {
            (c.width_set, c.width) = (0, number);
        }));
    }
    for scratch in [0, 1, 255, 256, 257, 263, 264, 265, 1000, 100_000] {
        checks.push(format_check("a", |c| c.scratch = Size::Fixed(scratch)));
    }
    for (line, column) in [
        (u64::MAX, 0),
        (0, u64::MAX),
        (u64::MAX, u64::MAX),
        (1 << 32, 0),
        (0, 1 << 32),
        (0, 1),
        (1, 0),
    ] {
        checks.push(Check::Kind(Place {
            source: b"// a\n// b".into(),
            line,
            column,
            scratch: 0,
        }));
    }
    checks.extend(ill_formed());
    checks
}

/// Sources at the limit and one byte over it.
fn long_sources() -> Vec<Check> {
    let mut checks = Vec::new();
    for (length, fill) in [
        (MIB, "a"),
        (MIB, "a\n"),
        (MIB, "é"),
        (MIB, ", "),
        (MIB + 1, "a"),
        (MIB + 1, "é,\n"),
    ] {
        let mut source = fill.repeat(length / fill.len() + 1).into_bytes();
        source.truncate(length);
        for scratch in [0, -1] {
            let source = source.clone();
            checks.push(format_check(source, move |c| {
                c.scratch = Size::Needed(scratch);
            }));
        }
        checks.push(format_check(source.clone(), |c| c.indent = b"q".into()));
        checks.push(format_check(source.clone(), |c| {
            c.output = Size::Needed(-1);
        }));
        checks.push(Check::Kind(Place {
            source,
            line: 0,
            column: 3,
            scratch: 0,
        }));
    }
    checks
}

/// Every sequence of up to three bytes out of those at which UTF-8 changes.
fn ill_formed() -> Vec<Check> {
    let edges = [
        0x00, 0x61, 0x7f, 0x80, 0x8f, 0x90, 0x9f, 0xa0, 0xbf, 0xc0, 0xc1, 0xc2, 0xdf, 0xe0, 0xe1,
        0xec, 0xed, 0xee, 0xef, 0xf0, 0xf1, 0xf3, 0xf4, 0xf5, 0xff,
    ];
    let mut checks = Vec::new();
    for a in edges {
        checks.push(vec![a]);
        for b in edges {
            checks.push(vec![a, b]);
            for c in edges {
                checks.push(vec![a, b, c]);
            }
        }
    }
    for lead in [0xf0, 0xf1, 0xf3, 0xf4] {
        for second in [0x80, 0x8f, 0x90, 0xbf] {
            for last in [[0x80, 0x80], [0xbf, 0xbf], [0x80, 0x7f], [0xc0, 0x80]] {
                checks.push(vec![b'a', lead, second, last[0], last[1], b'b']);
            }
        }
    }
    checks
        .into_iter()
        .map(|source| format_check(source, |_| {}))
        .collect()
}

fn starting_options() -> Vec<FormatOptions> {
    let mut found = Vec::new();
    for indent in ["", " ", "  ", "\t", "\t\t", " \t", "\t ", "     "] {
        for (print_width, end_of_line, insert_final_newline) in [
            (Some(100), None, true),
            (None, Some(LineEnding::Lf), false),
            (Some(0), Some(LineEnding::Crlf), true),
        ] {
            found.push(FormatOptions {
                indent: indent.into(),
                print_width,
                end_of_line,
                insert_final_newline,
            });
        }
    }
    found.push(FormatOptions {
        indent: " ".repeat(64),
        ..FormatOptions::default()
    });
    found
}

/// Calls whose options a step changes: allowed ones, and some that are not.
fn starting_calls() -> Vec<Call> {
    let allowed = starting_options();
    let mut calls: Vec<Call> = allowed.iter().map(|o| Call::new("", o)).collect();
    let plain = Call::new("", &FormatOptions::default());
    let mut add = |change: fn(&mut Call)| {
        let mut call = plain.clone();
        change(&mut call);
        calls.push(call);
    };
    add(|c| c.indent = vec![b' '; 65]);
    add(|c| c.indent = b"q".into());
    add(|c| c.width_set = 2);
    add(|c| (c.width_set, c.width) = (0, 7));
    add(|c| c.width = u64::MAX);
    add(|c| c.line_ending = 3);
    add(|c| c.final_newline = 2);
    add(|c| c.final_newline = 3);
    for size in [
        Size::Needed(-1),
        Size::Needed(7),
        Size::Fixed(0),
        Size::Fixed(64),
    ] {
        calls.push(Call {
            output: size,
            ..plain.clone()
        });
    }
    calls
}

fn indents() -> Vec<Check> {
    let mut checks = Vec::new();
    for call in starting_calls() {
        for tabs in [0, 1, 2, u64::MAX] {
            for size in (0..=66).chain([100, 255, 256, 1 << 32, u64::MAX]) {
                let call = call.clone();
                checks.push(Check::Indent { call, tabs, size });
            }
        }
    }
    checks
}

/// Every combination of styles and sizes, with some of the other values.
fn configs() -> Vec<Check> {
    let sizes = [0, 1, 4, 63, 64, 65, 256, u64::MAX];
    let pairs = |first: u64| -> Vec<(u64, u64)> {
        let unset = (0..first).map(|kind| (kind, 9));
        unset
            .chain(sizes.map(|n| (first, n)))
            .chain([(first + 1, 1)])
            .collect()
    };
    let others = [
        (0, 0, 0, 0),
        (1, 5, 1, 1),
        (2, 0, 2, 2),
        (2, u64::MAX, 3, 0),
        (3, 1, 0, 0),
        (0, 1, 4, 0),
        (0, 1, 0, 3),
    ];
    let mut checks = Vec::new();
    for call in starting_calls() {
        for style in 0..=3 {
            for (size_kind, size) in pairs(2) {
                for (tab_set, tab) in pairs(1) {
                    let (max_kind, max, ending, newline) = others[checks.len() % others.len()];
                    let values = Resolved {
                        style,
                        size_kind,
                        size,
                        tab_set,
                        tab,
                        max_kind,
                        max,
                        ending,
                        newline,
                    };
                    checks.push(Check::Config {
                        call: call.clone(),
                        values,
                    });
                }
            }
        }
    }
    checks
}
