//! The differential run: the proved library beside the Rust.
//!
//!     diff [--seconds N] [--sources N] [--seed N] [--threads N] [--stage NAME] [--standin]
//!
//! Without a limit it is the full run, of some minutes: every stage with an end whole, the others
//! up to a number of checks. `--seconds` is for all stages, `--sources` for each; the first batch of
//! a stage is made whatever the time. `--standin` puts the Rust in the library's place. The first
//! difference is made small and printed, with status 1; a stage that made no check gives status 1 too.
//! In each text without a print width every closed string of the source and every line within a closed
//! prefab is looked for (`runs::quoted`).

use runs::compare::{Buffers, Check};
use runs::library::{Library, Linked, Standin};
use runs::quoted;
use runs::safe::SafeCall;
use runs::shrink::shrink;
use runs::stages::{self, Stage};
use std::sync::Mutex;
use std::sync::atomic::{AtomicBool, AtomicU64, Ordering};
use std::time::{Duration, Instant};

struct Limits {
    seconds: Option<f64>,
    sources: Option<u64>,
    threads: u64,
}

/// How many checks a thread takes at a time.
const BATCH: u64 = 64;

/// How many checks a stage without an end makes where no limit is given: some tens of seconds each.
fn usual(stage: &str) -> u64 {
    match stage {
        "short" => 40_000_000,
        "refusals" => 5_000_000,
        "kinds" => 2_000_000,
        _ => 400_000,
    }
}

/// Runs a stage; gives the checks made, and the first that differs.
fn run(
    stage: &Stage,
    library: &dyn Library,
    limits: &Limits,
    time: Option<Duration>,
) -> (u64, Option<Check>) {
    let most = match (stage.count, limits.sources) {
        (Some(count), Some(n)) => count.min(n),
        (Some(count), None) => count,
        (None, Some(n)) => n,
        (None, None) if time.is_some() => u64::MAX,
        (None, None) => usual(&stage.name),
    };
    let start = Instant::now();
    let (next, done, stop) = (AtomicU64::new(0), AtomicU64::new(0), AtomicBool::new(false));
    let found: Mutex<Option<(u64, Check)>> = Mutex::new(None);
    std::thread::scope(|scope| {
        for _ in 0..limits.threads {
            scope.spawn(|| {
                let mut buffers = Buffers::default();
                while !stop.load(Ordering::Relaxed) {
                    let from = next.fetch_add(BATCH, Ordering::Relaxed);
                    let late = || time.is_some_and(|t| start.elapsed() > t);
                    if from >= most || (from > 0 && late()) {
                        return;
                    }
                    for number in from..most.min(from.saturating_add(BATCH)) {
                        let check = stage.check(number);
                        done.fetch_add(1, Ordering::Relaxed);
                        if buffers.check(library, &check).is_some() {
                            let mut found =
                                found.lock().expect("no thread panics while it holds this");
                            if found.as_ref().is_none_or(|(n, _)| number < *n) {
                                *found = Some((number, check));
                            }
                            stop.store(true, Ordering::Relaxed);
                            return;
                        }
                    }
                }
            });
        }
    });
    let found = found.into_inner().expect("no thread panicked");
    (done.into_inner(), found.map(|(_, check)| check))
}

/// The check as a reader wants it.
fn show(check: &Check) -> String {
    let text = |bytes: &[u8]| match std::str::from_utf8(bytes) {
        Ok(text) => format!("{text:?}"),
        Err(_) => format!("bytes {bytes:02x?}"),
    };
    match check {
        Check::Format(c) => format!(
            "source {}\nindent {}, width_set {}, width {}, line_ending {}, final_newline {}, ruler_tab {}, strengths {:02x?}, output {:?}, scratch {:?}",
            text(&c.source),
            text(&c.indent),
            c.width_set,
            c.width,
            c.line_ending,
            c.final_newline,
            c.ruler_tab,
            c.strengths,
            c.output,
            c.scratch
        ),
        Check::Kind(place) => format!(
            "kind at line {}, column {}, scratch {:+}: {}",
            place.line,
            place.column,
            place.scratch,
            text(&place.source)
        ),
        Check::Kinds(source) => format!("kinds of {}", text(source)),
        Check::Safe(SafeCall::Format {
            source,
            options,
            most,
        }) => format!(
            "the safe `format` of {}\n{options:?}, most {most:?}",
            text(source)
        ),
        other => format!("{other:?}"),
    }
}

fn usage() -> ! {
    eprintln!(
        "diff [--seconds N] [--sources N] [--seed N] [--threads N] [--stage NAME] [--standin]"
    );
    std::process::exit(2);
}

fn main() {
    let mut limits = Limits {
        seconds: None,
        sources: None,
        threads: 2,
    };
    let (mut seed, mut only, mut standin) = (1, None, false);
    let mut arguments = std::env::args().skip(1);
    while let Some(argument) = arguments.next() {
        if argument == "--standin" {
            standin = true;
            continue;
        }
        let Some(value) = arguments.next() else {
            usage()
        };
        let number = || value.parse::<u64>().unwrap_or_else(|_| usage());
        match argument.as_str() {
            "--seconds" => limits.seconds = Some(number() as f64),
            "--sources" => limits.sources = Some(number()),
            "--seed" => seed = number(),
            "--threads" => limits.threads = number().clamp(1, 2),
            "--stage" => only = Some(value),
            _ => usage(),
        }
    }
    let library: &dyn Library = if standin { &Standin(None) } else { &Linked };
    let mut stages = stages::all(seed);
    let whole = only.is_none();
    if let Some(name) = only {
        stages.retain(|stage| stage.name == name);
        if stages.is_empty() {
            usage();
        }
    }
    let start = Instant::now();
    let mut total = 0;
    let mut idle = Vec::new();
    for (i, stage) in stages.iter().enumerate() {
        let left = (stages.len() - i) as f64;
        let time = limits.seconds.map(|s| {
            Duration::from_secs_f64(((s - start.elapsed().as_secs_f64()) / left).max(0.0))
        });
        let begun = Instant::now();
        let (done, found) = run(stage, library, &limits, time);
        total += done;
        if done == 0 {
            idle.push(stage.name.as_str());
        }
        let of = stage.count.map_or(String::new(), |n| format!(" of {n}"));
        println!(
            "{}: {done}{of} in {:.1} s",
            stage.name,
            begun.elapsed().as_secs_f64()
        );
        if let Some(check) = found {
            let small = shrink(library, check);
            let what = Buffers::default()
                .check(library, &small)
                .unwrap_or_default();
            println!("DIFFERENCE\n{}\n{what}", show(&small));
            std::process::exit(1);
        }
    }
    if !idle.is_empty() {
        println!("NO CHECK was made by: {}", idle.join(", "));
        std::process::exit(1);
    }
    let (strings, lines) = quoted::looked_for();
    println!("with no width, {strings} strings and {lines} lines within prefabs are kept");
    if whole && (strings == 0 || lines == 0) {
        println!("NO STRING or no line within a prefab was looked for");
        std::process::exit(1);
    }
    println!(
        "{total} checks agree, seed {seed}, {:.0} s",
        start.elapsed().as_secs_f64()
    );
}
