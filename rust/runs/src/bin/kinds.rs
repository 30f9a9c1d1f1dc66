//! `wirescript_text_kinds` beside the Rust's `text_kind_at`, place by place; refusals, zeros and
//! lines classified beside a model written from the request.
//!
//!     kinds [SOURCES]
//!
//! Each source is asked for every place and some past its end, for random lists in order, for lists
//! out of order, with an odd number behind the last entry, and with too few answer bytes.

use runs::random::Random;
use runs::{argument, grammar, sources};
use upstream::{TextKind, text_kind_at};
use wirescript_format::raw::{self, Kinds};

const GUARD: u8 = 0xc5;

/// What matters to text kinds.
const ALPHABET: [&str; 12] = [
    "a", "\n", "\"", "'", "${", "}", "/", "*", "\\", "$```", "\u{e9}", "\r",
];

fn number(kind: TextKind) -> u8 {
    match kind {
        TextKind::Code => 0,
        TextKind::Str => 1,
        TextKind::Comment => 2,
    }
}

/// What the request says of a list, its answers and its scratch.
fn model(source: &[u8], list: &[u64], room: usize, scratch: usize) -> (Kinds, Vec<u8>) {
    let refuse = |refusal, place: usize| {
        let answer = Kinds {
            refusal,
            place: place as u64,
            lines_classified: 0,
        };
        (answer, vec![0; room])
    };
    if source.len() > 1 << 20 {
        return refuse(1, 1 << 20);
    }
    let needed = 8 * source.len() + 256;
    if scratch < needed {
        return refuse(3, needed);
    }
    let text = match std::str::from_utf8(source) {
        Ok(text) => text,
        Err(error) => return refuse(4, error.valid_up_to()),
    };
    let places: Vec<(u64, u64)> = list.chunks_exact(2).map(|e| (e[0], e[1])).collect();
    if places.windows(2).any(|w| w[1] < w[0]) {
        return refuse(9, 0);
    }
    if room < places.len() {
        return refuse(10, 0);
    }
    let mut kinds: Vec<u8> = places
        .iter()
        .map(|&(line, column)| number(text_kind_at(text, line as usize, column as usize)))
        .collect();
    kinds.resize(room, 0);
    let lines = text.lines().count() as u64;
    let answer = Kinds {
        refusal: 0,
        place: 0,
        lines_classified: places
            .last()
            .map_or(0, |&(line, _)| line.saturating_add(1).min(lines)),
    };
    (answer, kinds)
}

/// One call beside the model: answer, answers, zeros, and the bytes around the buffers.
fn check(source: &[u8], list: &[u64], room: usize, scratch: usize) {
    let mut kinds = vec![0x5a; room + 16];
    kinds[room..].fill(GUARD);
    let mut work = vec![0x5a; scratch + 16];
    work[scratch..].fill(GUARD);
    let answer = raw::text_kinds(source, list, &mut kinds[..room], &mut work[..scratch]);
    let (must, bytes) = model(source, list, room, scratch);
    let what = || {
        format!(
            "{:?} {list:?} {room} {scratch}",
            String::from_utf8_lossy(source)
        )
    };
    assert_eq!(answer, must, "{}", what());
    assert_eq!(kinds[..room], bytes, "{}", what());
    assert!(work[..scratch].iter().all(|b| *b == 0), "{}", what());
    assert!(kinds[room..].iter().all(|b| *b == GUARD), "{}", what());
    assert!(work[scratch..].iter().all(|b| *b == GUARD), "{}", what());
}

/// Every place of a source, and some past its end.
fn all_places(text: &str) -> Vec<u64> {
    let mut list = Vec::new();
    let lines: Vec<&str> = text.lines().collect();
    for line in 0..lines.len() + 2 {
        let columns = lines.get(line).map_or(0, |l| l.chars().count());
        for column in 0..columns + 2 {
            list.extend([line as u64, column as u64]);
        }
        list.extend([line as u64, u64::MAX]);
    }
    list.extend([u64::MAX, 0, u64::MAX, u64::MAX]);
    list
}

/// Some places in order, equal ones among them.
fn some_places(random: &mut Random, lines: u64) -> Vec<u64> {
    let count = random.below(8);
    let mut places: Vec<(u64, u64)> = (0..count)
        .map(|_| {
            let line = random.below(lines as usize + 2) as u64;
            (line, random.below(6) as u64)
        })
        .collect();
    places.sort_unstable();
    places.iter().flat_map(|&(l, c)| [l, c]).collect()
}

fn source_checks(random: &mut Random, text: &str) -> u64 {
    let source = text.as_bytes();
    let needed = 8 * source.len() + 256;
    let all = all_places(text);
    check(source, &all, all.len() / 2, needed);
    check(source, &all, all.len() / 2 - 1, needed);
    check(source, &[], 3, needed);
    let lines = text.lines().count() as u64;
    let mut list = some_places(random, lines);
    check(source, &list, list.len() / 2 + 2, needed);
    check(source, &list, list.len() / 2, needed - 1);
    list.push(7);
    check(source, &list, list.len() / 2, needed + 5);
    list.extend([0, 0, 1, 0]);
    check(source, &list, list.len(), needed);
    let mut broken = source.to_vec();
    let at = random.below(source.len() + 1);
    broken.insert(at, 0xff);
    check(&broken, &list, list.len(), needed + 8);
    8
}

fn main() {
    let count = argument(1, 20_000);
    let mut random = Random::new(16);
    let mut checks = 0;
    for length in 0..=4 {
        for n in 0..sources::count(&ALPHABET, length) {
            checks += source_checks(&mut random, &sources::nth(&ALPHABET, length, n));
        }
    }
    for _ in 0..count {
        let size = 1 + random.below(400);
        let text = grammar::source(&mut random, size, 8);
        checks += source_checks(&mut random, &text);
    }
    let long = vec![b'a'; (1 << 20) + 1];
    check(&long, &[0, 0], 1, 8 * long.len() + 256);
    check(&long[1..], &[0, 0, 0, 1 << 20], 2, 8 * (1 << 20) + 256);
    println!("{} lists agree", checks + 2);
}
