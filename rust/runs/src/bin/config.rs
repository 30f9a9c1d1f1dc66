//! `wirescript_read_editorconfig` beside a model that is written from the page on `EditorConfig` alone: every short
//! name with every short path, random files; names that are hard to match; and beside Debian's `EditorConfig` core,
//! where it is at hand.
//!
//!     config [--short] [--random N] [--core N] [--seed N]
//!
//! --short takes shorter names; N are random files, and random names for the core (0: without it).

use std::collections::{BTreeMap, BTreeSet};
use std::fs;
use std::io::Write;
use std::path::PathBuf;
use std::process::{Command, ExitCode, Stdio};
use std::time::Instant;

use runs::random::Random;
use runs::{config, globs};
use wirescript_format::raw::{self, ConfigAnswer};

fn read(path: &[u8], texts: &[&[u8]]) -> ConfigAnswer {
    let mut eight: [&[u8]; 8] = [&[]; 8];
    for (slot, text) in eight.iter_mut().zip(texts) {
        *slot = text;
    }
    raw::read_editorconfig(path, eight)
}

/// Whether our reader matches a name with a path of at most seven slashes relative to the top.
fn ours(name: &str, path: &str) -> bool {
    let text = format!("[{name}]\ntab_width=1");
    let mut texts: [&[u8]; 8] = [&[]; 8];
    texts[path.matches('/').count()] = text.as_bytes();
    let answer = read(format!("/{path}").as_bytes(), &texts);
    assert_eq!(answer.refusal, 0, "name {name:?}, path {path:?}");
    answer.values.tab_set == 1
}

fn words(alphabet: &[char], length: usize) -> Vec<String> {
    let mut out = vec![String::new()];
    let mut from = 0;
    for _ in 0..length {
        let to = out.len();
        for i in from..to {
            for &c in alphabet {
                out.push(format!("{}{c}", out[i]));
            }
        }
        from = to;
    }
    out
}

fn compare(names: &[String], paths: &[String]) -> u64 {
    let mut checks = 0;
    for name in names {
        for path in paths {
            let (a, b) = (ours(name, path), globs::matches(name, path));
            assert_eq!(a, b, "name {name:?}, path {path:?}");
            checks += 1;
        }
    }
    checks
}

fn ranges(length: usize) -> Vec<String> {
    let ends = words(&['-', '0', '1', '2'], length);
    let mut ranges = Vec::new();
    for m in &ends {
        for n in &ends {
            ranges.push(format!("{{{m}..{n}}}"));
            ranges.push(format!("{{{m}..{n}}}1"));
        }
    }
    ranges
}

/// The characters that names and paths are made of, and how long they are.
struct Set {
    what: &'static str,
    name: &'static [char],
    name_length: usize,
    path: &'static [char],
    path_length: usize,
}

const SETS: [Set; 4] = [
    Set {
        what: "braces",
        name: &['{', '}', ',', 'a', '\\'],
        name_length: 6,
        path: &['a', ',', '{', '}'],
        path_length: 4,
    },
    Set {
        what: "brackets",
        name: &['[', ']', '!', '-', 'a', 'c', '\\'],
        name_length: 5,
        path: &['a', 'b', '-', ']', '/'],
        path_length: 2,
    },
    Set {
        what: "slashes",
        name: &['/', '*', 'a', '?'],
        name_length: 6,
        path: &['a', '/'],
        path_length: 5,
    },
    Set {
        what: "mixed",
        name: &['*', '{', ',', '}', '/', 'a', '['],
        name_length: 5,
        path: &['a', '/', '['],
        path_length: 3,
    },
];

/// Every name and path up to a length, over a few characters each.
fn exhaustive(less: usize) -> u64 {
    let mut all = 0;
    for set in SETS {
        let names = words(set.name, set.name_length - less);
        let checks = compare(&names, &words(set.path, set.path_length));
        let what = set.what;
        println!("{what}: {checks} names with paths, no difference");
        all += checks;
    }
    let checks = compare(
        &ranges(3 - less.min(1)),
        &words(&['-', '0', '1', '2', '3'], 3),
    );
    println!("ranges: {checks} names with paths, no difference");
    all + checks
}

const PIECES: [&str; 25] = [
    "*", "**", "/**/", "**/", "/", "?", "[a-c]", "[!b]", "[", "]", "{", "}", ",", "\\", "a", "b",
    "é", "{1..30}", "{-7..12}", "{9..4}", "0", "12", "-", "{a,b}", "*.ws",
];
/// What names for the core are made of, where it follows the same text of the specification.
const PLAIN: [&str; 16] = [
    "*", "**", "/**/", "**/", "/", "?", "[ac]", "[!b]", "{a,b}", "{,a}", "{1..30}", "{-7..12}",
    "a", "b", ".ws", "1",
];
const STEPS: [&str; 16] = [
    "/", "/", "a", "b", "c", "é", "1", "0", "12", "-", ",", "{", "}", "[", "*", ".ws",
];

fn word(random: &mut Random, pieces: &[&str], most: usize) -> String {
    (0..random.below(most + 1))
        .map(|_| random.pick(pieces))
        .collect()
}

fn random_names(random: &mut Random, count: usize) -> u64 {
    let mut checks = 0;
    for _ in 0..count {
        let (name, path) = (word(random, &PIECES, 9), word(random, &STEPS, 9));
        if path.matches('/').count() > 7 {
            continue;
        }
        let (a, b) = (ours(&name, &path), globs::matches(&name, &path));
        assert_eq!(a, b, "name {name:?}, path {path:?}");
        checks += 1;
    }
    println!("random names: {checks}, no difference");
    checks
}

const KEYS: [&str; 10] = [
    "indent_style",
    "indent_size",
    "tab_width",
    "max_line_length",
    "end_of_line",
    "insert_final_newline",
    "root",
    "Indent_Size",
    "TAB_WIDTH",
    "charset",
];
const VALUES: [&str; 24] = [
    "tab",
    "space",
    "TAB",
    "4",
    "8",
    "0",
    "007",
    "4294967295",
    "4294967296",
    "00004294967295",
    "off",
    "Off",
    "lf",
    "crlf",
    "cr",
    "CR",
    "true",
    "false",
    "TRUE",
    "unset",
    "",
    "-1",
    "4 ; x",
    "K\u{212a}",
];
const BLANKS: [&str; 8] = ["", "", "", " ", "\t", "\u{a0}", "\r", "\u{3000}"];

fn random_line(random: &mut Random) -> String {
    match random.below(8) {
        0 => word(
            random,
            &[
                "; c",
                "#c",
                "no pair",
                "[x",
                "[x] ; c",
                "[x]=b",
                "\u{feff}[a]",
                "=",
                "x]",
            ],
            1,
        ),
        1 | 2 => {
            let blank = random.pick(&BLANKS);
            format!(
                "{blank}[{}]{}",
                word(random, &PIECES, 4),
                random.pick(&BLANKS)
            )
        }
        3 => "[*]".into(),
        _ => {
            let (key, value) = (random.pick(&KEYS), random.pick(&VALUES));
            let blank = |r: &mut Random| r.pick(&BLANKS).to_owned();
            let (a, b, c, d) = (blank(random), blank(random), blank(random), blank(random));
            format!("{a}{key}{b}={c}{value}{d}")
        }
    }
}

fn random_text(random: &mut Random) -> Vec<u8> {
    let mut text = String::new();
    if random.one_in(12) {
        text.push('\u{feff}');
    }
    if random.one_in(6) {
        text.push_str(random.pick(&["root=true\n", "ROOT = True\r\n", "root=true\nroot=no\n"]));
    }
    for _ in 0..random.below(12) {
        text.push_str(&random_line(random));
        text.push_str(random.pick(&["\n", "\n", "\r\n"]));
    }
    let mut text = text.into_bytes();
    if random.one_in(400) {
        text.push(0x80);
    }
    if random.one_in(400) {
        text.extend(format!("\n[{}]", "é".repeat(1023 + random.below(4))).as_bytes());
    }
    if random.one_in(400) {
        text.resize(65_535 + random.below(3), b'#');
    }
    text
}

fn random_files(random: &mut Random, count: usize) -> u64 {
    let mut seen: BTreeMap<u64, u64> = BTreeMap::new();
    for _ in 0..count {
        let mut path = word(random, &["/", "/", "a", "b", "c.ws", "é", "12"], 14).into_bytes();
        if random.one_in(500) {
            path.push(0xFF);
        }
        let texts: Vec<Vec<u8>> = (0..8).map(|_| random_text(random)).collect();
        let texts: Vec<&[u8]> = texts.iter().map(Vec::as_slice).collect();
        let (a, b) = (read(&path, &texts), config::read(&path, &texts));
        assert_eq!(a, b, "path {path:?}, texts {texts:?}");
        *seen.entry(a.refusal).or_default() += 1;
    }
    println!("random files: {count}, no difference; by refusal: {seen:?}");
    for refusal in [0, 7, 4, 8] {
        assert!(
            count < 10_000 || seen.contains_key(&refusal),
            "no call gave {refusal}"
        );
    }
    count as u64
}

/// Names that make a matcher explode which tries one way after the other: each must answer in seconds.
fn hard_names() {
    let digits = "1".repeat(65_536);
    let hard = [
        ("{a,a}".repeat(204), "a".repeat(204), true),
        ("{a,a}".repeat(204), "a".repeat(4000), false),
        (format!("{}b", "*a".repeat(511)), "a".repeat(4000), false),
        (format!("{}b", "**".repeat(511)), "a".repeat(4000), false),
        (
            "{".repeat(512) + &"a,b}".repeat(128),
            "a".repeat(512),
            false,
        ),
        ("{1..99999}".repeat(102), digits, false),
    ];
    for (name, path, wanted) in hard {
        let start = Instant::now();
        assert_eq!(ours(&name, &path), wanted, "name {name:?}");
        let seconds = start.elapsed().as_secs_f64();
        let (shown, length) = (&name[..10], path.len());
        println!(
            "{shown}.. of {} characters, a path of {length}: {seconds:.3} s",
            name.len()
        );
        assert!(seconds < 30.0, "too slow");
    }
}

/// What a call takes with two texts as projects have them.
fn usual_texts() {
    let near = "[*.ws]\nindent_size = 4\n\n[{gates,wires}/**.ws]\nmax_line_length = off\n";
    let far = "root = true\n\n[*]\nend_of_line = lf\ninsert_final_newline = true\n[*.{md,txt}]\nindent_size = 2\n";
    let texts = [near.as_bytes(), far.as_bytes()];
    let start = Instant::now();
    for _ in 0..10_000 {
        assert_eq!(read(b"src/adder.ws", &texts).values.size, 4);
    }
    let each = start.elapsed().as_secs_f64() * 100.0;
    println!("two usual texts, four sections: {each:.1} microseconds");
}

// ---- Debian's core

/// What the core says of files: the last value of each key for each path.
struct Core {
    folder: PathBuf,
}

impl Core {
    /// None where the program is not at hand.
    fn new() -> Option<Self> {
        Command::new("editorconfig")
            .arg("--version")
            .output()
            .ok()?;
        let folder = std::env::temp_dir().join(format!("config-run-{}", std::process::id()));
        fs::create_dir_all(&folder).expect("a folder for the files");
        Some(Self { folder })
    }

    /// The value of `tab_width` that a section with a name sets for each path below the folder.
    fn matches(&self, name: &str, paths: &[String]) -> Vec<bool> {
        let text = format!("root=true\n[{name}]\ntab_width=1\n");
        fs::write(self.folder.join(".editorconfig"), text).expect("a file");
        let mut child = Command::new("editorconfig")
            .arg("-")
            .stdin(Stdio::piped())
            .stdout(Stdio::piped())
            .stderr(Stdio::null())
            .spawn()
            .expect("the core runs");
        let asked: String = paths
            .iter()
            .map(|path| format!("{}/{path}\n", self.folder.display()))
            .collect();
        child
            .stdin
            .take()
            .expect("piped")
            .write_all(asked.as_bytes())
            .expect("written");
        let output = child.wait_with_output().expect("the core ends");
        let said = String::from_utf8_lossy(&output.stdout).into_owned();
        let mut found = vec![false; paths.len()];
        // the core names a path only where it is asked for several
        let mut at = (paths.len() == 1).then_some(0);
        for line in said.lines() {
            if let Some(path) = line.strip_prefix('[').and_then(|l| l.strip_suffix(']')) {
                let path = path.strip_prefix(&format!("{}/", self.folder.display()));
                at = path.and_then(|p| paths.iter().position(|q| q == p));
            } else if let (Some(i), "tab_width=1") = (at, line) {
                found[i] = true;
            }
        }
        found
    }

    /// The values that two texts set for a path: the file's own directory `d`, and the one above it.
    fn values(&self, near: &str, far: &str, file: &str) -> ConfigAnswer {
        let own = self.folder.join("d");
        fs::create_dir_all(&own).expect("a folder");
        fs::write(own.join(".editorconfig"), near).expect("a file");
        fs::write(self.folder.join(".editorconfig"), far).expect("a file");
        let output = Command::new("editorconfig").arg(own.join(file)).output();
        let said = output.expect("the core runs").stdout;
        let mut answer = ConfigAnswer::default();
        for line in String::from_utf8_lossy(&said).lines() {
            if let Some((key, value)) = line.split_once('=') {
                config::supersede(&mut answer.values, key, &value.to_ascii_lowercase());
            }
        }
        answer
    }
}

impl Drop for Core {
    fn drop(&mut self) {
        let _ = fs::remove_dir_all(&self.folder);
    }
}

/// Why the core may differ on a name, as docs/DIFFERENCES.md lists it; None where it must not.
fn cause(name: &str) -> Option<&'static str> {
    if name.contains("..") {
        return Some("a range");
    }
    let (mut bracket, mut opened, mut closed, mut escaped) = (None, 0, 0, false);
    for (i, c) in name.char_indices() {
        if escaped && c.is_ascii_alphanumeric() {
            return Some("an escaped letter or digit");
        }
        if escaped {
            escaped = false;
            continue;
        }
        match c {
            '\\' if name[i + 1..].is_empty() => return Some("a last backslash"),
            '\\' => escaped = true,
            '[' if bracket.is_none() => bracket = Some(i),
            ']' if bracket.is_some() => bracket = None,
            '/' if bracket.is_some() => return Some("a slash in brackets"),
            '{' | '}' | ',' if bracket.is_some() => return Some("a brace or comma in brackets"),
            '[' | '!' | '-' | '*' | '?' if bracket.is_some() && bracket != Some(i - 1) => {
                return Some("a special character in brackets");
            }
            ']' => return Some("a bracket never opened"),
            '{' => opened += 1,
            '}' => closed += 1,
            _ => {}
        }
    }
    if bracket.is_some() {
        return Some("a bracket never closed");
    }
    if opened != closed {
        return Some("a brace without its other");
    }
    None
}

/// Whether every difference has a cause.
fn beside_core(random: &mut Random, count: usize) -> bool {
    let Some(core) = Core::new() else {
        println!("the core (editorconfig) is not at hand: nothing was compared with it");
        return true;
    };
    let steps = [
        "/", "a", "b", "c", "1", "12", ".ws", "-3", "{", "}", ",", "]", "[", "0",
    ];
    let (mut same, mut differ) = (0, BTreeMap::new());
    for k in 0..count {
        // plain names, and names of every kind
        let name = word(random, if k % 2 == 0 { &PLAIN } else { &PIECES }, 5);
        let paths: BTreeSet<String> = (0..24)
            .map(|_| word(random, &steps, 5))
            .filter(|p| {
                !p.is_empty() && !p.contains("//") && !p.starts_with('/') && !p.ends_with('/')
            })
            .collect();
        let paths: Vec<String> = paths.into_iter().collect();
        for (path, theirs) in paths.iter().zip(core.matches(&name, &paths)) {
            if ours(&name, path) == theirs {
                same += 1;
            } else {
                let entry: &mut Vec<String> = differ.entry(cause(&name)).or_default();
                entry.push(format!(
                    "name {name:?}, path {path:?}, the core says {theirs}"
                ));
            }
        }
    }
    println!("beside the core: {same} names with paths are equal");
    for (why, list) in &differ {
        println!(
            "{}: {} differ, as {}",
            why.unwrap_or("no cause"),
            list.len(),
            list[0]
        );
    }
    files_beside_core(&core, random, count) == 0 && !differ.contains_key(&None)
}

/// A text of sections and pairs that the core reads as the page does: no fallbacks between the keys, no white space
/// but ASCII, no comments behind values, no line that is none of the kinds (the core gives up at one).
fn plain_text(random: &mut Random) -> String {
    let keys = [
        "tab_width",
        "TAB_WIDTH",
        "max_line_length",
        "end_of_line",
        "insert_final_newline",
    ];
    let values = [
        "4", "8", "0", "007", "off", "Off", "lf", "crlf", "CR", "true", "False", "unset", "-1",
    ];
    let names = [
        "*", "*.ws", "a.ws", "d/*", "/d/**.ws", "{a,b}.ws", "[!b].ws", "b*", "**/a.*", "?.ws",
    ];
    // of several `root` in a preamble the core takes any that is true, and the page the last
    let mut text = word(random, &["", "", "root = TRUE\n", "root = no\n"], 1);
    for _ in 0..random.below(9) {
        let line = match random.below(5) {
            0 => random.pick(&["; c", "# c", ""]).to_owned(),
            1 => format!("[{}]", random.pick(&names)),
            _ => format!("{} = {}", random.pick(&keys), random.pick(&values)),
        };
        text.push_str(&line);
        text.push_str(random.pick(&["\n", "\r\n"]));
    }
    text
}

/// Files of two directories; how many differ.
fn files_beside_core(core: &Core, random: &mut Random, count: usize) -> usize {
    let mut differ = 0;
    for _ in 0..count {
        let (near, far) = (
            plain_text(random),
            format!("root=true\n{}", plain_text(random)),
        );
        let far = format!("{far}\n[*]\nx=y\n");
        let file = random.pick(&["a.ws", "b.ws", "c.x"]);
        let theirs = core.values(&near, &far, file);
        let ours = read(
            format!("d/{file}").as_bytes(),
            &[near.as_bytes(), far.as_bytes()],
        );
        if ours != theirs {
            differ += 1;
            println!("files {near:?} {far:?}, {file}: ours {ours:?}, the core's {theirs:?}");
        }
    }
    println!("beside the core: {count} pairs of files, {differ} differ");
    differ
}

struct Asked {
    short: bool,
    random: usize,
    core: usize,
    seed: u64,
}

fn asked() -> Option<Asked> {
    let mut asked = Asked {
        short: false,
        random: 200_000,
        core: 2_000,
        seed: 1,
    };
    let mut words = std::env::args().skip(1);
    while let Some(word) = words.next() {
        match word.as_str() {
            "--short" => asked.short = true,
            "--random" => asked.random = words.next()?.parse().ok()?,
            "--core" => asked.core = words.next()?.parse().ok()?,
            "--seed" => asked.seed = words.next()?.parse().ok()?,
            _ => return None,
        }
    }
    Some(asked)
}

fn main() -> ExitCode {
    let Some(asked) = asked() else {
        eprintln!("config [--short] [--random N] [--core N] [--seed N]");
        return ExitCode::FAILURE;
    };
    let mut random = Random::new(asked.seed);
    let mut all = exhaustive(if asked.short { 2 } else { 0 });
    all += random_names(&mut random, 2 * asked.random);
    all += random_files(&mut random, asked.random);
    println!("all: {all} calls beside the model, no difference");
    hard_names();
    usual_texts();
    if asked.core > 0 && !beside_core(&mut random, asked.core) {
        return ExitCode::FAILURE;
    }
    ExitCode::SUCCESS
}
