//! `wirescript_group` beside a parser written from document 02's text alone: every short
//! source over a few pieces, random long ones, fixed readings, all lengths of the output, and
//! sources of 1 MiB on a thread with 256 KiB of stack.
//!
//!     group [--pieces N] [--random N] [--seed N]

use std::process::ExitCode;
use std::time::Instant;

use runs::random::Random;
use wirescript_format::group;
use wirescript_format::raw::{self, GroupAnswer};

/// 02: the operators and how tightly each binds.
const OPERATORS: [(&str, u32); 21] = [
    ("||", 1),
    ("^^", 1),
    ("&&", 2),
    ("|", 3),
    ("^", 4),
    ("&", 5),
    ("==", 6),
    ("!=", 6),
    ("<", 7),
    (">", 7),
    ("<=", 7),
    (">=", 7),
    ("<<", 8),
    (">>", 8),
    ("..", 9),
    ("+", 10),
    ("-", 10),
    ("*", 11),
    ("/", 11),
    ("%", 11),
    ("**", 12),
];

const WORDS: [&str; 5] = ["if", "then", "else", "match", "await"];

#[derive(Debug, PartialEq, Eq)]
enum Fail {
    /// 14: not such an expression.
    Wrong(usize),
    /// 15: a bracket too deep.
    Deep(usize),
}

/// Precedence climbing, one character at a time.
struct Parser<'a> {
    text: &'a [u8],
    at: usize,
    depth: usize,
}

impl Parser<'_> {
    fn peek(&self) -> Option<u8> {
        self.text.get(self.at).copied()
    }

    fn blanks(&mut self) {
        while matches!(self.peek(), Some(b' ' | b'\t')) {
            self.at += 1;
        }
    }

    /// The operator at this place, the longest that there is.
    fn operator(&self) -> Option<(&'static str, u32)> {
        let rest = &self.text[self.at..];
        OPERATORS
            .iter()
            .filter(|(op, _)| rest.starts_with(op.as_bytes()))
            .max_by_key(|(op, _)| op.len())
            .copied()
    }

    fn operand(&mut self) -> Result<String, Fail> {
        self.blanks();
        let start = self.at;
        match self.peek() {
            Some(sign @ (b'+' | b'-')) => {
                self.at += 1;
                let rest = self.operand()?;
                Ok(format!("{}{rest}", sign as char))
            }
            Some(b'(') => {
                if self.depth == 64 {
                    return Err(Fail::Deep(start));
                }
                self.depth += 1;
                self.at += 1;
                let inside = self.expression(1)?;
                self.blanks();
                if self.peek() != Some(b')') {
                    return Err(Fail::Wrong(self.at));
                }
                self.depth -= 1;
                self.at += 1;
                Ok(inside)
            }
            Some(b'0'..=b'9') => {
                while matches!(self.peek(), Some(b'0'..=b'9')) {
                    self.at += 1;
                }
                Ok(String::from_utf8_lossy(&self.text[start..self.at]).into_owned())
            }
            Some(b'a'..=b'z' | b'A'..=b'Z' | b'_') => {
                while matches!(self.peek(), Some(c) if c.is_ascii_alphanumeric() || c == b'_') {
                    self.at += 1;
                }
                let name = String::from_utf8_lossy(&self.text[start..self.at]).into_owned();
                if WORDS.contains(&name.as_str()) {
                    return Err(Fail::Wrong(self.at));
                }
                Ok(name)
            }
            _ => Err(Fail::Wrong(start)),
        }
    }

    /// Operands and operators that bind at least so tightly.
    fn expression(&mut self, least: u32) -> Result<String, Fail> {
        let mut left = self.operand()?;
        loop {
            self.blanks();
            let Some((op, strength)) = self.operator() else {
                return match self.peek() {
                    // `=`, `!` and `.` begin an operator of two characters
                    Some(b'=' | b'!' | b'.') => Err(Fail::Wrong(self.at + 1)),
                    _ => Ok(left),
                };
            };
            if strength < least {
                return Ok(left);
            }
            self.at += op.len();
            // `**` groups to the right, every other operator to the left
            let tighter = if op == "**" { strength } else { strength + 1 };
            let right = self.expression(tighter)?;
            left = format!("({left} {op} {right})");
        }
    }
}

fn model(source: &[u8]) -> Result<String, Fail> {
    let mut parser = Parser {
        text: source,
        at: 0,
        depth: 0,
    };
    let text = parser.expression(1)?;
    parser.blanks();
    if parser.at < source.len() {
        return Err(Fail::Wrong(parser.at));
    }
    Ok(text)
}

fn refused(refusal: u64, place: usize) -> GroupAnswer {
    GroupAnswer {
        refusal,
        place: place as u64,
        length: 0,
    }
}

/// One call with buffers that are not clean, checked whole.
fn call(source: &[u8], room: usize, expected: &Result<String, Fail>) -> Result<(), String> {
    let mut output = vec![0xAA; room];
    let mut scratch = vec![0x55; 12 * source.len() + 256];
    let answer = raw::group(source, &mut output, &mut scratch);
    let mut wanted = vec![0; room];
    let awaited = match expected {
        Ok(text) if text.len() <= room => {
            wanted[..text.len()].copy_from_slice(text.as_bytes());
            GroupAnswer {
                refusal: 0,
                place: 0,
                length: text.len() as u64,
            }
        }
        Ok(text) => refused(5, text.len()),
        Err(Fail::Wrong(place)) => refused(14, *place),
        Err(Fail::Deep(place)) => refused(15, *place),
    };
    if answer != awaited || output != wanted || scratch.iter().any(|b| *b != 0) {
        return Err(format!(
            "{:?}: {answer:?} with {:?}, awaited {awaited:?} with {:?}",
            String::from_utf8_lossy(source),
            String::from_utf8_lossy(&output),
            String::from_utf8_lossy(&wanted)
        ));
    }
    Ok(())
}

/// A source with an output of exactly its text, of one byte less, and of some more.
fn compare(source: &[u8]) -> Result<(), String> {
    let expected = model(source);
    let length = expected.as_ref().map_or(0, String::len);
    call(source, length, &expected)?;
    call(source, length + 7, &expected)?;
    if length > 0 {
        call(source, length - 1, &expected)?;
    }
    Ok(())
}

const PIECES: [&[u8]; 15] = [
    b"a", b"1", b"+", b"-", b"**", b"*", b"..", b".", b"<", b"=", b"(", b")", b" ", b"if", b"\t",
];

/// Every row of at most so many pieces.
fn every_short(pieces: u32) -> Result<u64, String> {
    let mut count = 0;
    let mut source = Vec::new();
    for length in 0..=pieces {
        for mut row in 0..PIECES.len().pow(length) {
            source.clear();
            for _ in 0..length {
                source.extend_from_slice(PIECES[row % PIECES.len()]);
                row /= PIECES.len();
            }
            compare(&source)?;
            count += 1;
        }
    }
    Ok(count)
}

fn blanks(random: &mut Random, text: &mut String) {
    while random.one_in(3) {
        text.push_str(random.pick(&[" ", "\t"]));
    }
}

fn expression(random: &mut Random, depth: usize, text: &mut String) {
    let operands = 1 + random.below(if depth == 0 { 40 } else { 4 });
    for k in 0..operands {
        if k > 0 {
            blanks(random, text);
            text.push_str(OPERATORS[random.below(21)].0);
        }
        blanks(random, text);
        while random.one_in(4) {
            text.push_str(random.pick(&["+", "-"]));
            blanks(random, text);
        }
        if depth < 70 && random.one_in(if depth < 3 { 3 } else { 2 + depth / 8 }) {
            text.push('(');
            expression(random, depth + 1, text);
            blanks(random, text);
            text.push(')');
        } else {
            text.push_str(random.pick(&[
                "a", "b1", "_", "12", "0", "ifx", "If", "awaits", "x_y", "thenelse",
            ]));
        }
    }
}

/// Random expressions, and the same with a character or two changed.
fn random_long(runs: u64, seed: u64) -> Result<u64, String> {
    let mut random = Random::new(seed);
    for _ in 0..runs {
        let mut text = String::new();
        expression(&mut random, 0, &mut text);
        let mut bytes = text.into_bytes();
        compare(&bytes)?;
        for _ in 0..=random.below(2) {
            let at = random.below(bytes.len() + 1);
            let c = random.pick(&[
                "(", ")", "=", ">", ".", "*", "/", "!", "9", "z", " ", "\n", ",", "-",
            ]);
            let c = c.as_bytes()[0];
            match random.below(3) {
                0 => bytes.insert(at, c),
                1 if at < bytes.len() => bytes[at] = c,
                _ if at < bytes.len() => drop(bytes.remove(at)),
                _ => bytes.push(c),
            }
        }
        compare(&bytes)?;
    }
    Ok(2 * runs)
}

/// The readings that are fixed beside 02.
fn readings() -> Result<u64, String> {
    let texts = [
        ("a--b", "(a - -b)"),
        ("- - a", "--a"),
        ("-(a+b)", "-(a + b)"),
        ("-(a)", "-a"),
        ("((a))", "a"),
        ("-2**2", "(-2 ** 2)"),
        ("2**-1", "(2 ** -1)"),
        ("a+b*c", "(a + (b * c))"),
        ("a-b-c", "((a - b) - c)"),
        ("a**b**c", "(a ** (b ** c))"),
    ];
    for (source, text) in texts {
        if group(source).as_deref() != Ok(text) {
            return Err(format!("{source}: {:?}", group(source)));
        }
    }
    let places = [
        ("if", 2),
        ("if + a", 2),
        ("a = b", 3),
        ("a b", 2),
        ("1.5", 2),
        ("a->b", 2),
        ("()", 1),
        ("", 0),
        ("(a", 2),
        ("a\n", 1),
        ("\u{e9}", 0),
        ("a \u{e9}", 2),
    ];
    for (source, place) in places {
        let mut scratch = vec![0; 12 * source.len() + 256];
        let answer = raw::group(source.as_bytes(), &mut [], &mut scratch);
        if answer != refused(14, place) {
            return Err(format!("{source}: {answer:?}"));
        }
    }
    let bracket = |n: usize, rest: &str| [&"(".repeat(n), rest].concat().into_bytes();
    for (source, awaited) in [
        (bracket(65, "a"), refused(15, 64)),
        (bracket(64, "a("), refused(14, 65)),
        (b"a\xff".to_vec(), refused(4, 1)),
    ] {
        let mut scratch = vec![0; 12 * source.len() + 256];
        let answer = raw::group(&source, &mut [], &mut scratch);
        if answer != awaited {
            return Err(format!("{source:?}: {answer:?}"));
        }
        let mut short = vec![7; 12 * source.len() + 255];
        let answer = raw::group(&source, &mut [], &mut short);
        if answer != refused(3, 12 * source.len() + 256) || short.iter().any(|b| *b != 0) {
            return Err(format!("scratch: {answer:?}"));
        }
    }
    let long = vec![b'a'; 1_048_577];
    if raw::group(&long, &mut [], &mut []) != refused(1, 1_048_576) {
        return Err("a source of 1,048,577 bytes".into());
    }
    Ok((texts.len() + places.len() + 7) as u64)
}

/// The best time of five that a source takes, and its answer, on a thread with 256 KiB of stack.
fn on_small_stack(source: Vec<u8>, room: usize) -> (f64, GroupAnswer) {
    let run = move || {
        let mut output = vec![0; room];
        let mut scratch = vec![0; 12 * source.len() + 256];
        let mut best = f64::INFINITY;
        let mut answer = GroupAnswer::default();
        for _ in 0..5 {
            let start = Instant::now();
            answer = raw::group(&source, &mut output, &mut scratch);
            best = best.min(start.elapsed().as_secs_f64());
        }
        (best, answer)
    };
    let thread = std::thread::Builder::new().stack_size(256 << 10);
    thread
        .spawn(run)
        .expect("a thread")
        .join()
        .expect("no fault")
}

/// A source of about so many bytes.
type Make = Box<dyn Fn(usize) -> String>;

/// Sources of 256 KiB and 1 MiB: no fault, and time that grows as the source does.
fn large() -> Result<u64, String> {
    let deep = |n: usize| {
        let unit = [&"(".repeat(64)[..], "a", &")".repeat(64)[..], "+"].concat();
        [unit.repeat(n / unit.len()), "a".into()].concat()
    };
    let sources: [(&str, Make); 7] = [
        (
            "a**a**..",
            Box::new(|n| ["a**".repeat(n / 3 - 1), "a".into()].concat()),
        ),
        (
            "a+a+..",
            Box::new(|n| ["a+".repeat(n / 2 - 1), "a".into()].concat()),
        ),
        (
            "-----",
            Box::new(|n| ["-".repeat(n - 1), "a".into()].concat()),
        ),
        ("((((", Box::new(|n| "(".repeat(n))),
        ("aaaa", Box::new(|n| "a".repeat(n))),
        (
            "a||a**a||..",
            Box::new(|n| ["a||a**".repeat(n / 6 - 1), "a".into()].concat()),
        ),
        ("64 deep", Box::new(deep)),
    ];
    for (name, make) in &sources {
        let (small, _) = on_small_stack(make(1 << 18).into_bytes(), 4 << 20);
        let (time, answer) = on_small_stack(make(1 << 20).into_bytes(), 4 << 20);
        println!(
            "  {name}: 256 KiB {:.1} ms, 1 MiB {:.1} ms, {answer:?}",
            small * 1e3,
            time * 1e3
        );
        if time > 16.0 * small + 0.05 {
            return Err(format!("{name}: {small} s, then {time} s"));
        }
    }
    Ok(2 * sources.len() as u64)
}

fn number(name: &str, default: u64) -> u64 {
    let mut args = std::env::args().skip_while(|a| a != name);
    args.nth(1)
        .map_or(default, |n| n.parse().expect("a number"))
}

fn run() -> Result<(), String> {
    let (pieces, runs) = (number("--pieces", 4) as u32, number("--random", 20_000));
    println!("readings: {}", readings()?);
    println!("rows of at most {pieces} pieces: {}", every_short(pieces)?);
    println!("random: {}", random_long(runs, number("--seed", 21))?);
    println!("large: {}", large()?);
    Ok(())
}

fn main() -> ExitCode {
    // the model recurses as deep as the source's signs and brackets
    let thread = std::thread::Builder::new().stack_size(64 << 20);
    match thread.spawn(run).expect("a thread").join() {
        Ok(Ok(())) => {
            println!("agree");
            ExitCode::SUCCESS
        }
        Ok(Err(difference)) => {
            println!("differ: {difference}");
            ExitCode::FAILURE
        }
        Err(_) => ExitCode::FAILURE,
    }
}
