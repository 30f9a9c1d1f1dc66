//! The cases of the program `wsfmt`, with what it must write: the Rust's text, or the refusal
//! that document 01 names.
//!
//!     program sources     the sources, a zero byte after each: `crates/wsfmt_list/stdin`
//!     program written     for each, the length of what is written, LF, and that: its `stdout`
//!     program run PATH    runs the program at PATH on each source and compares
//!
//! 01: a program reads standard input up to 4,096 bytes, formats with defaults into 16,384 bytes
//! and writes the text alone, or `refused N at P` and LF, in decimal; longer input gives
//! `refused 1 at 4096`.

use std::io::{self, Write};
use std::process::{Command, ExitCode, Stdio};
use upstream::{FormatOptions, format_with};

const MAX_INPUT: usize = 4096;
const MAX_TEXT: usize = 16384;

fn refused(number: usize, place: usize) -> Vec<u8> {
    format!("refused {number} at {place}\n").into_bytes()
}

/// What the program must write.
fn written(source: &[u8]) -> Vec<u8> {
    if source.len() > MAX_INPUT {
        return refused(1, MAX_INPUT);
    }
    let source = match str::from_utf8(source) {
        Ok(source) => source,
        Err(error) => return refused(4, error.valid_up_to()),
    };
    let text = format_with(source, &FormatOptions::default());
    if text.len() > MAX_TEXT {
        return refused(5, text.len());
    }
    text.into_bytes()
}

/// A source of `length` bytes: `a ,b` over and over, then `x`.
fn long(length: usize) -> Vec<u8> {
    let mut source = b"a ,b\n".repeat(length / 5);
    source.resize(length, b'x');
    source
}

/// A source whose text is `length` bytes long: a hundred and twenty brackets, one to a line, then
/// lines of one byte and a last line that fills the rest.
fn deep(length: usize) -> Vec<u8> {
    let mut source = b"{\n".repeat(120);
    let mut text = written_length(&source);
    while text + 2 * (2 * 120 + 2) < length {
        source.extend(b"y\n");
        text = written_length(&source);
    }
    let rest = length - text - (2 * 120 + 1);
    source.extend(b"z".repeat(rest));
    assert_eq!(written_length(&source), length);
    source
}

fn written_length(source: &[u8]) -> usize {
    let source = str::from_utf8(source).expect("ASCII");
    format_with(source, &FormatOptions::default()).len()
}

fn sources() -> Vec<Vec<u8>> {
    let wide = "sum = ".to_owned() + &["first_operand"; 8].join(" + ");
    let import = format!("import {{{}}} from \"l\"", ["a_name"; 20].join(","));
    let mut sources: Vec<Vec<u8>> = vec![
        b"f(a ,b)".to_vec(),
        Vec::new(),
        b"a\xFFb".to_vec(),
        b"a\xE2\x82".to_vec(),
        // indented, and a bracket of its own level
        b"on start {\nif a {\n\tb(c ,d)\n}\nelse {\ne\n}\n}\n".to_vec(),
        // over-wide: an expression, an import, and a line of exactly 100 columns, then of 101
        wide.into_bytes(),
        import.into_bytes(),
        [b"a + ".to_vec(), b"b".repeat(96)].concat(),
        [b"a + ".to_vec(), b"b".repeat(97)].concat(),
        // line endings: as most of the source's, and a last one in any case
        b"a\r\nb\r\nc\nd".to_vec(),
        b"a\nb\nc\r\nd\n\n".to_vec(),
    ];
    // the limits, and one byte more
    for length in [MAX_INPUT - 1, MAX_INPUT, MAX_INPUT + 1] {
        sources.push(long(length));
    }
    for length in [MAX_TEXT - 1, MAX_TEXT, MAX_TEXT + 1] {
        sources.push(deep(length));
    }
    // ill-formed and too long: the length is asked first
    sources.push(b"\xFF".repeat(MAX_INPUT + 1));
    // the longest text of all
    sources.push(b"{\n".repeat(MAX_INPUT / 2));
    assert!(sources.iter().all(|source| !source.contains(&0)));
    sources
}

/// What the program at `path` writes.
fn run(path: &str, source: &[u8]) -> io::Result<Vec<u8>> {
    let mut child = Command::new(path)
        .stdin(Stdio::piped())
        .stdout(Stdio::piped())
        .spawn()?;
    let mut stdin = child.stdin.take().expect("piped");
    stdin.write_all(source)?;
    drop(stdin);
    Ok(child.wait_with_output()?.stdout)
}

fn compare(path: &str) -> io::Result<ExitCode> {
    let sources = sources();
    for (number, source) in sources.iter().enumerate() {
        if run(path, source)? != written(source) {
            println!(
                "program: source {number} differs: {}",
                source.escape_ascii()
            );
            return Ok(ExitCode::FAILURE);
        }
    }
    println!("program: {} sources, all agree", sources.len());
    Ok(ExitCode::SUCCESS)
}

fn main() -> io::Result<ExitCode> {
    let words: Vec<String> = std::env::args().skip(1).collect();
    let words: Vec<&str> = words.iter().map(String::as_str).collect();
    let mut out = io::BufWriter::new(io::stdout().lock());
    match words[..] {
        ["sources"] => {
            for source in sources() {
                out.write_all(&source)?;
                out.write_all(b"\0")?;
            }
        }
        ["written"] => {
            for source in sources() {
                let written = written(&source);
                writeln!(out, "{}", written.len())?;
                out.write_all(&written)?;
            }
        }
        ["run", path] => return compare(path),
        _ => {
            eprintln!("program sources | written | run PATH");
            return Ok(ExitCode::from(2));
        }
    }
    out.flush()?;
    Ok(ExitCode::SUCCESS)
}
