//! Messages on a stream: a header that names a length, an empty line, and as many bytes.

use std::io::{self, BufRead, Read, Write};

/// What is read from the stream.
#[derive(Debug, PartialEq, Eq)]
pub enum Frame {
    Body(Vec<u8>),
    /// Something that is no message; reading goes on behind it.
    Bad(&'static str),
    End,
}

/// A longer message is skipped. A document of 1 MiB takes 6 MiB at most.
const MAX_BODY: u64 = 64 << 20;

/// Of a longer line of a header only the end is kept.
const MAX_LINE: u64 = 1 << 16;

/// How much of it is kept: more than a length takes.
const KEPT: usize = 64;

const LENGTH: &[u8] = b"content-length:";

pub fn read(input: &mut impl BufRead) -> io::Result<Frame> {
    let mut length = None;
    let mut fields = 0;
    loop {
        let line = line(input)?;
        if line.is_empty() {
            return Ok(Frame::End);
        }
        let line = line.trim_ascii_end();
        length = length_in(line).or(length);
        if !line.is_empty() {
            fields += 1;
        } else if let Some(length) = length {
            return body(input, length);
        } else if fields > 0 {
            return Ok(Frame::Bad("a header without Content-Length"));
        }
    }
}

/// A line with its ending; nothing at the end of the stream.
fn line(input: &mut impl BufRead) -> io::Result<Vec<u8>> {
    let mut line = Vec::new();
    while input.take(MAX_LINE).read_until(b'\n', &mut line)? > 0 && !line.ends_with(b"\n") {
        line.drain(..line.len().saturating_sub(KEPT));
    }
    Ok(line)
}

/// The length that a line of a header names. Where a message had no length, its body stands in front of the
/// next header, so the name may stand anywhere in the line.
fn length_in(line: &[u8]) -> Option<u64> {
    let starts = |part: &[u8]| part.eq_ignore_ascii_case(LENGTH);
    let at = line.windows(LENGTH.len()).rposition(starts)?;
    let value = line[at + LENGTH.len()..].trim_ascii();
    let digits = !value.is_empty() && value.iter().all(u8::is_ascii_digit);
    let value = std::str::from_utf8(value).ok().filter(|_| digits)?;
    // a number that doesn't fit is too long in any case
    Some(value.parse().unwrap_or(u64::MAX))
}

fn body(input: &mut impl BufRead, length: u64) -> io::Result<Frame> {
    if length > MAX_BODY {
        io::copy(&mut input.take(length), &mut io::sink())?;
        return Ok(Frame::Bad("a message that is too long"));
    }
    let mut body = Vec::new();
    input.take(length).read_to_end(&mut body)?;
    let whole = body.len() as u64 == length;
    Ok(if whole { Frame::Body(body) } else { Frame::End })
}

pub fn write(output: &mut impl Write, body: &str) -> io::Result<()> {
    write!(output, "Content-Length: {}\r\n\r\n{body}", body.len())?;
    output.flush()
}

#[cfg(test)]
mod tests {
    use super::*;

    /// Every frame of a stream, which gives `step` bytes at a time.
    fn frames(stream: &[u8], step: usize) -> Vec<Frame> {
        let mut input = io::BufReader::with_capacity(step, stream);
        let mut frames = Vec::new();
        loop {
            match read(&mut input).expect("a slice can be read") {
                Frame::End => return frames,
                frame => frames.push(frame),
            }
        }
    }

    fn body(text: &str) -> Frame {
        Frame::Body(text.into())
    }

    #[test]
    fn messages_in_pieces_of_any_length() {
        let stream = b"Content-Length: 2\r\n\r\n{}Content-Type: x; charset=utf-8\r\nContent-Length:3\r\n\r\n[1]";
        for step in [1, 2, 3, 7, 1000] {
            assert_eq!(frames(stream, step), [body("{}"), body("[1]")]);
        }
        assert_eq!(frames(b"content-length: 2 \n\n{}", 1), [body("{}")]);
        assert_eq!(frames(b"\r\n\r\nContent-Length: 0\r\n\r\n", 1), [body("")]);
        assert_eq!(frames(b"Content-Length: 2\r\n\r\n\r\n", 1), [body("\r\n")]);
    }

    #[test]
    fn reading_goes_on_behind_what_is_no_message() {
        let bad = || Frame::Bad("a header without Content-Length");
        let stream = b"Content-Type: x\r\n\r\n{\"a\":1}Content-Length: 2\r\n\r\n{}";
        assert_eq!(frames(stream, 5), [bad(), body("{}")]);
        for value in ["", "x", "-1", "+1", "1x", "1 2", "0x1"] {
            let stream = format!("Content-Length: {value}\r\n\r\nContent-Length: 2\r\n\r\n{{}}");
            assert_eq!(frames(stream.as_bytes(), 5), [bad(), body("{}")], "{value}");
        }
        assert_eq!(
            frames(b"\xff\xfe\r\n\r\nContent-Length: 1\r\n\r\n1", 5),
            [bad(), body("1")]
        );
    }

    #[test]
    fn a_stream_that_ends_early() {
        for stream in [
            "",
            "\r\n",
            "Content-Le",
            "Content-Length: 5\r\n",
            "Content-Length: 5\r\n\r\n{}",
        ] {
            assert_eq!(frames(stream.as_bytes(), 5), []);
        }
    }

    #[test]
    fn a_message_that_is_too_long_is_skipped() {
        let length = usize::try_from(MAX_BODY + 1).expect("a length");
        let mut stream = format!("Content-Length: {length}\r\n\r\n").into_bytes();
        stream.resize(stream.len() + length, b'x');
        stream.extend(b"Content-Length: 2\r\n\r\n{}");
        let long = Frame::Bad("a message that is too long");
        assert_eq!(frames(&stream, 1 << 16), [long, body("{}")]);
        let huge = "Content-Length: 99999999999999999999999\r\n\r\n{}";
        assert_eq!(
            frames(huge.as_bytes(), 5),
            [Frame::Bad("a message that is too long")]
        );
    }

    /// Wherever the line is cut.
    #[test]
    fn a_line_that_is_too_long() {
        let most = usize::try_from(MAX_LINE).expect("a length");
        for length in (most - 70..most + 10).chain([3 * most]) {
            let stream = "x".repeat(length) + "\r\nContent-Length: 2\r\n\r\n{}";
            assert_eq!(frames(stream.as_bytes(), 1 << 16), [body("{}")]);
            let stream = "x".repeat(length) + "Content-Length: 2\r\n\r\n{}";
            assert_eq!(frames(stream.as_bytes(), 1 << 16), [body("{}")]);
        }
    }
}
