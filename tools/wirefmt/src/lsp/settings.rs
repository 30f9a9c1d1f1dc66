//! The options of a document: the editor's indent, and over it what .editorconfig files say.

use std::ffi::OsString;
use std::os::unix::ffi::OsStringExt;
use std::path::PathBuf;

use wirescript_format::Options;

use crate::settings;

/// The path of a `file:` URI on this machine.
pub fn path(uri: &str) -> Option<PathBuf> {
    let (scheme, rest) = uri.split_once("://")?;
    let (host, _) = rest.split_once('/')?;
    let here = host.is_empty() || host.eq_ignore_ascii_case("localhost");
    if !scheme.eq_ignore_ascii_case("file") || !here {
        return None;
    }
    let path = rest[host.len()..].split(['?', '#']).next()?;
    Some(OsString::from_vec(decoded(path.as_bytes())?).into())
}

/// The bytes of a percent-encoded text.
fn decoded(text: &[u8]) -> Option<Vec<u8>> {
    let mut bytes = Vec::new();
    let mut rest = text;
    while let Some((first, after)) = rest.split_first() {
        if *first == b'%' {
            let digit = |place: usize| char::from(*after.get(place)?).to_digit(16);
            bytes.push(u8::try_from(16 * digit(0)? + digit(1)?).ok()?);
            rest = &after[2..];
        } else {
            bytes.push(*first);
            rest = after;
        }
    }
    Some(bytes)
}

/// Options with what the .editorconfig files of a document set, or why they can't be had.
pub fn configured(uri: &str, options: Options) -> Result<Options, String> {
    match path(uri) {
        Some(path) => settings::configured(&options, &path).map_err(|trouble| trouble.what),
        None => Ok(options),
    }
}

#[cfg(test)]
mod tests {
    use super::*;

    #[test]
    fn paths_of_uris() {
        let is = |uri: &str, expected: &str| assert_eq!(path(uri), Some(expected.into()), "{uri}");
        is("file:///a/b.ws", "/a/b.ws");
        is("file:///a%20b/%C3%A9%2f%25.ws", "/a b/\u{e9}/%.ws");
        is("FILE://localhost/a", "/a");
        is("file:///a?query", "/a");
        is("file:///a%3Fb%23#part", "/a?b#");
        let bytes = OsString::from_vec(b"/\xff".into());
        assert_eq!(path("file:///%ff"), Some(bytes.into()));
    }

    #[test]
    fn other_uris_have_no_path() {
        for uri in [
            "",
            "a",
            "untitled:Untitled-1",
            "file:",
            "file://",
            "file://host/a",
            "http:///a",
            "file:///%",
            "file:///%4",
            "file:///%zz",
            "file:///%+1",
        ] {
            assert_eq!(path(uri), None, "{uri}");
        }
    }
}
