//! How paths are shown.

use std::fmt::Write;
use std::os::unix::ffi::OsStrExt;
use std::path::Path;

/// A path on one line: as it is or, where it has control characters, is no UTF-8 or starts with a
/// quote, in quotes with escapes as git and GNU diff write them.
pub fn shown(path: &Path) -> String {
    prefixed("", path)
}

/// The same with a prefix, which goes inside the quotes.
pub fn prefixed(prefix: &str, path: &Path) -> String {
    match path.to_str() {
        Some(name) if !name.starts_with('"') && !name.contains(char::is_control) => {
            format!("{prefix}{name}")
        }
        _ => quoted(prefix, path.as_os_str().as_bytes()),
    }
}

fn quoted(prefix: &str, name: &[u8]) -> String {
    let mut shown = format!("\"{prefix}");
    for byte in name {
        match byte {
            b'\n' => shown.push_str("\\n"),
            b'\t' => shown.push_str("\\t"),
            b'\r' => shown.push_str("\\r"),
            b'"' | b'\\' => shown.extend(['\\', char::from(*byte)]),
            b' '..=b'~' => shown.push(char::from(*byte)),
            _ => write!(shown, "\\{byte:03o}").expect("a string takes all"),
        }
    }
    shown + "\""
}

#[cfg(test)]
mod tests {
    use super::*;
    use std::ffi::OsStr;

    #[test]
    fn plain_names_are_as_they_are() {
        for name in ["a.ws", "a b.ws", "é.ws", "a\"b", "a\\b"] {
            assert_eq!(shown(Path::new(name)), name);
        }
    }

    #[test]
    fn others_are_quoted() {
        let shown = |name: &[u8]| shown(Path::new(OsStr::from_bytes(name)));
        assert_eq!(shown(b"a\nb\t\"\\\x1b.ws"), r#""a\nb\t\"\\\033.ws""#);
        assert_eq!(shown(b"\xff.ws"), r#""\377.ws""#);
        assert_eq!(shown(b"\"a"), r#""\"a""#);
        assert_eq!(prefixed("a/", Path::new("b\n")), r#""a/b\n""#);
    }
}
