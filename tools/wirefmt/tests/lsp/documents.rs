//! Documents: places in them, their diagnostics and their settings.

use crate::client::*;
use crate::folder::Folder;

#[test]
fn positions_are_in_utf16_and_clamped() {
    let mut client = Client::ready();
    // behind a pair of surrogates
    client.open("a", "\"\u{1f600}\"  ,b\r\n\u{e9}  \r\n", "");
    let edits = [edit([0, 4, 0, 7], ", "), edit([1, 1, 2, 0], "\\r\\n")];
    assert_eq!(client.edits("a"), format!("[{}]", edits.join(",")));
    // past the line's end is its end, before the CRLF; past the last line the end of the text
    client.change("a", 2, &changed([0, 99, 0, 99], "  "), "");
    let edits = [
        edit([0, 4, 0, 7], ", "),
        edit([0, 8, 1, 0], "\\r\\n"),
        edit([1, 1, 2, 0], "\\r\\n"),
    ];
    assert_eq!(client.edits("a"), format!("[{}]", edits.join(",")));
    client.change(
        "a",
        3,
        &changed([9, 9, 9, 9], "("),
        &open_bracket([2, 0, 2, 1]),
    );
    // between the halves of a pair is before it
    client.change("a", 4, &changed([0, 2, 2, 9], "x\" ,y"), "");
    assert_eq!(
        client.edits("a"),
        format!(
            "[{},{}]",
            edit([0, 3, 0, 5], ", "),
            edit([0, 6, 0, 6], "\\n")
        )
    );
    client.shut_down();
}

/// A CR alone ends a line of the protocol, but none of the formatter.
#[test]
fn line_endings() {
    let mut client = Client::ready();
    client.open("a", "b\rc (\r\nd", &open_bracket([0, 0, 1, 3]));
    assert_eq!(
        client.edits("a"),
        format!(
            "[{},{}]",
            edit([1, 3, 2, 0], "\\r\\n  "),
            edit([2, 1, 2, 1], "\\r\\n")
        )
    );
    client.change("a", 2, &changed([1, 2, 2, 0], ""), "");
    client.shut_down();
}

/// Half of a surrogate pair, which a text of JSON can hold and UTF-8 can't, is one unit like any other.
#[test]
fn a_lone_surrogate() {
    let mut client = Client::ready();
    client.send(&opened_as("a", 1, r#""\ud83d ,b\n""#));
    client.expect(&published("a", 1, ""));
    assert_eq!(client.edits("a"), format!("[{}]", edit([0, 1, 0, 3], ", ")));
    client.shut_down();
}

#[test]
fn brackets_still_open() {
    let mut client = Client::ready();
    let two = diagnostic(
        [2, 0, 2, 4],
        2,
        "2 brackets opened on this line are never closed",
    );
    client.open(
        "a",
        "f(a,\n(b)\n  [{\r\n",
        &[open_bracket([0, 0, 0, 4]), two].join(","),
    );
    client.change("a", 2, r#"{"text":"\"(\" // ("}"#, "");
    let all = diagnostic(
        [0, 0, 0, 0],
        2,
        "1001 brackets are never closed; the first 1000 are shown",
    );
    let first = diagnostic(
        [0, 0, 0, 1001],
        2,
        "1000 brackets opened on this line are never closed",
    );
    let text = format!(r#"{{"text":"{}"}}"#, "(".repeat(1001));
    client.change("a", 3, &text, &[first, all].join(","));
    client.shut_down();
}

const MIB: usize = 1 << 20;

#[test]
fn a_document_over_the_limit() {
    let mut client = Client::ready();
    // the limit stands inside a character, behind a line of units of two bytes
    let text = "\u{e9}\n".repeat(5) + "  " + &"\u{e9}".repeat((MIB - 16) / 2);
    let column = (MIB as u64 - 18) / 2 + 2;
    let message = "the source is over 1048576 bytes";
    client.open(
        "a",
        &text,
        &diagnostic([5, column, 5, column + 1], 1, message),
    );
    client.ask(&formatting(1, "a", 2, true), &error(1, -32803, message));
    client.ask(&tokens(2, "a"), &result(2, "null"));
    // at the limit it is formatted
    client.change("a", 2, &changed([5, 0, 5, 2], ""), "");
    assert_eq!(
        client.edits("a"),
        format!("[{}]", edit([5, column - 1, 5, column - 1], "\\n"))
    );
    client.shut_down();
}

/// A document in a folder whose name has to be encoded, and the .editorconfig file beside it.
struct Configured {
    folder: Folder,
    uri: String,
}

impl Configured {
    fn new() -> Self {
        let folder = Folder::new();
        let uri = format!("file://{}/a%20%C3%A9%25/gate.ws", folder.path().display());
        Self { folder, uri }
    }

    fn write(&self, text: &str) {
        let text = format!("root = true\n{text}");
        self.folder.write("a \u{e9}%/.editorconfig", text);
    }
}

#[test]
fn editorconfig_wins_over_the_editor() {
    let file = Configured::new();
    let mut client = Client::ready();
    file.write("[gate.ws]\nindent_style = space\nindent_size = 3\nend_of_line = crlf\n");
    client.open(&file.uri, "{\na\n}\n", "");
    let crlf = [
        edit([0, 1, 1, 0], "\\r\\n   "),
        edit([1, 1, 2, 0], "\\r\\n"),
        edit([2, 1, 3, 0], "\\r\\n"),
    ];
    assert_eq!(client.edits(&file.uri), format!("[{}]", crlf.join(",")));
    // what it leaves open is the editor's
    file.write("[*.md]\nindent_size = 3\n");
    let spaces = edit([0, 1, 1, 0], "\\n  ");
    assert_eq!(client.edits(&file.uri), format!("[{spaces}]"));
    file.write("[*]\nindent_style = tab\n");
    let tab = edit([0, 1, 1, 0], "\\n\\t");
    assert_eq!(client.edits(&file.uri), format!("[{tab}]"));
    client.shut_down();
}

/// What a file of settings has refused is told, and brackets are looked for all the same.
#[test]
fn a_refused_editorconfig() {
    let file = Configured::new();
    let mut client = Client::ready();
    file.write("[*]\nindent_size = 65\n");
    let refused = "its .editorconfig files: an indent is at most 64 spaces or tabs";
    let told = diagnostic([0, 0, 0, 0], 1, refused);
    let both = [told, open_bracket([0, 0, 0, 1])].join(",");
    client.open(&file.uri, "{", &both);
    client.ask(
        &formatting(1, &file.uri, 2, true),
        &error(1, -32803, refused),
    );
    client.shut_down();
}
