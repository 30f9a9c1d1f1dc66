//! A client that compares every byte that comes back.

use std::fmt::Display;
use std::io::{BufRead, BufReader, Read, Write};
use std::process::{Child, ChildStdin, ChildStdout, Command, Stdio};

use crate::folder::WIREFMT;

pub struct Client {
    child: Child,
    input: ChildStdin,
    output: BufReader<ChildStdout>,
}

impl Client {
    pub fn new() -> Self {
        Self::started(&["lsp"])
    }

    pub fn started(arguments: &[&str]) -> Self {
        let mut child = Command::new(WIREFMT)
            .args(arguments)
            .stdin(Stdio::piped())
            .stdout(Stdio::piped())
            .stderr(Stdio::null())
            .spawn()
            .expect("wirefmt starts");
        let input = child.stdin.take().expect("a pipe");
        let output = BufReader::new(child.stdout.take().expect("a pipe"));
        Self {
            child,
            input,
            output,
        }
    }

    /// A client of a server that is initialized.
    pub fn ready() -> Self {
        let mut client = Self::new();
        client.send(&request(0, "initialize", r#"{"capabilities":{}}"#));
        client.receive();
        client.send(&notification("initialized", "{}"));
        client
    }

    pub fn send_bytes(&mut self, bytes: &[u8]) {
        self.input.write_all(bytes).expect("the server reads");
        self.input.flush().expect("the server reads");
    }

    pub fn send(&mut self, body: &str) {
        self.send_bytes(framed(body).as_bytes());
    }

    /// The next message, whose header must be one line.
    pub fn receive(&mut self) -> String {
        let mut header = String::new();
        self.output
            .read_line(&mut header)
            .expect("the server writes");
        let length = header
            .strip_prefix("Content-Length: ")
            .and_then(|n| n.strip_suffix("\r\n"));
        let length: usize = length
            .and_then(|n| n.parse().ok())
            .unwrap_or_else(|| panic!("{header:?}"));
        let mut rest = vec![0; length + 2];
        self.output
            .read_exact(&mut rest)
            .expect("the server writes");
        let rest = String::from_utf8(rest).expect("UTF-8");
        rest.strip_prefix("\r\n").expect("an empty line").to_owned()
    }

    pub fn expect(&mut self, body: &str) {
        assert_eq!(self.receive(), body);
    }

    /// Sends a message and compares what comes back.
    pub fn ask(&mut self, body: &str, answer: &str) {
        self.send(body);
        self.expect(answer);
    }

    /// Opens a document and compares its diagnostics, given as the inside of their list.
    pub fn open(&mut self, uri: &str, text: &str, diagnostics: &str) {
        self.ask(&opened(uri, text), &published(uri, 1, diagnostics));
    }

    pub fn change(&mut self, uri: &str, version: u32, changes: &str, diagnostics: &str) {
        let answer = published(uri, version, diagnostics);
        self.ask(&did_change(uri, version, &format!("[{changes}]")), &answer);
    }

    /// Asks for a document's edits with an indent of two spaces; gives the result.
    pub fn edits(&mut self, uri: &str) -> String {
        self.send(&formatting(7, uri, 2, true));
        let answer = self.receive();
        let result = answer.strip_prefix(r#"{"jsonrpc":"2.0","id":7,"result":"#);
        result
            .and_then(|r| r.strip_suffix('}'))
            .unwrap_or_else(|| panic!("{answer}"))
            .to_owned()
    }

    /// Ends the conversation; whatever the server still writes comes back with its exit status.
    pub fn end(mut self) -> (Option<i32>, String) {
        drop(self.input);
        let mut rest = String::new();
        self.output.read_to_string(&mut rest).expect("UTF-8");
        (self.child.wait().expect("an end").code(), rest)
    }

    pub fn shut_down(mut self) {
        self.ask(
            r#"{"jsonrpc":"2.0","id":"end","method":"shutdown"}"#,
            &result("\"end\"", "null"),
        );
        self.send(r#"{"jsonrpc":"2.0","method":"exit"}"#);
        assert_eq!(self.end(), (Some(0), String::new()));
    }
}

pub fn framed(body: &str) -> String {
    format!("Content-Length: {}\r\n\r\n{body}", body.len())
}

/// A JSON string in which every unit is escaped.
pub fn quoted(text: &str) -> String {
    let escape = |unit| format!("\\u{unit:04x}");
    let escaped: Vec<String> = text.encode_utf16().map(escape).collect();
    format!("\"{}\"", escaped.concat())
}

pub fn notification(method: &str, params: &str) -> String {
    format!(r#"{{"jsonrpc":"2.0","method":"{method}","params":{params}}}"#)
}

pub fn request(id: u32, method: &str, params: &str) -> String {
    format!(r#"{{"jsonrpc":"2.0","id":{id},"method":"{method}","params":{params}}}"#)
}

/// What answers a request; the identifier as JSON.
pub fn result(id: impl Display, value: &str) -> String {
    format!(r#"{{"jsonrpc":"2.0","id":{id},"result":{value}}}"#)
}

pub fn error(id: impl Display, code: i32, message: &str) -> String {
    format!(r#"{{"jsonrpc":"2.0","id":{id},"error":{{"code":{code},"message":"{message}"}}}}"#)
}

/// With the text as JSON.
pub fn opened_as(uri: &str, version: u32, text: &str) -> String {
    let named = format!(r#""uri":"{uri}","languageId":"wirescript""#);
    let item = format!(r#"{{{named},"version":{version},"text":{text}}}"#);
    notification(
        "textDocument/didOpen",
        &format!(r#"{{"textDocument":{item}}}"#),
    )
}

pub fn opened(uri: &str, text: &str) -> String {
    opened_as(uri, 1, &quoted(text))
}

/// With the list of changes as JSON.
pub fn did_change(uri: &str, version: u32, changes: &str) -> String {
    let item = format!(r#"{{"uri":"{uri}","version":{version}}}"#);
    let params = format!(r#"{{"textDocument":{item},"contentChanges":{changes}}}"#);
    notification("textDocument/didChange", &params)
}

pub fn published(uri: &str, version: u32, diagnostics: &str) -> String {
    let params = format!(r#"{{"uri":"{uri}","version":{version},"diagnostics":[{diagnostics}]}}"#);
    notification("textDocument/publishDiagnostics", &params)
}

pub fn formatting(id: u32, uri: &str, size: u32, spaces: bool) -> String {
    let options = format!(r#""tabSize":{size},"insertSpaces":{spaces},"trimFinalNewlines":false"#);
    formatting_by(id, uri, &format!(r#","options":{{{options}}}"#))
}

/// With what stands behind the document as JSON.
pub fn formatting_by(id: u32, uri: &str, more: &str) -> String {
    let params = format!(r#"{{"textDocument":{{"uri":"{uri}"}}{more}}}"#);
    request(id, "textDocument/formatting", &params)
}

pub fn tokens(id: u32, uri: &str) -> String {
    let params = format!(r#"{{"textDocument":{{"uri":"{uri}"}}}}"#);
    request(id, "textDocument/semanticTokens/full", &params)
}

pub fn range([line, character, end_line, end_character]: [u64; 4]) -> String {
    let place = |line, character| format!(r#"{{"line":{line},"character":{character}}}"#);
    let (start, end) = (place(line, character), place(end_line, end_character));
    format!(r#"{{"start":{start},"end":{end}}}"#)
}

pub fn edit(place: [u64; 4], text: &str) -> String {
    format!(r#"{{"range":{},"newText":"{text}"}}"#, range(place))
}

/// A change of a range, as a client sends it.
pub fn changed(place: [u64; 4], text: &str) -> String {
    format!(r#"{{"range":{},"text":{}}}"#, range(place), quoted(text))
}

pub fn diagnostic(place: [u64; 4], severity: u32, message: &str) -> String {
    format!(
        r#"{{"range":{},"severity":{severity},"source":"wirefmt","message":"{message}"}}"#,
        range(place)
    )
}

pub fn open_bracket(place: [u64; 4]) -> String {
    diagnostic(place, 2, "a bracket opened on this line is never closed")
}
pub const INITIALIZED: &str = concat!(
    r#"{"jsonrpc":"2.0","id":1,"result":{"capabilities":{"positionEncoding":"utf-16","#,
    r#""textDocumentSync":{"openClose":true,"change":2},"documentFormattingProvider":true,"#,
    r#""semanticTokensProvider":{"legend":{"tokenTypes":["string","comment"],"tokenModifiers":[]},"full":true}},"#,
    r#""serverInfo":{"name":"wirefmt","version":""#,
    env!("CARGO_PKG_VERSION"),
    r#""}}}"#
);
