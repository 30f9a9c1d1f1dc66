//! The order of a session, and messages that are malformed, meaningless, together or in pieces.

use crate::client::*;

#[test]
fn a_whole_conversation() {
    let mut client = Client::new();
    let uri = "untitled:Untitled-1";
    let general = r#"{"general":{"positionEncodings":["utf-8","utf-16"]}}"#;
    let params = format!(r#"{{"processId":null,"rootUri":null,"capabilities":{general}}}"#);
    client.ask(&request(1, "initialize", &params), INITIALIZED);
    client.send(&notification("initialized", "{}"));
    client.open(uri, "f(a ,b)\n{\nx", &open_bracket([1, 0, 1, 1]));
    edited(&mut client, uri);
    client.change(uri, 4, r#"{"text":"a = \"b\" // c"}"#, "");
    client.ask(
        &tokens(5, uri),
        &result(5, r#"{"data":[0,4,3,0,0,0,4,4,1,0]}"#),
    );
    let item = format!(r#"{{"textDocument":{{"uri":"{uri}"}}}}"#);
    client.send(&notification("textDocument/didClose", &item));
    client.expect(&published(uri, 4, ""));
    client.ask(
        &formatting(6, uri, 2, true),
        &error(6, -32602, "untitled:Untitled-1 is not open"),
    );
    client.shut_down();
}

/// Edits asked for, carried out and asked for again.
fn edited(client: &mut Client, uri: &str) {
    let edits = [
        edit([0, 3, 0, 5], ", "),
        edit([1, 1, 2, 0], "\\n    "),
        edit([2, 1, 2, 1], "\\n"),
    ];
    let answer = |id: u32, edits: &[String]| result(id, &format!("[{}]", edits.join(",")));
    client.ask(&formatting(2, uri, 4, true), &answer(2, &edits));
    // as an editor carries them out, the last first
    let changes = [
        changed([2, 1, 2, 1], "\n"),
        changed([1, 1, 2, 0], "\n    "),
        changed([0, 3, 0, 5], ", "),
    ];
    client.change(uri, 2, &changes.join(","), &open_bracket([1, 0, 1, 1]));
    client.ask(&formatting(3, uri, 4, true), &answer(3, &[]));
    client.change(uri, 3, &changed([3, 0, 3, 0], "}\n"), "");
    let tab = edit([1, 1, 2, 4], "\\n\\t");
    client.ask(&formatting(4, uri, 8, false), &answer(4, &[tab]));
}

#[test]
fn the_order_of_a_session() {
    let mut client = Client::new();
    let not_yet = &error(1, -32002, "the server is not initialized");
    client.ask(&formatting(1, "a", 2, true), not_yet);
    client.ask(r#"{"jsonrpc":"2.0","id":1,"method":"shutdown"}"#, not_yet);
    // a notification before initialize is dropped
    client.send(&opened("a", "("));
    client.ask(
        r#"{"jsonrpc":"2.0","id":1,"method":"initialize","params":[]}"#,
        &error(1, -32602, "the parameters of initialize are an object"),
    );
    client.ask(
        r#"{"jsonrpc":"2.0","id":1,"method":"initialize","params":{}}"#,
        INITIALIZED,
    );
    client.ask(
        r#"{"jsonrpc":"2.0","id":2,"method":"initialize","params":{}}"#,
        &error(2, -32600, "the server is initialized"),
    );
    client.ask(
        &formatting(3, "a", 2, true),
        &error(3, -32602, "a is not open"),
    );
    client.ask(
        r#"{"jsonrpc":"2.0","id":4,"method":"shutdown"}"#,
        &result(4, "null"),
    );
    client.ask(
        r#"{"jsonrpc":"2.0","id":5,"method":"shutdown"}"#,
        &error(5, -32600, "the server is shut down"),
    );
    client.send(r#"{"jsonrpc":"2.0","method":"exit"}"#);
    // nothing is read behind exit
    assert_eq!(client.end(), (Some(0), String::new()));
}

/// Some editors say how they talk to a server.
#[test]
fn standard_streams_may_be_named() {
    let mut client = Client::started(&["lsp", "--stdio"]);
    client.ask(
        r#"{"jsonrpc":"2.0","id":1,"method":"initialize","params":{}}"#,
        INITIALIZED,
    );
    client.shut_down();
}

#[test]
fn exit_without_shutdown_is_a_failure() {
    let exit = r#"{"jsonrpc":"2.0","method":"exit"}"#;
    let mut client = Client::new();
    client.send(exit);
    assert_eq!(client.end(), (Some(1), String::new()));
    let mut client = Client::ready();
    client.send(exit);
    assert_eq!(client.end(), (Some(1), String::new()));
    assert_eq!(Client::ready().end(), (Some(1), String::new()));
    let mut client = Client::ready();
    client.send_bytes(b"Content-Length: 100\r\n\r\n{");
    assert_eq!(client.end(), (Some(1), String::new()));
}

/// What is no message, what is no request, and what comes back: an identifier, a code and words, as JSON.
const MALFORMED: [(&str, &str, i32, &str); 13] = [
    ("", "null", -32700, "no value at byte 0"),
    ("{", "null", -32700, "no name at byte 1"),
    (
        r#"{"jsonrpc":"2.0","id":1,"method":"shutdown"}}"#,
        "null",
        -32700,
        "more than one value at byte 44",
    ),
    ("[]", "null", -32600, "a message is an object"),
    ("1", "null", -32600, "a message is an object"),
    (
        r#"{"id":1,"method":"shutdown"}"#,
        "1",
        -32600,
        r#"a message has \"jsonrpc\": \"2.0\""#,
    ),
    (
        r#"{"jsonrpc":"2.0","id":1}"#,
        "1",
        -32600,
        "a message has a method",
    ),
    (
        r#"{"jsonrpc":"2.0","id":"x","method":7}"#,
        r#""x""#,
        -32600,
        "a message has a method",
    ),
    (
        r#"{"jsonrpc":"2.0","id":{},"method":"shutdown"}"#,
        "null",
        -32600,
        "an identifier is a number or a string",
    ),
    (
        r#"{"jsonrpc":"2.0","id":-7,"method":"textDocument/onTypeFormatting"}"#,
        "-7",
        -32601,
        "no method textDocument/onTypeFormatting",
    ),
    (
        r#"{"jsonrpc":"2.0","id":2,"method":"$/what"}"#,
        "2",
        -32601,
        "no method $/what",
    ),
    (
        r#"{"jsonrpc":"2.0","id":3,"method":"textDocument/formatting","params":{"textDocument":{}}}"#,
        "3",
        -32602,
        "no textDocument.uri",
    ),
    (
        r#"{"jsonrpc":"2.0","id":3,"method":"textDocument/semanticTokens/full","params":"x"}"#,
        "3",
        -32602,
        "no textDocument.uri",
    ),
];

#[test]
fn malformed_messages_are_answered_and_survived() {
    let mut client = Client::ready();
    client.open("a", "b ", "");
    for (message, id, code, words) in MALFORMED {
        client.ask(message, &error(id, code, words));
    }
    client.send_bytes(b"Content-Length: 2\r\n\r\n\"\xff");
    client.expect(&error(
        "null",
        -32700,
        "invalid utf-8 sequence of 1 bytes from index 1",
    ));
    client.ask(
        &"[".repeat(100_000),
        &error("null", -32700, "nested too deep at byte 129"),
    );
    let bad = &error("null", -32700, "a header without Content-Length");
    client.send_bytes(b"Content-Type: application/vscode-jsonrpc\r\n\r\n");
    client.expect(bad);
    // the body of a message without a length stands before the next header
    client.send_bytes(b"{\"jsonrpc\":\"2.0\",\"id\":1,\"method\":\"shutdown\"}");
    assert_eq!(
        client.edits("a"),
        format!("[{}]", edit([0, 1, 0, 2], "\\n"))
    );
    client.send_bytes(b"Content-Length: many\r\n\r\n");
    client.expect(bad);
    assert_eq!(
        client.edits("a"),
        format!("[{}]", edit([0, 1, 0, 2], "\\n"))
    );
    client.shut_down();
}

#[test]
fn options_that_are_none() {
    let mut client = Client::ready();
    client.open("a", "b ", "");
    let asked = |options: &str| formatting_by(1, "a", options);
    let size = &error(1, -32602, "options.tabSize is a whole number");
    client.ask(&asked(""), size);
    client.ask(
        &asked(r#","options":{"tabSize":"2","insertSpaces":true}"#),
        size,
    );
    client.ask(
        &asked(r#","options":{"tabSize":-1,"insertSpaces":true}"#),
        size,
    );
    client.ask(
        &asked(r#","options":{"tabSize":1.5,"insertSpaces":true}"#),
        size,
    );
    client.ask(
        &asked(r#","options":{"tabSize":2,"insertSpaces":1}"#),
        &error(1, -32602, "options.insertSpaces is true or false"),
    );
    client.ask(
        &asked(r#","options":{"tabSize":65,"insertSpaces":true}"#),
        &error(1, -32803, "an indent is at most 64 spaces or tabs"),
    );
    client.shut_down();
}

/// Notifications that mean nothing here get no answer, and change nothing.
#[test]
fn notifications_without_effect() {
    let mut client = Client::ready();
    client.open("a", "b ", "");
    for message in [
        notification("$/cancelRequest", r#"{"id":7}"#),
        notification("$/setTrace", r#"{"value":"verbose"}"#),
        notification("workspace/didChangeConfiguration", r#"{"settings":{}}"#),
        notification("textDocument/didSave", r#"{"textDocument":{"uri":"a"}}"#),
        notification("textDocument/formatting", r#"{"textDocument":{"uri":"a"}}"#),
        r#"{"jsonrpc":"2.0","method":"textDocument/didOpen"}"#.to_owned(),
        opened_as("b", 1, "7"),
        did_change("c", 2, r#"[{"text":"("}]"#),
        did_change("a", 2, r#"[{"text":"("},{"text":1}]"#),
        did_change("a", 2, r#"{"text":"("}"#),
        notification("textDocument/didClose", r#"{"textDocument":{"uri":"d"}}"#),
        result(9, "null"),
        error(9, 1, "no"),
    ] {
        client.send(&message);
    }
    assert_eq!(
        client.edits("a"),
        format!("[{}]", edit([0, 1, 0, 2], "\\n"))
    );
    client.shut_down();
}

/// Many messages in one write, and one message in many writes.
#[test]
fn messages_together_and_in_pieces() {
    let mut client = Client::ready();
    client.open("a", "b", "");
    let insert = |version| {
        framed(&did_change(
            "a",
            version,
            &format!("[{}]", changed([0, 0, 0, 0], "(")),
        ))
    };
    let together: String = (2..50).map(insert).collect();
    client.send_bytes(together.as_bytes());
    client.expect(&published("a", 2, &open_bracket([0, 0, 0, 2])));
    for version in 3..50 {
        let message = format!(
            "{} brackets opened on this line are never closed",
            version - 1
        );
        let place = [0, 0, 0, u64::from(version)];
        client.expect(&published("a", version, &diagnostic(place, 2, &message)));
    }
    for byte in format!("Content-Type: x\r\n{}", insert(50)).bytes() {
        client.send_bytes(&[byte]);
    }
    let message = diagnostic(
        [0, 0, 0, 50],
        2,
        "49 brackets opened on this line are never closed",
    );
    client.expect(&published("a", 50, &message));
    client.shut_down();
}

/// A batch of JSON-RPC: its answers come in one array, and none where it has notifications alone.
#[test]
fn batches() {
    let mut client = Client::ready();
    let initialized = r#"{"jsonrpc":"2.0","method":"initialized"}"#;
    client.send(&format!("[{},{initialized}]", opened_as("a", 5, r#""b""#)));
    client.expect(&published("a", 5, ""));
    client.ask(
        r#"[{"jsonrpc":"2.0","id":1,"method":"x"},{"jsonrpc":"2.0","method":"y"},7]"#,
        &format!(
            "[{},{}]",
            error(1, -32601, "no method x"),
            error("null", -32600, "a message is an object")
        ),
    );
    client.shut_down();
}
