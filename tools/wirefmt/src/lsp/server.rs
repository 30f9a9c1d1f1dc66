//! The language server: what it answers to each message.

use std::collections::HashMap;

use wirescript_format::{Change as Edit, Formatter, Options, Refusal};

use super::diagnostics;
use super::document::{Change, Document};
use super::json::{self, Value, object};
use super::place::{Walk, range};
use super::rpc::{
    Fault, INVALID_REQUEST, METHOD_NOT_FOUND, Message, NOT_INITIALIZED, PARSE_ERROR,
    REQUEST_FAILED, notification, response,
};
use super::settings::configured;
use super::{tell, tokens};
use crate::report::words;

#[derive(Clone, Copy, Debug, Default, PartialEq, Eq)]
enum State {
    #[default]
    New,
    Ready,
    Down,
}

#[derive(Default)]
pub struct Server {
    state: State,
    documents: HashMap<String, Document>,
    formatter: Formatter,
    /// `exit` was told.
    over: bool,
    /// What is to be written.
    out: Vec<Value>,
}

impl Server {
    pub fn over(&self) -> bool {
        self.over
    }

    pub fn was_shut_down(&self) -> bool {
        self.state == State::Down
    }

    /// Takes the body of a message; gives what is to be written.
    pub fn take(&mut self, body: &[u8]) -> Vec<Value> {
        let text = std::str::from_utf8(body).map_err(|error| error.to_string());
        match text.and_then(|text| json::read(text).map_err(|error| error.to_string())) {
            Ok(Value::Array(batch)) if !batch.is_empty() => self.batch(&batch),
            Ok(value) => {
                let answer = self.message(&value);
                self.out.extend(answer);
            }
            Err(what) => self.out.push(Self::bad(&what)),
        }
        std::mem::take(&mut self.out)
    }

    /// What answers something that is no message.
    pub fn bad(what: &str) -> Value {
        response(&Value::Null, Err(Fault::new(PARSE_ERROR, what)))
    }

    /// The answers of a batch are one array.
    fn batch(&mut self, batch: &[Value]) {
        let answers: Vec<Value> = batch
            .iter()
            .filter_map(|value| self.message(value))
            .collect();
        if !answers.is_empty() {
            self.out.push(answers.into());
        }
    }

    fn message(&mut self, value: &Value) -> Option<Value> {
        match Message::of(value) {
            Message::Response => None,
            Message::Invalid { id, what } => {
                Some(response(id, Err(Fault::new(INVALID_REQUEST, what))))
            }
            Message::Request { id, method, params } => {
                Some(response(id, self.request(method, params)))
            }
            Message::Notification { method, params } => {
                if self.notice(method, params).is_none() {
                    tell(&format!("{method} with parameters that it doesn't have"));
                }
                None
            }
        }
    }

    fn request(&mut self, method: &str, params: &Value) -> Result<Value, Fault> {
        match (self.state, method) {
            (State::New, "initialize") => self.initialize(params),
            (State::New, _) => Err(Fault::new(NOT_INITIALIZED, "the server is not initialized")),
            (State::Ready, "initialize") => {
                Err(Fault::new(INVALID_REQUEST, "the server is initialized"))
            }
            (State::Down, _) => Err(Fault::new(INVALID_REQUEST, "the server is shut down")),
            (State::Ready, "shutdown") => {
                self.state = State::Down;
                Ok(Value::Null)
            }
            (State::Ready, "textDocument/formatting") => self.formatting(params),
            (State::Ready, "textDocument/semanticTokens/full") => self.semantic_tokens(params),
            (State::Ready, _) => Err(Fault::new(METHOD_NOT_FOUND, format!("no method {method}"))),
        }
    }

    /// A notification; `None` where its parameters are not those of its method.
    fn notice(&mut self, method: &str, params: &Value) -> Option<()> {
        match (self.state, method) {
            (_, "exit") => self.over = true,
            (State::Ready, "textDocument/didOpen") => self.did_open(params)?,
            (State::Ready, "textDocument/didChange") => self.did_change(params)?,
            (State::Ready, "textDocument/didClose") => self.did_close(params)?,
            _ => {}
        }
        Some(())
    }

    fn initialize(&mut self, params: &Value) -> Result<Value, Fault> {
        if !matches!(params, Value::Object(_) | Value::Null) {
            return Err(Fault::params("the parameters of initialize are an object"));
        }
        self.state = State::Ready;
        let sync = object([("openClose", true.into()), ("change", 2.into())]);
        let tokens = object([("legend", tokens::legend()), ("full", true.into())]);
        let capabilities = object([
            ("positionEncoding", "utf-16".into()),
            ("textDocumentSync", sync),
            ("documentFormattingProvider", true.into()),
            ("semanticTokensProvider", tokens),
        ]);
        let version = env!("CARGO_PKG_VERSION").into();
        let info = object([("name", "wirefmt".into()), ("version", version)]);
        Ok(object([
            ("capabilities", capabilities),
            ("serverInfo", info),
        ]))
    }

    fn did_open(&mut self, params: &Value) -> Option<()> {
        let item = params.get("textDocument")?;
        let document = Document {
            text: item.get("text")?.string()?.into(),
            version: version(item),
        };
        let uri = item.get("uri")?.string()?;
        self.documents.insert(uri.into(), document);
        self.publish(uri);
        Some(())
    }

    /// Carries out all of the changes, or none where one of them is none.
    fn did_change(&mut self, params: &Value) -> Option<()> {
        let item = params.get("textDocument")?;
        let uri = item.get("uri")?.string()?;
        let changes = params.get("contentChanges")?.array()?;
        let changes: Vec<Change> = changes.iter().map(Change::read).collect::<Option<_>>()?;
        let document = self.documents.get_mut(uri)?;
        for change in changes {
            change.apply(&mut document.text);
        }
        document.version = version(item);
        self.publish(uri);
        Some(())
    }

    /// Takes the diagnostics of a closed document away.
    fn did_close(&mut self, params: &Value) -> Option<()> {
        let uri = params.get("textDocument")?.get("uri")?.string()?;
        let document = self.documents.remove(uri)?;
        self.out.push(published(uri, &document.version, Vec::new()));
        Some(())
    }

    fn publish(&mut self, uri: &str) {
        let document = &self.documents[uri];
        let found = diagnostics::of(&mut self.formatter, uri, &document.text);
        self.out.push(published(uri, &document.version, found));
    }

    /// The URI and the text of the document that a request names.
    fn document<'a>(&self, params: &'a Value) -> Result<(&'a str, &Document), Fault> {
        let uri = params
            .get("textDocument")
            .and_then(|item| item.get("uri")?.string());
        let uri = uri.ok_or_else(|| Fault::params("no textDocument.uri"))?;
        let document = self.documents.get(uri);
        Ok((
            uri,
            document.ok_or_else(|| Fault::params(format!("{uri} is not open")))?,
        ))
    }

    fn formatting(&mut self, params: &Value) -> Result<Value, Fault> {
        let (uri, document) = self.document(params)?;
        let choice = |name| params.get("options").and_then(|options| options.get(name));
        let size = choice("tabSize").and_then(Value::whole);
        let size = size.ok_or_else(|| Fault::params("options.tabSize is a whole number"))?;
        let spaces = choice("insertSpaces").and_then(Value::boolean);
        let spaces =
            spaces.ok_or_else(|| Fault::params("options.insertSpaces is true or false"))?;
        let options = Options::new().indent_with(!spaces, size).map_err(refused)?;
        let options = configured(uri, options).map_err(|why| Fault::new(REQUEST_FAILED, why))?;
        let text = document.text.clone();
        let found = self
            .formatter
            .format_changes(&text, &options)
            .map_err(refused)?;
        let mut walk = Walk::new(&text);
        let edit = |change: &Edit<&str>| {
            let place = [walk.to(change.range.start), walk.to(change.range.end)];
            object([("range", range(place)), ("newText", change.text.into())])
        };
        Ok(Value::Array(found.changes.iter().map(edit).collect()))
    }

    /// The tokens of a document; null for one that is refused, of which its diagnostics tell.
    fn semantic_tokens(&mut self, params: &Value) -> Result<Value, Fault> {
        let text = self.document(params)?.1.text.clone();
        Ok(tokens::data(&mut self.formatter, &text).unwrap_or(Value::Null))
    }
}

fn refused(refusal: Refusal) -> Fault {
    Fault::new(REQUEST_FAILED, words(refusal))
}

/// The number of a text: a whole number, or null.
fn version(item: &Value) -> Value {
    let number = item
        .get("version")
        .filter(|version| version.whole::<i64>().is_some());
    number.cloned().unwrap_or(Value::Null)
}

fn published(uri: &str, version: &Value, diagnostics: Vec<Value>) -> Value {
    let mut params = vec![("uri".to_owned(), uri.into())];
    if *version != Value::Null {
        params.push(("version".to_owned(), version.clone()));
    }
    params.push(("diagnostics".to_owned(), diagnostics.into()));
    notification("textDocument/publishDiagnostics", Value::Object(params))
}
