//! JSON-RPC 2.0: what a message is, and what is answered.

use super::json::{Value, object};

/// Why a request is not answered with a result.
#[derive(Clone, Debug, PartialEq, Eq)]
pub struct Fault {
    pub code: i64,
    pub message: String,
}

pub const PARSE_ERROR: i64 = -32700;
pub const INVALID_REQUEST: i64 = -32600;
pub const METHOD_NOT_FOUND: i64 = -32601;
pub const INVALID_PARAMS: i64 = -32602;
pub const NOT_INITIALIZED: i64 = -32002;
pub const REQUEST_FAILED: i64 = -32803;

impl Fault {
    pub fn new(code: i64, message: impl Into<String>) -> Self {
        Self {
            code,
            message: message.into(),
        }
    }

    pub fn params(message: impl Into<String>) -> Self {
        Self::new(INVALID_PARAMS, message)
    }
}

/// A message from the client.
#[derive(Debug, PartialEq, Eq)]
pub enum Message<'a> {
    Request {
        id: &'a Value,
        method: &'a str,
        params: &'a Value,
    },
    Notification {
        method: &'a str,
        params: &'a Value,
    },
    /// To a request of the server; it makes none.
    Response,
    /// Answered with the identifier, where there is one.
    Invalid {
        id: &'a Value,
        what: &'static str,
    },
}

impl<'a> Message<'a> {
    pub fn of(value: &'a Value) -> Self {
        let id = value.get("id");
        let known = id.filter(|id| matches!(id, Value::Number(_) | Value::String(_)));
        let invalid = |what| Self::Invalid {
            id: known.unwrap_or(&Value::Null),
            what,
        };
        if !matches!(value, Value::Object(_)) {
            return invalid("a message is an object");
        }
        if value.get("jsonrpc").and_then(Value::string) != Some("2.0") {
            return invalid("a message has \"jsonrpc\": \"2.0\"");
        }
        if value.get("method").is_none() && (value.get("result").or(value.get("error"))).is_some() {
            return Self::Response;
        }
        let Some(method) = value.get("method").and_then(Value::string) else {
            return invalid("a message has a method");
        };
        let params = value.get("params").unwrap_or(&Value::Null);
        match (id, known) {
            (None, _) => Self::Notification { method, params },
            (_, Some(id)) => Self::Request { id, method, params },
            _ => invalid("an identifier is a number or a string"),
        }
    }
}

pub fn response(id: &Value, outcome: Result<Value, Fault>) -> Value {
    let (name, value) = match outcome {
        Ok(result) => ("result", result),
        Err(fault) => (
            "error",
            object([
                ("code", fault.code.into()),
                ("message", fault.message.as_str().into()),
            ]),
        ),
    };
    object([("jsonrpc", "2.0".into()), ("id", id.clone()), (name, value)])
}

pub fn notification(method: &str, params: Value) -> Value {
    object([
        ("jsonrpc", "2.0".into()),
        ("method", method.into()),
        ("params", params),
    ])
}
