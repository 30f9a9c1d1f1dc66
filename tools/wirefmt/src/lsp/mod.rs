//! `wirefmt lsp`: a server of the language server protocol, 3.17, on two streams.

mod diagnostics;
mod document;
mod frame;
mod json;
mod place;
mod rpc;
mod server;
mod settings;
mod tokens;

use std::io::{self, BufRead, Write};
use std::process::ExitCode;

use frame::Frame;
use server::Server;

/// Serves until `exit` or the end of the input. Success where `shutdown` was asked for before.
pub fn run(mut input: impl BufRead, mut output: impl Write) -> ExitCode {
    let mut server = Server::default();
    if let Err(error) = serve(&mut server, &mut input, &mut output) {
        tell(&error.to_string());
        return ExitCode::FAILURE;
    }
    if server.was_shut_down() {
        ExitCode::SUCCESS
    } else {
        ExitCode::FAILURE
    }
}

/// A message for the editor's log. One that nobody takes is no reason to stop.
fn tell(what: &str) {
    let _ = writeln!(io::stderr(), "wirefmt lsp: {what}");
}

fn serve(server: &mut Server, input: &mut impl BufRead, output: &mut impl Write) -> io::Result<()> {
    while !server.over() {
        let out = match frame::read(input)? {
            Frame::Body(body) => server.take(&body),
            Frame::Bad(what) => vec![Server::bad(what)],
            Frame::End => return Ok(()),
        };
        for value in out {
            frame::write(output, &value.to_string())?;
        }
    }
    Ok(())
}
