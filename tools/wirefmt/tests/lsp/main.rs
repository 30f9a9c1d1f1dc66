//! Conversations with `wirefmt lsp`, in which every byte that comes back is compared.

mod client;
mod documents;
#[path = "../command/folder.rs"]
#[expect(dead_code, reason = "the tests of the command use the rest")]
mod folder;
mod model;
mod session;
