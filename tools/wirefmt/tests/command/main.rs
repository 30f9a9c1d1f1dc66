//! Runs the command as a user does. Texts are those of document 01's rules, written by hand.

mod faults;
mod files;
mod folder;
mod large;
mod options;
mod output;
mod status;
mod terminal;
