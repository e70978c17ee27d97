//! What a command is: a row of the table by which arguments are read, help is written and the work is done.

use crate::arguments::Call;
use std::io::{self, Write};

pub(crate) struct Command {
    pub(crate) name: &'static str,
    /// One line: what it does, for the help of the program.
    pub(crate) summary: &'static str,
    /// How it is called, without the program's name.
    pub(crate) usage: &'static str,
    /// What its own help says behind that, examples among it.
    pub(crate) about: &'static str,
    pub(crate) options: &'static [Choice],
    /// Whether more than one file may be named.
    pub(crate) several: bool,
    /// An error is one of writing to standard output.
    pub(crate) run: fn(&Call, &mut dyn Write) -> io::Result<Status>,
}

/// An option that a command may have.
#[derive(Clone, Copy, PartialEq, Eq)]
pub(crate) enum Choice {
    Color,
    Json,
    Large,
}

/// The exit status; of several files, the greatest of theirs.
#[derive(Clone, Copy, PartialEq, Eq, PartialOrd, Ord)]
pub(crate) enum Status {
    Accepted = 0,
    Refused = 1,
    Failed = 2,
}
