//! Drafts are read from files or from standard input.

use crate::{errors, standard};
use std::ffi::OsStr;
use std::fs::File;
use std::io::{self, Read};
use togmelic::Limits;

/// The draft in a file; `-` is standard input. No more is read than tells a draft that is too long.
pub(crate) fn read(file: &OsStr, limits: Limits) -> io::Result<Vec<u8>> {
    let stream = if file == "-" {
        standard::file(io::stdin())?
    } else {
        File::open(file)?
    };
    let mut draft = Vec::new();
    stream
        .take(limits.bytes() as u64 + 1)
        .read_to_end(&mut draft)?;
    Ok(draft)
}

/// The same for a command of one file: where it cannot be read this is said.
pub(crate) fn read_or_complain(file: &OsStr, limits: Limits) -> Option<Vec<u8>> {
    read(file, limits)
        .map_err(|error| errors::of_file(file, &error))
        .ok()
}
