//! The standard streams, by their descriptors. Those of the standard library take one that cannot be read for empty, and
//! what cannot be written for written.

use std::fs::File;
use std::io;
use std::os::fd::AsFd;

pub(crate) fn file(stream: impl AsFd) -> io::Result<File> {
    Ok(File::from(stream.as_fd().try_clone_to_owned()?))
}
