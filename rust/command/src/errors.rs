//! What is said on standard error.

use crate::{standard, terminal};
use std::ffi::OsStr;
use std::io::{self, IsTerminal, Write};

/// Says on standard error what the system says of a file.
pub(crate) fn of_file(file: &OsStr, error: &io::Error) {
    complain(&[file, text(error).as_ref()]);
}

/// Says on standard error what is wrong, in one line. Its parts may come from the arguments.
pub(crate) fn complain(parts: &[&OsStr]) {
    let is_terminal = io::stderr().is_terminal();
    let mut line = b"togmelic".to_vec();
    for part in parts {
        line.extend(b": ");
        line.extend(terminal::safe(part, is_terminal));
    }
    line.push(b'\n');
    warn(&line);
}

/// Writes to standard error, and answers whether it could. Where that fails nobody can be told.
pub(crate) fn warn(text: &[u8]) -> bool {
    match standard::file(io::stderr()) {
        Ok(mut stream) => stream.write_all(text).is_ok(),
        // No descriptor is left.
        Err(_) => io::stderr().write_all(text).is_ok(),
    }
}

/// What the system says, without the number of the error.
fn text(error: &io::Error) -> String {
    let text = error.to_string();
    match text.rfind(" (os error ") {
        Some(end) => text[..end].to_owned(),
        None => text,
    }
}

#[cfg(test)]
mod tests {
    use super::*;

    #[test]
    fn errors_have_no_numbers() {
        // ENOENT, EISDIR and EAGAIN, as errno(3) and strerror(3) have them.
        let said = |number| text(&io::Error::from_raw_os_error(number));
        assert_eq!(said(2), "No such file or directory");
        assert_eq!(said(21), "Is a directory");
        assert_eq!(said(11), "Resource temporarily unavailable");
        assert_eq!(text(&io::Error::other("told")), "told");
    }
}
