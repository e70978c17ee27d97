//! The line on standard error that says which of several files is being checked, where somebody looks at a terminal.

use crate::source::{picture, LEFT_OUT};
use crate::{errors, terminal};
use std::ffi::OsStr;
use std::io;

pub(crate) struct Progress {
    files: usize,
    /// The width of the line; `None` where none is shown.
    columns: Option<usize>,
    /// How many columns are written on.
    used: usize,
}

impl Progress {
    pub(crate) fn of(files: usize) -> Progress {
        let columns = terminal::columns(&io::stderr()).filter(|_| files > 1);
        Progress {
            files,
            // In the last column some terminals go on to the next line.
            columns: columns.map(|columns| columns - 1),
            used: 0,
        }
    }

    /// Says which file comes next, over what stood there.
    pub(crate) fn show(&mut self, number: usize, file: &OsStr) {
        let Some(columns) = self.columns else { return };
        let name = file.to_string_lossy();
        let text = fitted(
            &format!("checking {number} of {}: {name}", self.files),
            columns,
        );
        let used = text.chars().count();
        let over = " ".repeat(self.used.saturating_sub(used));
        errors::warn(format!("\r{text}{over}\r").as_bytes());
        self.used = used;
    }

    /// Takes the line away, before anything else is written.
    pub(crate) fn clear(&mut self) {
        if self.used > 0 {
            errors::warn(format!("\r{}\r", " ".repeat(self.used)).as_bytes());
            self.used = 0;
        }
    }
}

/// Also where the work ends early.
impl Drop for Progress {
    fn drop(&mut self) {
        self.clear();
    }
}

/// The text without what would move it, cut to so many columns.
fn fitted(text: &str, columns: usize) -> String {
    let mut fitted: Vec<char> = text.chars().map(picture).take(columns + 1).collect();
    if fitted.len() > columns {
        fitted.truncate(columns);
        if let Some(last) = fitted.last_mut() {
            *last = LEFT_OUT;
        }
    }
    fitted.into_iter().collect()
}

#[cfg(test)]
mod tests {
    use super::fitted;

    #[test]
    fn a_line_fits() {
        assert_eq!(fitted("checking 1 of 2: α", 18), "checking 1 of 2: α");
        assert_eq!(fitted("checking 1 of 2: α", 17), "checking 1 of 2:…");
        assert_eq!(fitted("a\nb", 3), "a\u{240A}b");
        assert_eq!(fitted("ab", 1), "…");
        assert_eq!(fitted("ab", 0), "");
    }
}
