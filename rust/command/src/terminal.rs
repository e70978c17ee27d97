//! Whether a stream is a terminal, how wide that is, and whether it takes colours.

use crate::source::picture;
use crate::style::{Style, When};
use std::env;
use std::ffi::{c_int, c_ulong, c_ushort, OsStr};
use std::io::IsTerminal;
use std::os::fd::{AsRawFd, RawFd};
use std::os::unix::ffi::OsStrExt;

/// The width of a terminal that does not tell it.
const UNTOLD: usize = 80;

/// How to write to a stream.
#[derive(Clone, Copy)]
pub(crate) struct Look {
    pub(crate) style: Style,
    /// The width of the terminal, if it is one.
    pub(crate) columns: Option<usize>,
}

pub(crate) fn look(stream: &(impl AsRawFd + IsTerminal), color: When) -> Look {
    let columns = columns(stream);
    let colours = match color {
        When::Always => true,
        When::Never => false,
        When::Auto => columns.is_some() && colours_wanted(),
    };
    Look {
        style: Style { colours },
        columns,
    }
}

/// The width of a terminal; `None` where the stream is none.
pub(crate) fn columns(stream: &(impl AsRawFd + IsTerminal)) -> Option<usize> {
    let width = || told_columns(stream.as_raw_fd()).unwrap_or(UNTOLD);
    stream.is_terminal().then(width)
}

/// A text from outside, such as a file's name: as it is for other programs, and for a terminal as a source line is shown,
/// since it must not move or colour that.
pub(crate) fn safe(text: &OsStr, is_terminal: bool) -> Vec<u8> {
    if !is_terminal {
        return text.as_bytes().to_vec();
    }
    let shown: String = text.to_string_lossy().chars().map(picture).collect();
    shown.into_bytes()
}

fn colours_wanted() -> bool {
    let unset = |name| env::var_os(name).is_none_or(|value| value.is_empty());
    unset("NO_COLOR") && env::var_os("TERM").is_none_or(|term| term != "dumb")
}

/// `struct winsize` of ioctl_tty(2).
#[repr(C)]
#[derive(Default)]
struct Size {
    rows: c_ushort,
    columns: c_ushort,
    _width: c_ushort,
    _height: c_ushort,
}

/// TIOCGWINSZ of Linux, for which the library is compiled.
const TELL_SIZE: c_ulong = 0x5413;

extern "C" {
    fn ioctl(stream: c_int, request: c_ulong, ...) -> c_int;
}

/// The width that a terminal tells, if it does.
fn told_columns(stream: RawFd) -> Option<usize> {
    let mut size = Size::default();
    // SAFETY: with this request ioctl writes one `struct winsize`, which `Size` is laid out as, behind the pointer, and
    // keeps no pointer. The pointer is that of a value of this frame. A stream that is no terminal is refused by an answer.
    let answer = unsafe { ioctl(stream, TELL_SIZE, &mut size) };
    (answer == 0 && size.columns > 0).then_some(usize::from(size.columns))
}
