//! From the lines of a listing to its records.

use crate::{Record, Refusal, LINE, LONG_LINE, RECORD_WORDS};
use std::fmt;

/// Why a line gives no record.
#[derive(Clone, Copy, Debug, PartialEq, Eq, Hash)]
pub enum NoRecord {
    /// The line of a refusal, kind 00: the draft was refused, and has no records.
    Refused(Refusal),
    /// The number, from 1, of a line that is not as [`list`](crate::list), [`list_large`](crate::list_large) or
    /// [`list_lean`](crate::list_lean) writes one, or has a kind that is none.
    BadLine(usize),
}

impl fmt::Display for NoRecord {
    fn fmt(&self, f: &mut fmt::Formatter<'_>) -> fmt::Result {
        match self {
            NoRecord::Refused(refusal) => refusal.fmt(f),
            NoRecord::BadLine(line) => write!(f, "line {line} is not that of a record"),
        }
    }
}

impl std::error::Error for NoRecord {}

/// The records of the lines that [`list`](crate::list), [`list_large`](crate::list_large) or
/// [`list_lean`](crate::list_lean) answers, one by one and without an allocation. They may be any bytes: the first line tells
/// whether all are of [`LINE`] or of [`LONG_LINE`] bytes, each line is looked at alone, and behind the first that gives no
/// record nothing follows. Whether the records are a tree is not looked at, nor whether long lines are needed; for a listing
/// from elsewhere, such as a file, use [`load`](crate::load), which also takes lines of 36 bytes.
///
/// ```
/// use togmelic::{records, Kind, NoRecord};
///
/// let mut lines = togmelic::listing(b"fn f(){}");
/// let kinds: Result<Vec<Kind>, NoRecord> = records(&lines).map(|record| Ok(record?.kind)).collect();
/// assert_eq!(kinds, Ok(vec![Kind::Program, Kind::Function, Kind::Name, Kind::Block]));
///
/// // A digit in lower case, in the second line.
/// lines[togmelic::LINE + 5] = b'a';
/// let mut records = records(&lines);
/// assert!(records.next().is_some_and(|record| record.is_ok()));
/// assert_eq!(records.next(), Some(Err(NoRecord::BadLine(2))));
/// assert_eq!(records.next(), None);
/// ```
pub fn records(lines: &[u8]) -> impl Iterator<Item = Result<Record, NoRecord>> + '_ {
    let mut is_over = false;
    let form = Form::of(lines);
    let lines = lines.chunks(form.bytes).enumerate();
    lines.map_while(move |(at, line)| {
        if is_over {
            return None;
        }
        let record = record(line, form).unwrap_or(Err(NoRecord::BadLine(at + 1)));
        is_over = record.is_err();
        Some(record)
    })
}

/// The record of a line, or the refusal of one that has it; `None` where it is neither.
fn record(line: &[u8], form: &Form) -> Option<Result<Record, NoRecord>> {
    match words(line, form)? {
        [0, place, _, number, ..] => {
            let place = place as usize;
            Some(Err(NoRecord::Refused(Refusal { number, place })))
        }
        words => Record::from_words(words).map(Ok),
    }
}

/// How all lines of a listing are written.
struct Form {
    /// Bytes of a line.
    bytes: usize,
    /// Digits of each word.
    widths: [usize; RECORD_WORDS],
}

const USUAL: Form = Form {
    bytes: LINE,
    widths: [2, 4, 4, 8, 8, 4, 4],
};
const LONG: Form = Form {
    bytes: LONG_LINE,
    widths: [2, 6, 6, 8, 8, 6, 6],
};

impl Form {
    /// The form of the first line. One that is in neither is a bad line, whatever it is held against.
    fn of(lines: &[u8]) -> &'static Form {
        match lines.get(FIFTH_OF_START) {
            Some(byte) if byte.is_ascii_hexdigit() => &LONG,
            _ => &USUAL,
        }
    }
}

/// Where a long line has the fifth digit of its start, and another its space.
const FIFTH_OF_START: usize = 7;

/// The words of a line: so many digits of each, one space between, LF behind; `None` where it is not so.
fn words(line: &[u8], form: &Form) -> Option<[u32; RECORD_WORDS]> {
    let mut fields = line.strip_suffix(b"\n")?.split(|byte| *byte == b' ');
    let mut words = [0; RECORD_WORDS];
    for (word, width) in words.iter_mut().zip(form.widths) {
        let digits = fields.next().filter(|digits| digits.len() == width)?;
        *word = hexadecimal(digits)?;
    }
    // Seven fields of these widths, with blanks between, fill the line.
    Some(words)
}

/// The value of at most eight digits, each 0 to 9 or A to F; `None` where one is another byte.
fn hexadecimal(digits: &[u8]) -> Option<u32> {
    digits.iter().try_fold(0, |value, digit| {
        let digit = match digit {
            b'0'..=b'9' => digit - b'0',
            b'A'..=b'F' => digit - b'A' + 10,
            _ => return None,
        };
        Some(value << 4 | u32::from(digit))
    })
}
