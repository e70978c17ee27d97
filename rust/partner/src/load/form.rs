//! The lines of a listing, which are all in one form, and in none with more digits than they need.

use crate::listing::Form;
use crate::{Record, RECORD_WORDS};

/// The records of a listing; in the older form they have no way up.
pub struct Lines {
    pub records: Vec<Record>,
    pub form: Form,
}

/// One record a line, all in the form of the first, or the number of the first bad line, from 1.
pub fn lines(listing: &[u8]) -> Result<Lines, usize> {
    let is_first = |form: &Form| record(listing, *form).is_some();
    let form = Form::ALL
        .into_iter()
        .find(is_first)
        // Of no line nothing is asked.
        .or(listing.is_empty().then_some(Form::Newer))
        .ok_or(1usize)?;
    let records = records(listing, form)?;
    if form == Form::Longer && Form::of(&records) != form {
        return Err(1);
    }
    Ok(Lines { records, form })
}

/// Each form has code of its own, with its widths known, as where lines are written.
fn records(listing: &[u8], form: Form) -> Result<Vec<Record>, usize> {
    match form {
        Form::Older => records_in(listing, Form::Older),
        Form::Newer => records_in(listing, Form::Newer),
        Form::Longer => records_in(listing, Form::Longer),
    }
}

/// What is left behind the last whole line is a line too, and a bad one.
#[inline(always)]
fn records_in(listing: &[u8], form: Form) -> Result<Vec<Record>, usize> {
    listing
        .chunks(form.line())
        .zip(1..)
        .map(|(line, number)| record(line, form).ok_or(number))
        .collect()
}

/// The record that these bytes begin with.
#[inline(always)]
fn record(line: &[u8], form: Form) -> Option<Record> {
    let mut rest = line;
    let mut record = [0; RECORD_WORDS];
    let widths = form.widths();
    for (column, width) in widths.iter().enumerate() {
        let (digits, behind) = rest.split_at_checked(*width)?;
        for byte in digits {
            record[column] = record[column] << 4 | digit(*byte)?;
        }
        let is_last = column + 1 == widths.len();
        let separator = if is_last { b'\n' } else { b' ' };
        rest = behind.strip_prefix(&[separator])?;
    }
    Some(record)
}

fn digit(byte: u8) -> Option<u32> {
    match byte {
        b'0'..=b'9' => Some(u32::from(byte - b'0')),
        b'A'..=b'F' => Some(u32::from(byte - b'A') + 10),
        _ => None,
    }
}
