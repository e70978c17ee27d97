//! The listing of a file: one line a record, or one line for a refusal. A line has seven words, in one of two widths for
//! all lines of a listing, or as it was before the way up the first six.

use crate::{read, read_lean, read_with_room, Entry, Limits, Reading, Record, Token};

/// The form of a line: upper-case hexadecimal digits, one space between words, a line end after.
#[derive(Clone, Copy, Debug, PartialEq, Eq)]
pub enum Form {
    /// Without the way up.
    Older,
    Newer,
    /// Start, end, size and way up in six digits.
    Longer,
}

impl Form {
    pub const ALL: [Form; 3] = [Form::Older, Form::Newer, Form::Longer];

    /// Digits of a line's words.
    pub const fn widths(self) -> &'static [usize] {
        match self {
            Form::Older => &[2, 4, 4, 8, 8, 4],
            Form::Newer => &[2, 4, 4, 8, 8, 4, 4],
            Form::Longer => &[2, 6, 6, 8, 8, 6, 6],
        }
    }

    /// Bytes of a line: each word has a space or the line end behind it.
    pub const fn line(self) -> usize {
        let widths = self.widths();
        let mut bytes = widths.len();
        let mut word = 0;
        while word < widths.len() {
            bytes += widths[word];
            word += 1;
        }
        bytes
    }

    /// The form in which all these records are written.
    pub fn of(records: &[Record]) -> Form {
        if records.iter().any(needs_more) {
            Form::Longer
        } else {
            Form::Newer
        }
    }
}

/// Whether start, end, size or way up has no room in four digits.
fn needs_more([_, start, end, _, _, size, up]: &Record) -> bool {
    [start, end, size, up]
        .into_iter()
        .any(|word| *word > 0xFFFF)
}

/// One line a record, or one line for a refusal, with buffers as large as the limits.
pub fn listing(draft: &[u8], limits: Limits) -> Vec<u8> {
    write_lines(&lines(read_with_room(draft, Entry::File, limits)))
}

/// One line a record, in the form that their numbers ask for.
pub fn write_lines(records: &[Record]) -> Vec<u8> {
    write_in(Form::of(records), records)
}

/// One line a record in that form, whatever their numbers ask for.
pub fn write_in(form: Form, records: &[Record]) -> Vec<u8> {
    let mut out = vec![0; form.line() * records.len()];
    write_into(&mut out, form, records);
    out
}

/// The listing within the small limits in a lent buffer with zeros behind: how many bytes it takes.
/// Where it does not fit, 0 and all bytes zero.
pub fn list_into(draft: &[u8], out: &mut [u8]) -> usize {
    fit_into(
        out,
        &lines(read_with_room(draft, Entry::File, Limits::SMALL)),
    )
}

/// The same within the large limits, with the words of tokens and tree in lent buffers, zeros behind them; where the
/// draft is refused, nothing but zeros.
pub fn list_large_into(
    draft: &[u8],
    tokens: &mut [u32],
    tree: &mut [u32],
    out: &mut [u8],
) -> usize {
    let reading = read(
        draft,
        Entry::File,
        Limits::LARGE,
        (tokens.len(), tree.len()),
    );
    copy_into(tokens, tokens_of(&reading).as_flattened());
    write_reading(reading, tree, out)
}

/// The same where of each token the start alone is kept, in one word.
pub fn list_lean_into(draft: &[u8], starts: &mut [u32], tree: &mut [u32], out: &mut [u8]) -> usize {
    let reading = read_lean(
        draft,
        Entry::File,
        Limits::LARGE,
        (starts.len(), tree.len()),
    );
    let kept: Vec<u32> = tokens_of(&reading).iter().map(|token| token[1]).collect();
    copy_into(starts, &kept);
    write_reading(reading, tree, out)
}

/// The tokens of an accepted draft.
fn tokens_of(reading: &Reading) -> &[Token] {
    reading.as_ref().map_or(&[], |(tokens, _)| tokens)
}

/// The records of an accepted draft in the tree buffer, zeros behind them, and the lines where they fit.
fn write_reading(reading: Reading, tree: &mut [u32], out: &mut [u8]) -> usize {
    let records: &[Record] = reading.as_ref().map_or(&[], |(_, records)| records);
    copy_into(tree, records.as_flattened());
    fit_into(out, &lines(reading))
}

/// These words, which have room, and zeros behind.
fn copy_into(words: &mut [u32], from: &[u32]) {
    let (copied, behind) = words.split_at_mut(from.len());
    copied.copy_from_slice(from);
    behind.fill(0);
}

/// The lines where they fit, and zeros behind: how many bytes they take.
fn fit_into(out: &mut [u8], lines: &[Record]) -> usize {
    let form = Form::of(lines);
    let needed = form.line() * lines.len();
    let used = if needed <= out.len() { needed } else { 0 };
    let (listed, behind) = out.split_at_mut(used);
    write_into(listed, form, lines);
    behind.fill(0);
    used
}

/// As many lines as there is room for. Each form has code of its own, with its widths known: with code for all of them a
/// reading takes nearly twice as many instructions.
fn write_into(out: &mut [u8], form: Form, lines: &[Record]) {
    match form {
        Form::Older => write_all::<{ Form::Older.line() }>(out, Form::Older, lines),
        Form::Newer => write_all::<{ Form::Newer.line() }>(out, Form::Newer, lines),
        Form::Longer => write_all::<{ Form::Longer.line() }>(out, Form::Longer, lines),
    }
}

#[inline(always)]
fn write_all<const LINE: usize>(out: &mut [u8], form: Form, lines: &[Record]) {
    for (place, line) in out.chunks_exact_mut(LINE).zip(lines) {
        place.copy_from_slice(&line_bytes::<LINE>(form, line));
    }
}

/// The records of an accepted draft, or a refusal as the words of its line.
fn lines(reading: Reading) -> Vec<Record> {
    match reading {
        Ok((_, records)) => records,
        Err((number, place)) => vec![[0, place as u32, place as u32, number, 0, 1, 0]],
    }
}

#[inline(always)]
fn line_bytes<const LINE: usize>(form: Form, line: &Record) -> [u8; LINE] {
    let mut bytes = [b' '; LINE];
    let mut at = 0;
    for (word, width) in line.iter().zip(form.widths()) {
        for digit in 0..*width {
            let shift = 4 * (width - 1 - digit);
            bytes[at + digit] = b"0123456789ABCDEF"[(word >> shift) as usize & 15];
        }
        // One space stays between words.
        at += width + 1;
    }
    bytes[LINE - 1] = b'\n';
    bytes
}
