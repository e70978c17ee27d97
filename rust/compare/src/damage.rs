//! Listings damaged by chance: a byte, a line or a field of one, its way up, or its form.

use crate::random::Random;
use partner::kinds::record;
use partner::{write_in, write_lines, Form, Record, RECORD_WORDS};

/// Values of words on both sides of what two, four, six and eight digits hold.
pub const LARGEST: [u32; 8] = [
    0xFF,
    0x100,
    0xFFFE,
    0xFFFF,
    0x1_0000,
    0xFF_FFFF,
    0x100_0000,
    u32::MAX,
];
const DIGITS: &[u8] = b"0123456789ABCDEF";
/// Kinds that stand at the top, or just below it.
const TOPS: [u32; 3] = [record::FUNCTION, record::PROGRAM, record::TYPE_ITEM];

/// The form of lines, told by where the first one ends.
pub fn form(lines: &[u8]) -> Form {
    let ends = |form: &Form| lines.get(form.line() - 1) == Some(&b'\n');
    Form::ALL.into_iter().find(ends).unwrap_or(Form::Newer)
}

/// The bytes of a line, told by the first.
pub fn line_length(lines: &[u8]) -> usize {
    form(lines).line()
}

/// The same records with an end of the first that only six digits hold.
pub fn far(records: &[Record]) -> Vec<Record> {
    let mut far = records.to_vec();
    far[0][2] |= 0x1_0000;
    far
}

/// One of the bytes changed, put in or taken out, or the listing cut, or another one behind it.
pub fn bytes(lines: &[u8], other: &[u8], random: &mut Random) -> Vec<u8> {
    let mut damaged = lines.to_vec();
    let at = random.below(lines.len());
    match random.below(9) {
        0 => damaged[at] = random.below(256) as u8,
        1 => damaged[at] = random.one_of(b" \n\r0aFg\0/:@G"),
        2 | 3 => change_digit(&mut damaged, random),
        4 => lower_digits(&mut damaged, random),
        5 => damaged.insert(at, random.one_of(b" \n0A")),
        6 => damaged.truncate(at),
        7 => change_width(&mut damaged, random),
        _ => damaged.extend_from_slice(other),
    }
    damaged
}

/// Where one word of a line begins, and how many digits it has.
fn one_word(lines: &[u8], random: &mut Random) -> (usize, usize) {
    let (line, _) = one_line(lines, random);
    let widths = form(lines).widths();
    let word = random.below(widths.len());
    let before: usize = widths[..word].iter().map(|width| width + 1).sum();
    (line + before, widths[word])
}

/// A word gets two digits more, or loses its first two.
fn change_width(lines: &mut Vec<u8>, random: &mut Random) {
    let (at, _) = one_word(lines, random);
    if random.one_in(2) {
        lines.splice(at..at, *b"00");
    } else {
        lines.drain(at..at + 2);
    }
}

/// Where one of the lines begins, and how long it is.
fn one_line(lines: &[u8], random: &mut Random) -> (usize, usize) {
    let length = line_length(lines);
    (length * random.below(lines.len() / length), length)
}

/// A digit becomes another, mostly one of the last two in its word.
fn change_digit(lines: &mut [u8], random: &mut Random) {
    let (at, width) = one_word(lines, random);
    let digit = if random.one_in(8) {
        random.below(width)
    } else {
        width - 1 - random.below(2)
    };
    lines[at + digit] = random.one_of(DIGITS);
}

/// The letters of one line become lower-case, or all do.
fn lower_digits(lines: &mut [u8], random: &mut Random) {
    let (line, length) = one_line(lines, random);
    match random.below(4) {
        0 => lines.make_ascii_lowercase(),
        _ => lines[line..line + length].make_ascii_lowercase(),
    }
}

/// A line dropped, doubled or exchanged with another.
pub fn lines(lines: &[u8], random: &mut Random) -> Vec<u8> {
    let mut damaged: Vec<&[u8]> = lines.chunks(line_length(lines)).collect();
    let (at, other) = (random.below(damaged.len()), random.below(damaged.len()));
    match random.below(3) {
        0 => _ = damaged.remove(at),
        1 => damaged.insert(at, damaged[at]),
        _ => damaged.swap(at, other),
    }
    damaged.concat()
}

/// A word of one record, or of two, set to a telling value.
pub fn field(records: &[Record], random: &mut Random) -> Vec<Record> {
    let mut damaged = records.to_vec();
    for _ in 0..random.one_of(&[1, 1, 1, 2]) {
        // The first record and the one below it decide most.
        let among = if random.one_in(4) { 2 } else { records.len() };
        let at = random.below(among.min(records.len()));
        let column = random.below(RECORD_WORDS);
        let value = records[at][column];
        let telling = match random.below(10) {
            number @ 0..=3 => number as u32,
            4 => random.one_of(&LARGEST),
            5 => value.wrapping_add(1),
            6 => value.wrapping_sub(1),
            7 => records[random.below(records.len())][column],
            8 => random.one_of(&TOPS),
            _ => random.one_of(&records[at]),
        };
        damaged[at][column] = telling;
    }
    damaged
}

/// The way up of one record, or of a few: to none, to the parent's parent or any record before, or past it.
pub fn ways(records: &[Record], random: &mut Random) -> Vec<u8> {
    let mut damaged = records.to_vec();
    for _ in 0..random.one_of(&[1, 1, 2, 5]) {
        let at = random.below(records.len());
        let right = records[at][6];
        let above = records[at - right as usize][6];
        let telling = match random.below(8) {
            0 => 0,
            1 => right + 1,
            2 => right.wrapping_sub(1),
            3 => right + above,
            4 => at as u32,
            5 => random.below(at + 2) as u32,
            6 => records[random.below(records.len())][6],
            _ => right ^ (1 << random.below(16)),
        };
        damaged[at][6] = telling;
    }
    write_lines(&damaged)
}

/// A line, or all from it on, in another form.
pub fn forms(records: &[Record], random: &mut Random) -> Vec<u8> {
    let first = random.below(Form::ALL.len());
    let other = (first + 1 + random.below(Form::ALL.len() - 1)) % Form::ALL.len();
    let [first, other] = [first, other].map(|number| Form::ALL[number]);
    let at = random.below(records.len());
    let one_only = random.one_in(2);
    let in_other = |number: usize| number == at || (number > at && !one_only);
    let lines = records.iter().enumerate().map(|(number, record)| {
        let form = if in_other(number) { other } else { first };
        write_in(form, std::slice::from_ref(record))
    });
    lines.collect::<Vec<_>>().concat()
}
