//! UTF-8 in comments: every string of a few bytes, every character, every form that sequences may be written in, and those
//! at the edges of each length damaged, behind letters up to each place, and at the limit of a draft's bytes; then what
//! refuses a draft's bytes, in every order.

use crate::comparison::Comparison;
use crate::strings;
use togmelic::MOST_BYTES;

/// What stands before a text in a comment, and behind it: `//` up to the end and up to a line end, `/*` closed, closed
/// twice and never closed. An item behind shows where the comment ends.
const COMMENTS: [(&[u8], &[u8]); 5] = [
    (b"//", b""),
    (b"//", b"\ntype a=b;"),
    (b"/*", b"*/type a=b;"),
    (b"/*/*", b"*/*/"),
    (b"/*", b""),
];

/// Bytes of marks and line ends, and both sides of each edge in RFC 3629's table.
const TELLING: &[u8] = b"\x00\n\r*/A\x7F\x80\x8F\x90\x9F\xA0\xBF\xC0\xC1\xC2\xDF\xE0\xE1\xEC\xED\xEE\xEF\xF0\xF1\xF3\xF4\xF5\xFF";
/// Fewer of them, for strings of four.
const MOST_TELLING: &[u8] = b"\n*/A\x7F\x80\x8F\x90\x9F\xA0\xBF\xC0\xC2\xE0\xED\xF0\xF1\xF4\xF5";

/// So many characters fit into a draft with a comment around them, whatever they are.
const CHARACTERS_IN_A_DRAFT: usize = 4_000;

/// The first and the last characters of each length, surrogates left out.
const EDGES: [char; 9] = [
    '\u{7F}',
    '\u{80}',
    '\u{7FF}',
    '\u{800}',
    '\u{D7FF}',
    '\u{E000}',
    '\u{FFFF}',
    '\u{10000}',
    '\u{10FFFF}',
];

/// Sequences that are bad, each in its way: no first byte, cut off, overlong, a surrogate, over the last character.
const BAD: [&[u8]; 12] = [
    b"\x80",
    b"\xFF",
    b"\xC3",
    b"\xE2\x82",
    b"\xF0\x9F\x98",
    b"\xC0\x80",
    b"\xC1\xBF",
    b"\xE0\x9F\xBF",
    b"\xF0\x8F\xBF\xBF",
    b"\xED\xA0\x80",
    b"\xF4\x90\x80\x80",
    b"\xF5\x80\x80\x80",
];

/// Comments, good and bad, and what else refuses a draft's bytes.
const PIECES: [&[u8]; 12] = [
    "//ł\n".as_bytes(),
    "/*α*/".as_bytes(),
    b"//\x80\n",
    b"/*\xCE*/",
    b"/*\xB1",
    b"*/",
    "α".as_bytes(),
    b"#",
    b"simc",
    b" ",
    b"\r",
    b"type a=b;",
];

pub fn all(comparison: &mut Comparison) {
    short(comparison);
    characters(comparison);
    forms(comparison);
    damaged(comparison);
    behind_letters(comparison);
    at_the_limit(comparison);
    strings::each(&PIECES, &mut |string| {
        comparison.check_short(&string.concat());
        string.len() < 4
    });
}

/// The text in each comment.
fn in_comments(text: &[u8], comparison: &mut Comparison) {
    for (before, behind) in COMMENTS {
        comparison.check_short(&[before, text, behind].concat());
    }
}

/// Every string of at most two bytes, of three telling ones and of four.
fn short(comparison: &mut Comparison) {
    let all: Vec<u8> = (0..=255).collect();
    for (bytes, most) in [(all.as_slice(), 2), (TELLING, 3), (MOST_TELLING, 4)] {
        let pieces: Vec<&[u8]> = bytes.chunks(1).collect();
        strings::each(&pieces, &mut |string| {
            in_comments(&string.concat(), comparison);
            string.len() < most
        });
    }
}

/// Every character there is, in long comments.
fn characters(comparison: &mut Comparison) {
    let all: Vec<char> = (char::MIN..=char::MAX).collect();
    for some in all.chunks(CHARACTERS_IN_A_DRAFT) {
        in_comments(some.iter().collect::<String>().as_bytes(), comparison);
    }
}

/// Every number in two bytes and in three, and in four the first and the last of each 64, which have the same bytes but
/// for the last one. Overlong forms, surrogates and numbers over the last character are among them.
fn forms(comparison: &mut Comparison) {
    let two = (0..1 << 11).map(|number| form(number, 2));
    let three = (0..1 << 16).map(|number| form(number, 3));
    let four = (0..1 << 21).filter(|number| matches!(number % 64, 0 | 63));
    let four = four.map(|number| form(number, 4));
    for text in two.chain(three).chain(four) {
        in_comments(&text, comparison);
    }
}

/// A number in so many bytes, as UTF-8 writes characters: six bits in each, and as many ones before the first.
fn form(number: u32, length: u32) -> Vec<u8> {
    let sixes = (0..length).rev().map(|place| number >> (6 * place) & 0x3F);
    let mut bytes: Vec<u8> = sixes.map(|bits| 0x80 | bits as u8).collect();
    bytes[0] |= !(0xFF >> length);
    bytes
}

/// Characters at the edges, alone and among others, cut off at each byte, and with each byte dropped, doubled or another.
fn damaged(comparison: &mut Comparison) {
    for edge in EDGES {
        for text in [format!("{edge}"), format!("α{edge}"), format!("{edge}żZ")] {
            let text = text.as_bytes();
            for at in 0..text.len() {
                let (before, behind) = (&text[..at], &text[at + 1..]);
                in_comments(before, comparison);
                in_comments(&[before, behind].concat(), comparison);
                in_comments(&[before, &text[at..=at], &text[at..]].concat(), comparison);
                for byte in 0..=255 {
                    in_comments(&[before, &[byte], behind].concat(), comparison);
                }
            }
        }
    }
}

/// Sequences good and bad behind up to 70 bytes of letters, with letters behind them or none, so that a reader that takes
/// many bytes at a time is seen at each of them.
fn behind_letters(comparison: &mut Comparison) {
    for sequence in sequences() {
        for (letter, most) in [("a", 70), ("ł", 35), ("€", 24)] {
            for count in 0..=most {
                let letters = letter.repeat(count);
                let text = [letters.as_bytes(), &sequence].concat();
                in_comments(&text, comparison);
                in_comments(&[&text, letters.as_bytes()].concat(), comparison);
            }
        }
    }
}

/// The characters at the edges, and what is bad.
fn sequences() -> Vec<Vec<u8>> {
    let good = EDGES.map(|edge| edge.to_string().into_bytes());
    good.into_iter().chain(BAD.map(<[u8]>::to_vec)).collect()
}

/// Drafts of 16,383 to 16,386 bytes with a sequence, good or bad, at the end of their comment.
fn at_the_limit(comparison: &mut Comparison) {
    for sequence in sequences() {
        for (before, behind) in COMMENTS {
            for length in 16_383..=16_386 {
                let letters = length - before.len() - sequence.len() - behind.len();
                let draft = [before, &b"a".repeat(letters), &sequence, behind].concat();
                comparison.check(&draft, MOST_BYTES);
            }
        }
    }
}
