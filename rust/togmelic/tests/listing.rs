//! The wrapper's answers against documents 01 and 02: the example, a refusal, files, and buffers of every telling length.
//! Buffers are filled with 0xAA before each call, so that a byte that is not written shows.

mod common;

use common::{DRAFT, LINES};
use togmelic::{list, listing, LINE, MOST_BYTES, MOST_LINES};

const REFUSED: &[u8] = b"fn f(){match x{true=>1,false=>2}}";
const REFUSAL: &[u8] = b"00 001F 001F 00000008 00000000 0001 0000\n";

/// Lists into a buffer of that length: the lines, and the whole buffer afterwards.
fn listed(draft: &[u8], length: usize) -> (Option<Vec<u8>>, Vec<u8>) {
    let mut out = vec![0xAA; length];
    let lines = list(draft, &mut out).map(<[u8]>::to_vec);
    (lines, out)
}

/// Sees that the lines stand at the front of the buffer, with zeros behind.
fn assert_lists(draft: &[u8], length: usize, expected: &[u8]) {
    let mut whole = expected.to_vec();
    whole.resize(length, 0);
    assert_eq!(listed(draft, length), (Some(expected.to_vec()), whole));
}

/// Sees that the lines do not fit, and that every byte is zero.
fn assert_too_short(draft: &[u8], length: usize) {
    assert_eq!(listed(draft, length), (None, vec![0; length]));
}

/// A line for each of 2,048 tokens, and the program's.
#[test]
fn figures() {
    assert_eq!((LINE, MOST_LINES, MOST_BYTES), (41, 2_049, 84_009));
}

#[test]
fn example_byte_for_byte() {
    assert_eq!(listing(DRAFT), LINES);
    assert_lists(DRAFT, MOST_BYTES, LINES);
}

#[test]
fn refused_draft() {
    assert_eq!(listing(REFUSED), REFUSAL);
    assert_lists(REFUSED, LINE, REFUSAL);
    assert_lists(REFUSED, LINE + 1, REFUSAL);
    assert_too_short(REFUSED, LINE - 1);
}

#[test]
fn buffer_too_short() {
    for length in 0..LINES.len() {
        assert_too_short(DRAFT, length);
    }
}

#[test]
fn buffer_just_long_enough_and_longer() {
    for length in LINES.len()..LINES.len() + 80 {
        assert_lists(DRAFT, length, LINES);
    }
    assert_lists(DRAFT, MOST_BYTES + 1000, LINES);
}

#[test]
fn empty_draft() {
    let line = b"29 0000 0000 00000000 00000000 0001 0000\n";
    assert_eq!(listing(b""), line);
    assert_lists(b"", LINE, line);
    assert_lists(
        b" //a\n",
        LINE,
        b"29 0000 0005 00000000 00000000 0001 0000\n",
    );
    assert_too_short(b"", LINE - 1);
}

#[test]
fn files() {
    let lines = b"29 0000 0013 00000000 00000000 0007 0000\n\
                  2A 0000 000A 00000000 00000000 0003 0001\n\
                  02 0005 0006 00000000 00000000 0001 0001\n\
                  07 0007 0009 00000008 00000000 0001 0002\n\
                  01 000B 0013 00000000 00000000 0003 0004\n\
                  02 000E 000F 00000000 00000000 0001 0001\n\
                  12 0011 0013 00000000 00000000 0001 0002\n";
    assert_lists(b"type A=u8; fn f(){}", MOST_BYTES, lines);
    assert_lists(
        b"type u8=A;",
        LINE,
        b"00 0005 0005 00000008 00000000 0001 0000\n",
    );
}

/// Document 02, order 6: comments in UTF-8, with places that count bytes.
#[test]
fn comments() {
    let lines = b"29 0000 000E 00000000 00000000 0004 0000\n\
                  01 0006 000E 00000000 00000000 0003 0001\n\
                  02 0009 000A 00000000 00000000 0001 0001\n\
                  12 000C 000E 00000000 00000000 0001 0002\n";
    assert_lists("/*α*/fn f(){}".as_bytes(), MOST_BYTES, lines);
    let line = b"29 0000 0006 00000000 00000000 0001 0000\n";
    assert_lists("//αł".as_bytes(), LINE, line);
    assert_lists(
        b"//\x80",
        LINE,
        b"00 0002 0002 00000015 00000000 0001 0000\n",
    );
    assert_lists(
        "/*α*/fn α(){}".as_bytes(),
        LINE,
        b"00 0009 0009 00000002 00000000 0001 0000\n",
    );
}

#[test]
fn empty_buffer() {
    assert_too_short(DRAFT, 0);
    assert_too_short(b"", 0);
    assert_too_short(&[b' '; 16_385], 0);
}

#[test]
fn longest_drafts() {
    let mut draft = [b' '; 16_385];
    draft[..7].copy_from_slice(b"fn f(){");
    assert_lists(
        &draft,
        MOST_BYTES,
        b"00 4000 4000 00000001 00000000 0001 0000\n",
    );
    draft[16_383] = b'}';
    let lines = b"29 0000 4000 00000000 00000000 0004 0000\n\
                  01 0000 4000 00000000 00000000 0003 0001\n\
                  02 0003 0004 00000000 00000000 0001 0001\n\
                  12 0006 4000 00000000 00000000 0001 0002\n";
    assert_lists(&draft[..16_384], MOST_BYTES, lines);
}
