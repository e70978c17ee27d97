//! The large limits: both sides of each, and what is read beyond the small ones.

mod common;

use common::DRAFTS;
use std::ops::Range;
use togmelic::{
    listing, listing_within, read, read_within, records, Kind, Limits, Record, Refusal, LONG_LINE,
};

/// One comment of so many bytes.
fn comment(bytes: usize) -> Vec<u8> {
    let mut draft = vec![b'a'; bytes];
    draft[..2].copy_from_slice(b"//");
    draft
}

fn refused(number: u32, place: usize) -> Result<Vec<Record>, Refusal> {
    Err(Refusal { number, place })
}

/// 1,048,576 bytes are read, and one more is refused at the limit; so is any draft that is longer.
#[test]
fn most_bytes() {
    let draft = comment(1_048_578);
    let program = b"29 000000 100000 00000000 00000000 000001 000000\n";
    let too_long = b"00 100000 100000 00000001 00000000 000001 000000\n";
    assert_eq!(
        listing_within(&draft[..1_048_576], Limits::Large),
        *program,
        "the longest"
    );
    let tree = read_within(&draft[..1_048_576], Limits::Large).expect("the longest");
    assert_eq!(
        (tree.len(), tree[0].kind, tree[0].place()),
        (1, Kind::Program, 0..1_048_576)
    );
    for bytes in [1_048_577, 1_048_578] {
        let draft = &draft[..bytes];
        assert_eq!(listing_within(draft, Limits::Large), *too_long);
        assert_eq!(read_within(draft, Limits::Large), refused(1, 1_048_576));
    }
    for bytes in [16_384, 16_385] {
        let draft = &draft[..bytes];
        let small = read(draft);
        assert_eq!(read_within(draft, Limits::Small), small);
        assert_eq!(listing_within(draft, Limits::Small), listing(draft));
        assert_eq!(small.is_ok(), bytes == 16_384);
        assert!(read_within(draft, Limits::Large).is_ok());
    }
}

/// Functions of 8 tokens each, `fn f ( ) { a ; }`, so that 16,384 are as many as may be, and then as many marks as are told.
fn functions(count: usize, behind: &str) -> Vec<u8> {
    (FUNCTION.repeat(count) + behind).into_bytes()
}
const FUNCTION: &str = "fn f(){a;}";

/// 131,072 tokens are read, and one more is refused at its place.
#[test]
fn most_tokens() {
    let draft = functions(16_384, "");
    let tree = read_within(&draft, Limits::Large).expect("as many tokens as may be");
    // A program, and a function, a name, a block and a variable each.
    assert_eq!(tree.len(), 1 + 4 * 16_384);
    let last = &tree[tree.len() - 4..];
    assert_eq!(&draft[last[0].place()], FUNCTION.as_bytes());
    assert_eq!(last[0].up, 4 * 16_384 - 3);
    let lines = listing_within(&draft, Limits::Large);
    assert_eq!(lines.len(), tree.len() * LONG_LINE);
    assert_eq!(
        lines[..2 * LONG_LINE],
        *b"29 000000 028000 00000000 00000000 010001 000000\n\
           01 000000 00000A 00000000 00000000 000004 000001\n"
    );
    let from_lines: Result<Vec<Record>, _> = records(&lines).collect();
    assert_eq!(from_lines, Ok(tree));

    let draft = functions(16_384, "fn f(){}");
    assert_eq!(read_within(&draft, Limits::Large), refused(6, 163_840));
    assert_eq!(
        listing_within(&draft, Limits::Large),
        *b"00 028000 028000 00000006 00000000 000001 000000\n"
    );
    // Behind the last token that is counted may be bytes.
    assert!(read_within(&functions(16_384, " // end\n"), Limits::Large).is_ok());
    // Marks alone: 8 at the first, and 6 goes before it.
    assert_eq!(read_within(&[b';'; 131_072], Limits::Large), refused(8, 0));
    assert_eq!(
        read_within(&[b';'; 131_073], Limits::Large),
        refused(6, 131_072)
    );
}

/// Where all is under 65,536 a line has 41 bytes, and else every line has 49.
#[test]
fn forms_of_lines() {
    let with_comment = |bytes: usize| {
        let mut draft = b"fn f(){}".to_vec();
        draft.extend(comment(bytes - 8));
        draft
    };
    let lines = listing_within(&with_comment(65_535), Limits::Large);
    assert_eq!(
        lines[..],
        *b"29 0000 FFFF 00000000 00000000 0004 0000\n\
           01 0000 0008 00000000 00000000 0003 0001\n\
           02 0003 0004 00000000 00000000 0001 0001\n\
           12 0006 0008 00000000 00000000 0001 0002\n"
    );
    let lines = listing_within(&with_comment(65_536), Limits::Large);
    assert_eq!(
        lines[..],
        *b"29 000000 010000 00000000 00000000 000004 000000\n\
           01 000000 000008 00000000 00000000 000003 000001\n\
           02 000003 000004 00000000 00000000 000001 000001\n\
           12 000006 000008 00000000 00000000 000001 000002\n"
    );
    // A refusal's line by its place, not by the draft's length.
    let mut draft = comment(70_000);
    for (place, line) in [
        (2, &b"00 0002 0002 00000015 00000000 0001 0000\n"[..]),
        (65_535, b"00 FFFF FFFF 00000015 00000000 0001 0000\n"),
        (
            65_536,
            b"00 010000 010000 00000015 00000000 000001 000000\n",
        ),
        (
            69_999,
            b"00 01116F 01116F 00000015 00000000 000001 000000\n",
        ),
    ] {
        draft[place] = 0x80;
        assert_eq!(listing_within(&draft, Limits::Large), line);
        assert_eq!(read_within(&draft, Limits::Large), refused(21, place));
        draft[place] = b'a';
    }
}

/// Drafts within the small limits have the same answers within the large ones.
#[test]
fn small_drafts() {
    for draft in DRAFTS.map(str::as_bytes) {
        assert_eq!(listing_within(draft, Limits::Large), listing(draft));
        assert_eq!(read_within(draft, Limits::Large), read(draft));
        assert_eq!(listing_within(draft, Limits::Small), listing(draft));
        assert_eq!(read_within(draft, Limits::Small), read(draft));
    }
}

/// 48 brackets and 8 `match` are the limits of both sets.
#[test]
fn depth() {
    let nested = |brackets: Range<usize>| {
        let opened: String = brackets.clone().map(|_| '(').collect();
        let closed: String = brackets.map(|_| ')').collect();
        read_within(
            format!("fn f(){{{opened}1{closed}}}").as_bytes(),
            Limits::Large,
        )
    };
    assert_eq!(nested(0..47).map(|tree| tree.len()), Ok(47 + 5));
    assert_eq!(nested(0..48), refused(7, 7 + 47));
    let matches = format!("fn f(){{{}", "match ".repeat(9));
    assert_eq!(
        read_within(matches.as_bytes(), Limits::Large),
        refused(7, 7 + 8 * 6)
    );
}

#[test]
fn refusals_in_words() {
    let said = |draft: &[u8], limits| {
        read_within(draft, limits)
            .expect_err("a refusal")
            .to_string()
    };
    let long = comment(1_048_577);
    assert_eq!(
        said(&long, Limits::Small),
        "refusal 1 at byte 16384: the draft is over 16,384 bytes"
    );
    assert_eq!(
        said(&long, Limits::Large),
        "refusal 1 at byte 1048576: the draft is over 1,048,576 bytes"
    );
    // The last byte that the small limits allow is the token too many.
    let mut marks = [b' '; 16_384];
    marks[..2_048].fill(b';');
    marks[16_383] = b';';
    assert_eq!(
        said(&marks, Limits::Small),
        "refusal 6 at byte 16383: there are over 2,048 tokens"
    );
    assert_eq!(
        said(&[b';'; 131_073], Limits::Large),
        "refusal 6 at byte 131072: there are over 131,072 tokens"
    );
}

#[test]
fn threads_do_not_disturb_each_other() {
    let draft = functions(8_000, "");
    let expected = read_within(&draft, Limits::Large);
    assert!(expected.is_ok());
    std::thread::scope(|scope| {
        for _ in 0..4 {
            scope.spawn(|| {
                (0..5).for_each(|_| assert_eq!(read_within(&draft, Limits::Large), expected))
            });
        }
    });
}
