//! What `list_large` leaves in the buffers that it is lent, of every telling length.

mod common;

use common::{padded, refusal, Entry, DRAFT, LINES, TREE};
use togmelic::{
    list_large, listing_within, read_within, records_in, Kind, Limits, Record, LINE, LONG_LINE,
    RECORD_WORDS, TOKEN_WORDS,
};

/// Document 01, "Lexemes": kind, in the order of the Rust's `Token`, start and end.
#[rustfmt::skip]
const TOKENS: [u32; 54] = [
    4, 0, 2, 32, 3, 4, 20, 4, 5, 21, 5, 6, 24, 6, 7,
    9, 7, 12, 32, 13, 14, 24, 14, 15,
    31, 15, 19, 19, 19, 21, 28, 21, 22, 17, 22, 23,
    31, 23, 28, 19, 28, 30, 28, 30, 31, 17, 31, 32,
    25, 32, 33, 25, 33, 34,
];

/// The entry that keeps all three words of a token.
const LARGE: Entry = Entry {
    call: list_large,
    tokens: &TOKENS,
};

#[test]
fn figures() {
    assert_eq!((LINE, LONG_LINE, TOKEN_WORDS), (41, 49, 3));
    assert_eq!(
        (Limits::Small.bytes(), Limits::Large.bytes()),
        (16_384, 1_048_576)
    );
    assert_eq!(
        (Limits::Small.tokens(), Limits::Large.tokens()),
        (2_048, 131_072)
    );
    assert_eq!(
        (Limits::Small.lines(), Limits::Large.lines()),
        (2_049, 131_073)
    );
}

/// A token has a byte, a record a token but for the program's, and a line a record.
#[test]
fn what_is_enough() {
    let enough = |limits: Limits, bytes| {
        [
            limits.token_words(bytes),
            limits.tree_words(bytes),
            limits.listing_bytes(bytes),
        ]
    };
    assert_eq!(enough(Limits::Small, 0), [0, 7, 41]);
    assert_eq!(enough(Limits::Large, 0), [0, 7, 41]);
    assert_eq!(enough(Limits::Small, 2_047), [6_141, 14_336, 83_968]);
    for bytes in [2_048, 16_384, 100_000, usize::MAX] {
        assert_eq!(enough(Limits::Small, bytes), [6_144, 14_343, 84_009]);
    }
    assert_eq!(enough(Limits::Large, 65_535)[2], 41 * 65_536);
    assert_eq!(enough(Limits::Large, 65_536)[2], 49 * 65_537);
    for bytes in [131_072, 1_048_576, usize::MAX] {
        assert_eq!(
            enough(Limits::Large, bytes),
            [393_216, 917_511, 49 * 131_073]
        );
    }
}

#[test]
fn example_word_for_word() {
    let enough = [
        Limits::Large.token_words(DRAFT.len()),
        Limits::Large.tree_words(DRAFT.len()),
        Limits::Large.listing_bytes(DRAFT.len()),
    ];
    LARGE.assert_accepted(enough);
    LARGE.assert_accepted([TOKENS.len(), TREE.len(), LINES.len()]);
    let records: Vec<Record> = TREE
        .chunks_exact(RECORD_WORDS)
        .filter_map(|words| Record::from_words(words.try_into().ok()?))
        .collect();
    assert_eq!(records_in(&TREE).collect::<Vec<_>>(), records);
    assert_eq!(read_within(DRAFT, Limits::Large), Ok(records));
    assert_eq!(listing_within(DRAFT, Limits::Large), LINES);
}

/// 6 where a token has no three words left, at that token; then 15 where a record has no seven; else the words.
#[test]
fn buffers_of_every_length() {
    let needed = TOKENS.len();
    for tokens in 0..needed + 7 {
        for tree in [0, 69, 70] {
            let lengths = [tokens, tree, 500];
            // The start of the first token without three words.
            let first = TOKENS.chunks(TOKEN_WORDS).nth(tokens / TOKEN_WORDS);
            let place = first.map_or(0, |token| token[1] as usize);
            match (tokens < needed, tree < 70) {
                (true, _) => LARGE.assert_refused(DRAFT, lengths, &refusal(6, place)),
                (_, true) => LARGE.assert_refused(DRAFT, lengths, &refusal(15, 0)),
                _ => LARGE.assert_accepted(lengths),
            }
        }
    }
    for tree in 0..90 {
        match tree < 70 {
            true => LARGE.assert_refused(DRAFT, [needed, tree, 41], &refusal(15, 0)),
            false => LARGE.assert_accepted([needed, tree, 500]),
        }
    }
    // The words are there also where the lines do not fit.
    for out in 0..LINES.len() + 90 {
        LARGE.assert_accepted([needed, 70, out]);
        LARGE.assert_refused(DRAFT, [needed - 1, 70, out], &refusal(6, 33));
        LARGE.assert_refused(DRAFT, [needed, 69, out], &refusal(15, 0));
    }
}

/// A draft that is refused for itself is so with any buffers that hold its tokens; 6 goes before 7 and 8, 8 before 15.
#[test]
fn refused_drafts() {
    let draft = b"fn f(){fold(x)}";
    for tree in [0, 7, 100] {
        LARGE.assert_refused(draft, [100, tree, 100], &refusal(8, 11));
        LARGE.assert_refused(draft, [29, tree, 100], &refusal(6, 14));
    }
    // 2 to 5 go before 6.
    LARGE.assert_refused(b"fn #", [0, 0, 41], &refusal(3, 3));
    LARGE.assert_refused(b"//\x80", [3, 7, 41], &refusal(21, 2));
}

/// One that is too long has a long line.
#[test]
fn too_long() {
    let line = b"00 100000 100000 00000001 00000000 000001 000000\n";
    let draft = vec![b' '; 1_048_577];
    LARGE.assert_refused(&draft, [10, 10, LONG_LINE], line);
    LARGE.assert_refused(&draft, [10, 10, LONG_LINE - 1], line);
}

#[test]
fn drafts_without_items() {
    for (draft, end) in [(&b""[..], 0), (b" /* */\n", 7)] {
        let line = format!("29 0000 {end:04X} 00000000 00000000 0001 0000\n");
        let found = LARGE.left(draft, [0, 7, LINE]);
        assert_eq!(found.lines, Some(line.into_bytes()));
        assert_eq!(found.tree, [41, 0, end, 0, 0, 1, 0]);
        LARGE.assert_refused(draft, [0, 6, LINE], &refusal(15, 0));
    }
    assert_eq!(
        read_within(b"", Limits::Large).map(|tree| tree.len()),
        Ok(1)
    );
}

/// Words end at the first that are no record's, and a part of a record is none.
#[test]
fn records_of_words() {
    let kinds = |words: &[u32]| {
        records_in(words)
            .map(|record| record.kind)
            .collect::<Vec<_>>()
    };
    assert_eq!(kinds(&[]), []);
    assert_eq!(kinds(&[0; 21]), []);
    assert_eq!(kinds(&TREE[..13]), [Kind::Program]);
    assert_eq!(
        kinds(&padded(&TREE[..14], 30)),
        [Kind::Program, Kind::Function]
    );
    assert_eq!(kinds(&[43, 0, 1, 0, 0, 1, 0]), []);
}
