//! What `list_lean` leaves in the buffers that it is lent, of every telling length: one word a token, and all else as with
//! `list_large`.

mod common;

use common::{padded, refusal, Entry, DRAFT, DRAFTS, LINES, TREE};
use togmelic::{
    list_large, list_lean, records, Limits, NoRecord, LINE, LONG_LINE, RECORD_WORDS, START_WORDS,
    TOKEN_WORDS,
};

/// Where the example's tokens begin: `fn f ( ) {`, `match b {`, `true => 1 ,`, `false => 2 ,` and `} }`.
#[rustfmt::skip]
const STARTS: [u32; 18] = [
    0, 3, 4, 5, 6,
    7, 13, 14,
    15, 19, 21, 22,
    23, 28, 30, 31,
    32, 33,
];

/// The entry that keeps the starts alone.
const LEAN: Entry = Entry {
    call: list_lean,
    tokens: &STARTS,
};

/// A token has a byte, and a word is enough for each.
#[test]
fn what_is_enough() {
    assert_eq!(START_WORDS, 1);
    for limits in [Limits::Small, Limits::Large] {
        assert_eq!(limits.start_words(0), 0);
        assert_eq!(limits.start_words(2_047), 2_047);
    }
    for bytes in [2_048, 16_384, usize::MAX] {
        assert_eq!(Limits::Small.start_words(bytes), 2_048);
    }
    assert_eq!(Limits::Large.start_words(131_071), 131_071);
    for bytes in [131_072, 1_048_576, usize::MAX] {
        assert_eq!(Limits::Large.start_words(bytes), 131_072);
    }
}

#[test]
fn example_word_for_word() {
    let enough = [
        Limits::Large.start_words(DRAFT.len()),
        Limits::Large.tree_words(DRAFT.len()),
        Limits::Large.listing_bytes(DRAFT.len()),
    ];
    assert_eq!(enough, [34, 245, 1_435]);
    LEAN.assert_accepted(enough);
    LEAN.assert_accepted([18, 70, 410]);
    LEAN.assert_accepted([54, 100, 500]);
}

/// 6 at the first token that has no word, over tokens and not over a third of the words; then 15 where a record has no seven; else the words.
#[test]
fn buffers_of_every_length() {
    for starts in 0..60 {
        for tree in [0, 69, 70] {
            let lengths = [starts, tree, 500];
            match (STARTS.get(starts), tree < 70) {
                (Some(place), _) => {
                    LEAN.assert_refused(DRAFT, lengths, &refusal(6, *place as usize))
                }
                (None, true) => LEAN.assert_refused(DRAFT, lengths, &refusal(15, 0)),
                _ => LEAN.assert_accepted(lengths),
            }
        }
    }
    // The words are there also where the lines do not fit.
    for out in 0..LINES.len() + 90 {
        LEAN.assert_accepted([18, 70, out]);
        LEAN.assert_refused(DRAFT, [17, 70, out], &refusal(6, 33));
        LEAN.assert_refused(DRAFT, [0, 70, out], &refusal(6, 0));
        LEAN.assert_refused(DRAFT, [18, 69, out], &refusal(15, 0));
    }
}

/// A draft that is refused for itself is so with any buffers that hold its tokens, of which there are ten; 6 goes before 7 and 8, 8 before 15, and 2 to
/// 5 and 21 before 6.
#[test]
fn refused_drafts() {
    let draft = b"fn f(){fold(x)}";
    for tree in [0, 7, 100] {
        LEAN.assert_refused(draft, [100, tree, 100], &refusal(8, 11));
        LEAN.assert_refused(draft, [10, tree, 100], &refusal(8, 11));
        LEAN.assert_refused(draft, [9, tree, 100], &refusal(6, 14));
    }
    let deep = [b'('; 60];
    LEAN.assert_refused(&deep, [60, 0, 41], &refusal(7, 48));
    LEAN.assert_refused(&deep, [59, 0, 41], &refusal(6, 59));
    LEAN.assert_refused(&deep, [48, 0, 41], &refusal(6, 48));
    LEAN.assert_refused(b"fn #", [0, 0, 41], &refusal(3, 3));
    LEAN.assert_refused(b"a simc", [0, 0, 41], &refusal(5, 2));
    LEAN.assert_refused(b"a/*", [0, 0, 41], &refusal(4, 1));
    LEAN.assert_refused(b"//\x80", [3, 7, 41], &refusal(21, 2));
}

/// That too few words were lent is said where no limit can be passed at the place.
#[test]
fn refusal_6_in_words() {
    let said = |draft: &[u8], words: usize| {
        let left = LEAN.left(draft, [words, 7, LONG_LINE]);
        let lines = left.lines.expect("a line");
        let first = records(&lines).next();
        match first {
            Some(Err(NoRecord::Refused(refusal))) => refusal.to_string(),
            other => panic!("no refusal: {other:?}"),
        }
    };
    let lent = "there are more tokens than the lent words hold";
    assert_eq!(said(DRAFT, 17), format!("refusal 6 at byte 33: {lent}"));
    let far = [&[b' '; 20_000][..], b"type"].concat();
    assert_eq!(said(&far, 0), format!("refusal 6 at byte 20000: {lent}"));
    let most = [b';'; 131_073];
    assert_eq!(
        said(&most, 131_071),
        format!("refusal 6 at byte 131071: {lent}")
    );
    assert_eq!(
        said(&most, 131_073),
        "refusal 6 at byte 131072: there are over 131,072 tokens"
    );
}

/// One that is too long has a long line.
#[test]
fn too_long() {
    let line = b"00 100000 100000 00000001 00000000 000001 000000\n";
    let draft = vec![b' '; 1_048_577];
    LEAN.assert_refused(&draft, [10, 10, LONG_LINE], line);
    LEAN.assert_refused(&draft, [10, 10, LONG_LINE - 1], line);
}

#[test]
fn drafts_without_items() {
    for (draft, end) in [(&b""[..], 0), (b" /* */\n", 7)] {
        let line = format!("29 0000 {end:04X} 00000000 00000000 0001 0000\n");
        let found = LEAN.left(draft, [3, 7, LINE]);
        assert_eq!(found.lines, Some(line.into_bytes()));
        assert_eq!(
            (found.tokens, found.tree),
            (vec![0; 3], vec![41, 0, end, 0, 0, 1, 0])
        );
        LEAN.assert_refused(draft, [0, 6, LINE], &refusal(15, 0));
    }
}

/// As many tokens as may be, `fn f ( ) { a ; }` in ten bytes each, in as many words; then a word or a token too few or too many.
#[test]
fn most_tokens() {
    let draft = b"fn f(){a;}".repeat(16_384);
    let found = LEAN.left(&draft, [131_072, 458_759, 0]);
    let starts: Vec<u32> = (0..16_384)
        .flat_map(|function| [0, 3, 4, 5, 6, 7, 8, 9].map(|start| 10 * function + start))
        .collect();
    assert_eq!(found.tokens, starts);
    assert_eq!(found.tree[..7], [41, 0, 163_840, 0, 0, 65_537, 0]);
    assert_eq!(
        found.tree[458_752..],
        [29, 163_837, 163_838, 0, 0, 1, 1],
        "the last variable"
    );
    let line = b"00 027FFF 027FFF 00000006 00000000 000001 000000\n";
    LEAN.assert_refused(&draft, [131_071, 458_759, LONG_LINE], line);
    let line = b"00 028000 028000 00000006 00000000 000001 000000\n";
    let more = [&draft[..], b";"].concat();
    LEAN.assert_refused(&more, [200_000, 0, LONG_LINE], line);
}

/// Lines, tree and refusals are those of `list_large`, and the starts the second words of its tokens.
#[test]
fn as_list_large() {
    let large = Entry {
        call: list_large,
        tokens: &[],
    };
    for draft in DRAFTS.map(str::as_bytes) {
        let words = draft.len();
        let of_large = large.left(
            draft,
            [TOKEN_WORDS * words, RECORD_WORDS * (words + 1), 9_000],
        );
        let of_lean = LEAN.left(draft, [words, RECORD_WORDS * (words + 1), 9_000]);
        assert_eq!(of_lean.lines, of_large.lines);
        assert_eq!(of_lean.tree, of_large.tree);
        assert_eq!(of_lean.out, of_large.out);
        let starts: Vec<u32> = of_large
            .tokens
            .chunks(TOKEN_WORDS)
            .map(|it| it[1])
            .collect();
        assert_eq!(of_lean.tokens, starts);
    }
}

/// One scratch for all drafts, lent again and again, and starts that are kept.
#[test]
fn one_scratch() {
    let mut scratch = vec![0; Limits::Large.start_words(DRAFT.len())];
    let (mut tree, mut out) = (vec![0; 245], [0; 1_435]);
    for _ in 0..2 {
        assert_eq!(
            list_lean(DRAFT, &mut scratch, &mut tree, &mut out),
            Some(LINES)
        );
        assert_eq!(scratch, padded(&STARTS, 34));
        assert_eq!(tree, padded(&TREE, 245));
        let lines = list_lean(b"fn f(){1", &mut scratch, &mut tree, &mut out);
        assert_eq!(lines, Some(&refusal(8, 8)[..]));
        assert_eq!(
            (scratch.as_slice(), tree.as_slice()),
            (&[0; 34][..], &[0; 245][..])
        );
    }
}
