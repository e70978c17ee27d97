//! The drafts of `cases.txt` and `large.txt`, each compared with its stated result.

use crate::lexer::lex;
use crate::{
    list_into, list_large_into, list_lean_into, listing, read, read_lean, read_with_room, Entry,
    Limits, Reading,
};

/// Drafts, and within which limits they are read.
const CASES: [(&str, Limits); 2] = [
    (include_str!("../cases.txt"), Limits::SMALL),
    (include_str!("../large.txt"), Limits::LARGE),
];

/// Runs all cases, names those that fail, and answers how many did.
pub fn failures() -> usize {
    let (mut run, mut failed) = CASES
        .map(|(cases, limits)| run_all(cases, limits))
        .into_iter()
        .fold((0, 0), |sum, more| (sum.0 + more.0, sum.1 + more.1));
    for (name, holds) in [
        ("words of the buffers", words_hold()),
        ("words of the buffers with starts alone", start_words_hold()),
        ("the small listing in a buffer", small_holds()),
        ("the large listing in buffers", large_holds()),
        ("the listing in buffers with starts alone", lean_holds()),
    ] {
        run += 1;
        if !holds {
            failed += 1;
            eprintln!("fails: {name}");
        }
    }
    println!("{run} cases, {failed} failed");
    failed
}

/// Runs the cases of one text: how many there are, and how many fail.
fn run_all(cases: &str, limits: Limits) -> (usize, usize) {
    let mut lines = cases.lines().peekable();
    let (mut run, mut failed) = (0, 0);
    while let Some(line) = lines.next() {
        let Some((result, text)) = line.split_once(" = ") else {
            continue;
        };
        let mut expected = String::new();
        while let Some(listed) = lines.next_if(|line| line.starts_with("    ")) {
            expected += listed.trim_start();
            expected.push('\n');
        }
        run += 1;
        let (entry, draft) = draft(text);
        if !holds(result, (entry, limits), &draft, &expected) {
            failed += 1;
            eprintln!("fails: {line}");
        }
    }
    (run, failed)
}

/// Whether the draft has the stated result at the entry.
fn holds(result: &str, (entry, limits): (Entry, Limits), draft: &[u8], expected: &str) -> bool {
    let (what, numbers) = result.split_once(' ').unwrap_or((result, ""));
    let numbers: Vec<u32> = numbers
        .split_whitespace()
        .map(|word| word.parse().expect("a number"))
        .collect();
    match what {
        "tokens" => lex(draft).is_ok_and(|tokens| tokens.iter().map(|t| t[0]).eq(numbers)),
        "listing" => listing(draft, limits) == expected.as_bytes(),
        "lines" => has_lines(&listing(draft, limits), numbers[0] as usize, expected),
        "accept" => accepted(read_with_room(draft, entry, limits), &numbers),
        "refuse" => {
            let refusal = read_with_room(draft, entry, limits).err();
            refusal.is_some_and(|(number, place)| numbers == [number, place as u32])
        }
        _ => false,
    }
}

/// Whether a listing has so many lines, all as long as the stated ones, each of which has its number before it.
fn has_lines(listing: &[u8], count: usize, expected: &str) -> bool {
    expected.split_inclusive('\n').all(|numbered| {
        let (number, line) = numbered.split_once(' ').expect("a number and a line");
        let number: usize = number.parse().expect("a number");
        let found = listing.chunks(line.len()).nth(number - 1);
        listing.len() == count * line.len() && found == Some(line.as_bytes())
    }) && !expected.is_empty()
}

/// Compares the number of records and the kind of the fourth, where they are stated.
fn accepted(reading: Reading, numbers: &[u32]) -> bool {
    let Ok((_, records)) = reading else {
        return false;
    };
    let found = [
        records.len() as u32,
        records.get(3).map_or(0, |record| record[0]),
    ];
    found.starts_with(numbers)
}

/// Builds a draft from its quoted pieces; its form says at which entry it is read.
fn draft(text: &str) -> (Entry, Vec<u8>) {
    let mut pieces = text.split('"');
    let mut draft = Vec::new();
    let mut repeat = pieces.next().unwrap_or("");
    let in_body = repeat.starts_with("body");
    let entry = if repeat.starts_with("file") {
        Entry::File
    } else {
        Entry::Function
    };
    while let (Some(piece), Some(after)) = (pieces.next(), pieces.next()) {
        let count = repeat
            .split(' ')
            .next_back()
            .and_then(|word| word.strip_suffix('*'));
        let count = count.map_or(1, |digits| digits.parse().expect("a count"));
        draft.extend(bytes(piece).repeat(count));
        repeat = after;
    }
    if in_body {
        draft = [b"fn f(){", draft.as_slice(), b"}"].concat();
    }
    (entry, draft)
}

/// The bytes of a piece, with its marks replaced by what they stand for.
fn bytes(piece: &str) -> Vec<u8> {
    let text = piece
        .replace('~', "=>")
        .replace("\\r", "\r")
        .replace("\\n", "\n");
    let mut parts = text.split("\\x");
    let mut bytes = parts.next().unwrap_or("").as_bytes().to_vec();
    for part in parts {
        let (digits, behind) = part.split_at(2);
        bytes.push(u8::from_str_radix(digits, 16).expect("two hexadecimal digits"));
        bytes.extend_from_slice(behind.as_bytes());
    }
    bytes
}

/// The words of both buffers count: one too few is refused, just enough is not. 6 goes before a
/// length that is too large, and 15 after it. A file's first record takes words of the tree too.
/// More words than the limit's let no more tokens in.
fn words_hold() -> bool {
    let too_large = b"fn f()->[b;18446744073709551616]{}";
    [Limits::SMALL, Limits::LARGE].into_iter().all(|limits| {
        let read = |draft: &[u8], entry, words| read(draft, entry, limits, words);
        let tokens_first = |entry| {
            read(b"fn f(){}", entry, (17, 0)) == Err((6, 7))
                && read(too_large, entry, (35, 0)) == Err((6, 33))
                && read(too_large, entry, (36, 0)) == Err((19, 11))
        };
        let just_enough = |entry, draft, tokens, tree| {
            read(draft, entry, (tokens, tree)).is_ok()
                && read(draft, entry, (tokens, tree - 1)) == Err((15, 0))
        };
        let most = limits.tokens;
        let marks = b";".repeat(most + 1);
        tokens_first(Entry::Function)
            && tokens_first(Entry::File)
            && just_enough(Entry::Function, b"fn f(){}", 18, 21)
            && just_enough(Entry::File, b"fn f(){}", 18, 28)
            && just_enough(Entry::File, b"type A=u8;", 15, 28)
            && just_enough(Entry::File, b" ", 0, 7)
            && read(&marks, Entry::File, (3 * most + 3, 0)) == Err((6, most))
            && read(&marks[..most], Entry::File, (3 * most, 0)) == Err((8, 0))
            && read(&marks[..most], Entry::File, (3 * most - 1, 0)) == Err((6, most - 1))
    })
}

/// Of starts alone a token takes a word: 6 at the first that has none, over the words or the limit, whichever is less.
fn start_words_hold() -> bool {
    let too_large = b"fn f()->[b;18446744073709551616]{}";
    [Limits::SMALL, Limits::LARGE].into_iter().all(|limits| {
        let read = |draft: &[u8], entry, words| read_lean(draft, entry, limits, words);
        let starts = [0, 3, 4, 5, 6, 7];
        let each_start = (0..6).all(|words| {
            let refused = Err((6, starts[words]));
            read(b"fn f(){}", Entry::Function, (words, 0)) == refused
                && read(b"fn f(){}", Entry::File, (words, 28)) == refused
        });
        let tokens_first = |entry| {
            read(too_large, entry, (11, 0)) == Err((6, 33))
                && read(too_large, entry, (12, 0)) == Err((19, 11))
        };
        let just_enough = |entry, draft, starts, tree| {
            read(draft, entry, (starts, tree)).is_ok()
                && read(draft, entry, (starts, tree - 1)) == Err((15, 0))
        };
        let most = limits.tokens;
        let marks = b";".repeat(most + 1);
        each_start
            && tokens_first(Entry::Function)
            && tokens_first(Entry::File)
            && just_enough(Entry::Function, b"fn f(){}", 6, 21)
            && just_enough(Entry::File, b"fn f(){}", 6, 28)
            && just_enough(Entry::File, b"type A=u8;", 5, 28)
            && just_enough(Entry::File, b" ", 0, 7)
            && read(&marks, Entry::File, (most + 1, 0)) == Err((6, most))
            && read(&marks[..most], Entry::File, (most, 0)) == Err((8, 0))
            && read(&marks[..most], Entry::File, (most - 1, 0)) == Err((6, most - 1))
    })
}

/// The lines of `fn f(){}`: 164 bytes.
const LINES: &[u8] = b"29 0000 0008 00000000 00000000 0004 0000\n\
    01 0000 0008 00000000 00000000 0003 0001\n\
    02 0003 0004 00000000 00000000 0001 0001\n\
    12 0006 0008 00000000 00000000 0001 0002\n";

/// Its records: 28 words.
#[rustfmt::skip]
const TREE: [u32; 28] = [
    41, 0, 8, 0, 0, 4, 0,
    1, 0, 8, 0, 0, 3, 1,
    2, 3, 4, 0, 0, 1, 1,
    18, 6, 8, 0, 0, 1, 2,
];

/// What the small entry leaves in a buffer that fits, that is too short by a byte, and that is longer.
fn small_holds() -> bool {
    let listed = |room: usize| {
        let mut out = vec![b'x'; room];
        (list_into(b"fn f(){}", &mut out), out)
    };
    listed(164) == (164, LINES.to_vec())
        && listed(163) == (0, vec![0; 163])
        && listed(166) == (164, [LINES, &[0, 0]].concat())
}

/// The same of the large entry and its three buffers, and of a refusal's line.
fn large_holds() -> bool {
    let listed = |draft: &[u8], [tokens, tree, room]: [usize; 3]| {
        let (mut tokens, mut tree, mut out) = (vec![7; tokens], vec![7; tree], vec![b'x'; room]);
        let used = list_large_into(draft, &mut tokens, &mut tree, &mut out);
        (used, tokens, tree, out)
    };
    let tokens = [
        [4, 0, 2],
        [32, 3, 4],
        [20, 4, 5],
        [21, 5, 6],
        [24, 6, 7],
        [25, 7, 8],
    ]
    .concat();
    let tree = TREE.to_vec();
    let draft = b"fn f(){}";
    let too_many = b"00 0007 0007 00000006 00000000 0001 0000\n".to_vec();
    let too_small = b"00 0000 0000 0000000F 00000000 0001 0000\n".to_vec();
    let too_long = b"00 100000 100000 00000001 00000000 000001 000000\n".to_vec();
    let over = b" ".repeat(1_048_577);
    let zeros = |count: usize| vec![0; count];
    listed(draft, [18, 28, 164]) == (164, tokens.clone(), tree.clone(), LINES.to_vec())
        && listed(draft, [20, 29, 165])
            == (
                164,
                [tokens.clone(), zeros(2)].concat(),
                [tree.clone(), zeros(1)].concat(),
                [LINES, &[0]].concat(),
            )
        // Only the lines do not fit.
        && listed(draft, [18, 28, 163]) == (0, tokens, tree, vec![0; 163])
        && listed(draft, [17, 28, 41]) == (41, zeros(17), zeros(28), too_many)
        && listed(draft, [18, 27, 41]) == (41, zeros(18), zeros(27), too_small)
        && listed(&over, [0, 0, 49]) == (49, vec![], vec![], too_long)
        && listed(&over, [5, 9, 48]) == (0, zeros(5), zeros(9), vec![0; 48])
}

/// The same with starts alone, in buffers of no length, too short by one, just enough and longer.
fn lean_holds() -> bool {
    let listed = |draft: &[u8], [starts, tree, room]: [usize; 3]| {
        let (mut starts, mut tree, mut out) = (vec![7; starts], vec![7; tree], vec![b'x'; room]);
        let used = list_lean_into(draft, &mut starts, &mut tree, &mut out);
        (used, starts, tree, out)
    };
    let starts = vec![0, 3, 4, 5, 6, 7];
    let tree = TREE.to_vec();
    let draft = b"fn f(){}";
    let none_fits = b"00 0000 0000 00000006 00000000 0001 0000\n".to_vec();
    let last_too_many = b"00 0007 0007 00000006 00000000 0001 0000\n".to_vec();
    let too_small = b"00 0000 0000 0000000F 00000000 0001 0000\n".to_vec();
    let not_closed = b"00 0007 0007 00000008 00000000 0001 0000\n".to_vec();
    let zeros = |count: usize| vec![0; count];
    listed(draft, [6, 28, 164]) == (164, starts.clone(), tree.clone(), LINES.to_vec())
        && listed(draft, [8, 29, 165])
            == (
                164,
                [starts.clone(), zeros(2)].concat(),
                [tree.clone(), zeros(1)].concat(),
                [LINES, &[0]].concat(),
            )
        // Only the lines do not fit.
        && listed(draft, [6, 28, 163]) == (0, starts, tree, vec![0; 163])
        && listed(draft, [0, 28, 41]) == (41, vec![], zeros(28), none_fits)
        && listed(draft, [5, 28, 41]) == (41, zeros(5), zeros(28), last_too_many)
        && listed(draft, [6, 27, 41]) == (41, zeros(6), zeros(27), too_small)
        && listed(&draft[..7], [5, 0, 41]) == (41, zeros(5), vec![], not_closed)
        && listed(b" ", [0, 7, 40]) == (0, vec![], vec![41, 0, 1, 0, 0, 1, 0], vec![0; 40])
}

#[test]
fn cases() {
    assert_eq!(failures(), 0);
}
