//! The drafts that nest deepest, each read by a thread with 1 MiB of stack.

use togmelic::{
    list_lean, read_within, records, records_in, Limits, NoRecord, Record, Refusal, LONG_LINE,
};

type Reading = Result<Vec<Record>, Refusal>;

/// Each way to read a draft in a thread.
const WAYS: [fn(&[u8]) -> Reading; 3] = [
    |draft| read_within(draft, Limits::Small),
    |draft| read_within(draft, Limits::Large),
    read_lean,
];

fn read_in_thread(draft: &str, read: fn(&[u8]) -> Reading) -> Reading {
    let draft = draft.to_owned();
    let thread = std::thread::Builder::new().stack_size(1 << 20);
    let reader = thread.spawn(move || read(draft.as_bytes()));
    reader.expect("a thread").join().expect("an answer")
}

/// The records by `list_lean`, or the refusal, for which there is room.
fn read_lean(draft: &[u8]) -> Reading {
    let mut starts = vec![0; Limits::Large.start_words(draft.len())];
    let mut tree = vec![0; Limits::Large.tree_words(draft.len())];
    let mut line = [0; LONG_LINE];
    let lines = list_lean(draft, &mut starts, &mut tree, &mut line);
    match lines.and_then(|lines| records(lines).next()) {
        Some(Err(NoRecord::Refused(refusal))) => Err(refusal),
        _ => Ok(records_in(&tree).collect()),
    }
}

/// Eight `match` before each of 47 brackets, and eight more: well-shaped so far, and nothing closed.
#[test]
fn matches_in_every_bracket() {
    for bracket in [
        "{",
        "(",
        "[",
        "f(",
        "A::B(",
        "fold::B(",
        "Left(",
        "list![",
        "fold::<g,2>(",
    ] {
        let level = "match ".repeat(8) + bracket;
        let draft = format!("fn f(){{{}{}", level.repeat(47), "match ".repeat(8));
        let (number, place) = (8, draft.len());
        for read in WAYS {
            assert_eq!(read_in_thread(&draft, read), Err(Refusal { number, place }));
        }
    }
}

/// Pairs nested in first place: a pair and a number for each of 47, the innermost number, and four records around.
#[test]
fn pairs() {
    let draft = format!("fn f(){{{}1{}}}", "(".repeat(47), ",1)".repeat(47));
    for read in WAYS {
        let tree = read_in_thread(&draft, read).expect("an accepted draft");
        assert_eq!(tree.len(), 2 * 47 + 1 + 4);
    }
}

/// As deep in a draft that is as long as may be, behind 10,000 other functions.
#[test]
fn deep_and_long() {
    let functions = "fn f(){a;}".repeat(10_000);
    let pairs = format!("fn f(){{{}1{}}}", "(".repeat(47), ",1)".repeat(47));
    let mut draft = functions + &pairs;
    draft += &" ".repeat(Limits::Large.bytes() - draft.len());
    for read in [WAYS[1], read_lean] {
        let tree = read_in_thread(&draft, read).expect("an accepted draft");
        assert_eq!(tree.len(), 4 * 10_000 + 2 * 47 + 1 + 4);
        assert_eq!(tree[0].end, Limits::Large.bytes());
    }
}
