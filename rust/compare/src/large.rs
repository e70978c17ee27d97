//! Drafts at the large limits, and on both sides of numbers of four digits in each field, with the listings of those that
//! are accepted; and listings of few lines with such numbers.

use crate::answers::Lengths;
use crate::comparison::Comparison;
use crate::damage::LARGEST;
use crate::limits::{at_limits, body};
use crate::listings;
use crate::loading::Loading;
use crate::random::Random;
use partner::{
    write_in, write_lines, Form, Limits, Record, RECORD_WORDS, START_WORDS, TOKEN_WORDS,
};
use std::ops::RangeInclusive;
use togmelic::MOST_BYTES;

/// Numbers of four digits and of five.
const BORDER: RangeInclusive<usize> = 0xFFFD..=0x1_0002;
/// Columns of start, end, size and way up.
const PLACED: [usize; 4] = [1, 2, 5, 6];

pub fn all(drafts: &mut Comparison, listings: &mut Loading) {
    let mut random = Random::from_bytes(b"large");
    for part in at_limits(Limits::LARGE) {
        for draft in part {
            check(draft.as_bytes(), drafts, listings, &mut random);
        }
    }
    for part in [ends, sizes, ways, exchanged] {
        for draft in part() {
            check(draft.as_bytes(), drafts, listings, &mut random);
        }
    }
    buffers(drafts);
    words(listings);
    mixed(listings);
}

/// Compares the draft and, where it is accepted within the large limits, its listing.
pub fn check(draft: &[u8], drafts: &mut Comparison, listings: &mut Loading, random: &mut Random) {
    drafts.check(draft, MOST_BYTES);
    let file = partner::listing(draft, Limits::LARGE);
    listings::long(&file, listings, random);
}

/// Ends and starts on both sides: of the file, of an item and of a token, and a refusal's place.
pub fn ends() -> Vec<String> {
    let item = "type A=u8;";
    let around = |at: usize| {
        let blanks = " ".repeat(at);
        [
            blanks.clone(),
            format!("/*{}*/", " ".repeat(at - 4)),
            // The item begins or ends there, or its name does.
            format!("{blanks}{item}"),
            blanks[item.len()..].to_string() + item,
            blanks[item.len() - 1..].to_string() + item + "\n",
            blanks[5..].to_string() + item,
            blanks[6..].to_string() + item,
            item.to_string() + &blanks[item.len()..],
            format!("{blanks}#"),
            format!("{blanks}//\u{e9}#"),
            format!("{blanks}match"),
            blanks[6..].to_string() + "fn f()",
            format!("#{blanks}"),
        ]
    };
    BORDER.flat_map(around).collect()
}

/// So many records in a file, in its function, and in its block: statements alone, behind a name or in brackets.
fn sizes() -> Vec<String> {
    let around = |count: usize| {
        let ones = "1;".repeat(count - 4);
        [
            body(&ones),
            body(&format!("{}1", &ones[..ones.len() - 2])),
            body(&format!("f({})", "x,".repeat(count - 6))),
            body(&format!("[{}]", "1,".repeat(count - 5))),
        ]
    };
    BORDER.flat_map(around).collect()
}

/// Ways up on both sides: of a file's items, and of a function's block behind its parameters. Three records each, so the
/// first item and the result type fill in.
fn ways() -> Vec<String> {
    let around = |count: usize| {
        let items = |first: &str| format!("type A={first};") + &"type A=A;".repeat(count);
        let behind = |result: &str| format!("fn f({}){result}{{}}", "a:b,".repeat(count));
        [
            items("A"),
            items("(A)"),
            items("(A,A)"),
            behind(""),
            behind("->b"),
            behind("->(b)"),
        ]
    };
    (0xFFFF / 3 - 1..=0xFFFF / 3 + 1).flat_map(around).collect()
}

/// Arms that are exchanged or stand as they are, the large one first or last; in its parts the sizes are on both sides.
fn exchanged() -> Vec<String> {
    let around = |more: usize| {
        let large = "A::B;".repeat(0xFFFF / 3 - 2) + &"1;".repeat(more);
        let arms = [
            format!("true=>{{{large}}}false=>2,"),
            format!("false=>{{{large}}}true=>2,"),
            format!("true=>2,false=>{{{large}}}"),
            format!("false=>2,true=>{{{large}}}"),
        ];
        arms.map(|arms| body(&format!("match x{{{arms}}}")))
    };
    (0..=8).flat_map(around).collect()
}

/// The draft with the most records for its tokens and one that is refused, with each length of the buffers at what is
/// needed, one less and one more; those for tokens and for their starts take turns.
fn buffers(drafts: &mut Comparison) {
    let most = format!("fn f({}){{}}", "a:b,".repeat(32_766));
    check_lengths(&most, [131_070, 7 * 98_302, 49 * 98_302], drafts);
    let marks = ";".repeat(131_072);
    check_lengths(&marks, [131_072, 7, 49], drafts);
}

fn check_lengths(draft: &str, [count, tree, room]: [usize; 3], drafts: &mut Comparison) {
    let near = |length: usize| length - 1..=length + 1;
    for (tokens, starts) in near(TOKEN_WORDS * count).zip(near(START_WORDS * count)) {
        for tree in near(tree) {
            for room in near(room) {
                let lengths = Lengths {
                    tokens,
                    starts,
                    tree,
                    room,
                };
                drafts.check_lent(draft.as_bytes(), lengths);
            }
        }
    }
}

/// The records of a file of a type and a function with one word, or two, of every telling value, in each form.
fn words(listings: &mut Loading) {
    let records = small_file();
    for at in 0..records.len() {
        for column in PLACED {
            for value in LARGEST {
                let mut changed = records.clone();
                changed[at][column] = value;
                in_each_form(&changed, listings);
                // The first record's end as well, which alone would be right.
                changed[0][2] = 0x1_0000;
                in_each_form(&changed, listings);
            }
        }
    }
}

fn small_file() -> Vec<Record> {
    let file = partner::listing(b"type A=u8;fn f(){}", Limits::LARGE);
    partner::load(&file, usize::MAX).expect("its own listing")
}

fn in_each_form(records: &[Record], listings: &mut Loading) {
    let words = RECORD_WORDS * records.len();
    for form in Form::ALL {
        listings.check(&write_in(form, records), words);
    }
    listings.check(&write_lines(records), words);
}

/// Lines of two forms, each first, whether or not six digits are needed; and the first bad line at each place.
fn mixed(listings: &mut Loading) {
    let small = small_file();
    for records in [small.clone(), crate::damage::far(&small)] {
        let words = RECORD_WORDS * records.len();
        for (first, other) in pairs() {
            for at in 0..=records.len() {
                let before = write_in(first, &records[..at]);
                let behind = write_in(other, &records[at..]);
                for between in [b"".as_slice(), b"x", b"\n"] {
                    listings.check(&[&before, between, &behind].concat(), words);
                }
            }
        }
    }
}

fn pairs() -> impl Iterator<Item = (Form, Form)> {
    let each = |first| Form::ALL.map(move |other| (first, other));
    Form::ALL.into_iter().flat_map(each)
}
