//! All records of a few children, in functions and files that are right otherwise, tops of every place, and listings of as
//! many lines as four digits count, and of more.

use crate::damage::far;
use crate::loading::Loading;
use crate::strings;
use crate::trees::{
    alias, block, built_in_arm, in_tops, name, number, over, pattern, program, smallest, value,
    Tree,
};
use partner::kinds::record;
use partner::{write_in, write_lines, Form, Record};
use std::ops::RangeInclusive;
use togmelic::RECORD_WORDS;

/// Every kind, and some that there are not.
const KINDS: RangeInclusive<u32> = 0..=record::TYPE_ITEM + 2;

/// Strings of children: see `child` for the letters.
struct Row {
    kinds: RangeInclusive<u32>,
    children: &'static str,
    /// All strings of so many children or fewer are compared.
    most: usize,
    lows: u32,
    highs: u32,
}

const fn row(
    kinds: RangeInclusive<u32>,
    children: &'static str,
    most: usize,
    (lows, highs): (u32, u32),
) -> Row {
    Row {
        kinds,
        children,
        most,
        lows,
        highs,
    }
}

const ROWS: [Row; 10] = [
    row(KINDS, "NPTpLBE3456MnozFDG", 2, (4, 2)),
    row(record::PROGRAM..=record::PROGRAM, "FDGN", 5, (2, 2)),
    row(record::TYPE_ITEM..=record::TYPE_ITEM, "NTFDG", 4, (2, 2)),
    row(record::FUNCTION..=record::FUNCTION, "NPTBE", 5, (5, 4)),
    row(record::LET..=record::BLOCK, "pTEL", 4, (3, 2)),
    row(
        record::ENUM_CONSTRUCTION..=record::ENUM_CONSTRUCTION,
        "NET",
        4,
        (6, 2),
    ),
    row(record::MATCH..=record::MATCH, "E123456M", 3, (2, 2)),
    row(record::ENUM_MATCH..=record::ENUM_MATCH, "E5M", 5, (2, 2)),
    row(record::BUILTIN_ARM..=record::ENUM_ARM, "NpTE", 6, (8, 4)),
    row(record::CALL..=record::CALL, "NTEnoz", 4, (17, 2)),
];

/// A child by its letter; a built-in arm by its number.
fn child(letter: u8) -> Tree {
    match letter {
        b'N' => name(),
        b'P' => smallest(record::PARAMETER),
        b'T' => alias(),
        b'p' => pattern(),
        b'L' => smallest(record::LET),
        b'B' => block(0, &[]),
        b'E' => value(),
        b'F' => smallest(record::FUNCTION),
        b'D' => smallest(record::TYPE_ITEM),
        b'G' => program(&[]),
        b'M' => smallest(record::ENUM_ARM),
        b'n' => number(2),
        b'o' => number(3),
        b'z' => number(0),
        _ => built_in_arm(u32::from(letter - b'0')),
    }
}

pub fn all(loading: &mut Loading) {
    for row in &ROWS {
        compare_row(row, loading);
    }
    numbers(loading);
    places(loading);
    long(loading);
}

/// Compares the tree below its tops, with as many words as they need; whether one of them is taken.
fn compare(tree: Tree, loading: &mut Loading) -> bool {
    let mut taken = false;
    for top in in_tops(tree) {
        taken |= check(&top, loading);
    }
    taken
}

/// Compares the records' lines with and without the way up, and now and then in six digits, with an end that needs them.
fn check(records: &[Record], loading: &mut Loading) -> bool {
    let words = RECORD_WORDS * records.len();
    if loading.listings() % 16 < 2 {
        loading.check(&write_lines(&far(records)), words);
    }
    loading.check(&write_in(Form::Older, records), words);
    loading.check(&write_lines(records), words)
}

fn compare_row(row: &Row, loading: &mut Loading) {
    let letters: Vec<&[u8]> = row.children.as_bytes().chunks(1).collect();
    strings::each(&letters, &mut |string| {
        let children: Vec<Tree> = string.iter().map(|letter| child(letter[0])).collect();
        for kind in row.kinds.clone() {
            for (low, high) in pairs(row.lows, row.highs) {
                let taken = compare(over(kind, (low, high), &children), loading);
                if taken && string.len() <= 3 {
                    replace_each(kind, (low, high), &children, loading);
                }
            }
        }
        string.len() < row.most
    });
}

fn pairs(lows: u32, highs: u32) -> impl Iterator<Item = (u32, u32)> {
    (0..lows).flat_map(move |low| (0..highs).map(move |high| (low, high)))
}

/// Puts each kind in place of each child of a record that is taken.
fn replace_each(kind: u32, numbers: (u32, u32), children: &[Tree], loading: &mut Loading) {
    for at in 0..children.len() {
        let mut children = children.to_vec();
        for other in KINDS {
            children[at] = smallest(other);
            compare(over(kind, numbers, &children), loading);
        }
    }
}

/// Low and high of telling values in every kind, over no child and over one.
fn numbers(loading: &mut Loading) {
    let powers = (0..64).flat_map(|power| {
        let number = 1u64 << power;
        [number - 1, number, number + 1]
    });
    let telling: Vec<u64> = (0..300).chain(powers).chain([u64::MAX]).collect();
    for kind in KINDS {
        for number in &telling {
            let halves = (*number as u32, (*number >> 32) as u32);
            for children in [vec![], vec![alias()], vec![value()]] {
                compare(over(kind, halves, &children), loading);
            }
        }
    }
}

/// Tops of every small place, alone and over an item of every small place.
fn places(loading: &mut Loading) {
    for place in pairs(4, 4) {
        check(&placed(program(&[]), place), loading);
        for inner in pairs(4, 4) {
            for item in [record::FUNCTION, record::TYPE_ITEM] {
                let mut file = program(&[placed(smallest(item), inner)]);
                (file[0][1], file[0][2]) = place;
                check(&file, loading);
                // The item with the top's place too, over children that keep theirs; then that item as the top.
                (file[1][1], file[1][2]) = place;
                check(&file, loading);
                file[1][6] = 0;
                check(&file[1..], loading);
            }
        }
    }
}

/// The tree with one place for all of it.
fn placed(mut tree: Tree, (start, end): (u32, u32)) -> Tree {
    for record in &mut tree {
        (record[1], record[2]) = (start, end);
    }
    tree
}

/// Listings of so many records that four digits just count them, and of more, in all forms: chains and rows in a function
/// and in a file, and items in a row.
fn long(loading: &mut Loading) {
    for count in [0xFFFE, 0xFFFF, 0x1_0000, 0x1_0001, 0x1_0003, 0x2_0001] {
        // Three of the records stand around the others: function, name, block; and a file's program.
        let functions = row_and_chain(count - 3).map(function);
        let files = row_and_chain(count - 4).map(|trees| program(&[function(trees)]));
        let items = program(&vec![smallest(record::TYPE_ITEM); (count - 1) / 3]);
        for tree in functions.iter().chain(&files).chain([&items]) {
            for lines in Form::ALL.map(|form| write_in(form, tree)) {
                for room in [RECORD_WORDS * tree.len() - 1, RECORD_WORDS * tree.len()] {
                    loading.check(&lines, room);
                }
            }
        }
    }
}

/// So many records side by side, and as many inside one another.
fn row_and_chain(count: usize) -> [Vec<Tree>; 2] {
    let chain = (1..count as u32 + 1)
        .rev()
        .map(|size| [record::BLOCK, 0, 9, u32::from(size > 1), 0, size, 1]);
    [vec![value(); count], vec![chain.collect()]]
}

/// A function with these expressions in its block.
fn function(trees: Vec<Tree>) -> Tree {
    over(record::FUNCTION, (0, 0), &[name(), block(1, &trees)])
}
