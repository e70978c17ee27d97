//! Trees changed by chance so that their sizes still add up: most are of no draft, and many are still functions or files.
//! The ways up stay as they were.

use crate::random::Random;
use partner::kinds::record;
use partner::Record;

/// A part replaced by one of another tree, taken out, doubled, or exchanged with the part behind it. The tree has a part
/// below its top.
pub fn graft(records: &[Record], other: &[Record], random: &mut Random) -> Vec<Record> {
    let mut tree = records.to_vec();
    let at = 1 + random.below(tree.len() - 1);
    let size = tree[at][5] as usize;
    match random.below(8) {
        0 => replace(&mut tree, at..at + size, Vec::new()),
        1 => {
            let doubled = [&tree[at..at + size], &tree[at..at + size]].concat();
            replace(&mut tree, at..at + size, doubled);
        }
        2 => exchange(&mut tree, at),
        _ => {
            let part = fitting_part(other, tree[at], random);
            replace(&mut tree, at..at + size, part);
        }
    }
    tree
}

/// Puts a part in place of another, and mends the sizes above it.
fn replace(tree: &mut Vec<Record>, range: std::ops::Range<usize>, part: Vec<Record>) {
    let (removed, added) = (range.len() as u32, part.len() as u32);
    for (above, record) in tree[..range.start].iter_mut().enumerate() {
        if above + record[5] as usize > range.start {
            record[5] = record[5] + added - removed;
        }
    }
    tree.splice(range, part);
}

/// Exchanges a part with the one behind it, if that has the same parent.
fn exchange(tree: &mut [Record], at: usize) {
    let next = at + tree[at][5] as usize;
    let parent_end = (0..at)
        .map(|above| above + tree[above][5] as usize)
        .filter(|end| *end > at)
        .min();
    if parent_end.is_some_and(|end| next < end) {
        let end = next + tree[next][5] as usize;
        tree[at..end].rotate_left(next - at);
    }
}

/// A part of a tree, mostly of the same group as the record whose place it takes, and mostly with that place.
fn fitting_part(tree: &[Record], taken: Record, random: &mut Random) -> Vec<Record> {
    let mut at = random.below(tree.len());
    for _ in 0..random.one_of(&[0, 16]) {
        if group(tree[at][0]) == group(taken[0]) {
            break;
        }
        at = random.below(tree.len());
    }
    let mut part = tree[at..at + tree[at][5] as usize].to_vec();
    if !random.one_in(8) {
        for record in &mut part {
            record[1..3].copy_from_slice(&taken[1..3]);
        }
    }
    part
}

/// Items, types, patterns and expressions stand for each other: the first of the group.
fn group(kind: u32) -> u32 {
    match kind {
        record::TYPE_ITEM => record::FUNCTION,
        record::ALIAS..=record::LIST_TYPE => record::ALIAS,
        record::IDENTIFIER_PATTERN..=record::ARRAY_PATTERN => record::IDENTIFIER_PATTERN,
        record::BLOCK..=record::ENUM_MATCH | record::CALL => record::BLOCK,
        _ => kind,
    }
}
