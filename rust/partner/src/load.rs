//! Listings come back: the records of a listing in any form, or one of the refusals 16 to 18, tested in this order.

mod children;
mod fields;
mod form;
#[cfg(test)]
mod tests;

use crate::kinds::{record, refusal};
use crate::{Form, Record, Refusal, RECORD_WORDS};
use form::Lines;

/// Loads a listing for a record buffer of that many words: its records, or the number and line of the refusal.
pub fn load(listing: &[u8], words: usize) -> Result<Vec<Record>, Refusal> {
    let lines = form::lines(listing).map_err(|line| (refusal::BAD_LINE, line))?;
    let records = tree(lines).ok_or((refusal::NOT_ONE_TREE, 0))?;
    if words < RECORD_WORDS * records.len() {
        return Err((refusal::RECORDS_TOO_SMALL, 0));
    }
    Ok(records)
}

/// The records with their ways up, if they are one tree and no line has another way.
fn tree(lines: Lines) -> Option<Vec<Record>> {
    let mut records = lines.records;
    if !is_one_tree(&records) {
        return None;
    }
    let ways = ways_up(&records);
    if lines.form == Form::Older {
        for (record, way) in records.iter_mut().zip(&ways) {
            record[6] = *way;
        }
    }
    let right = records.iter().map(|record| record[6]).eq(ways);
    right.then_some(records)
}

/// For each record of a tree how many records back its parent begins.
fn ways_up(records: &[Record]) -> Vec<u32> {
    // The record before and all that hold it, outermost first: where each begins and ends.
    let mut around: Vec<(usize, usize)> = Vec::new();
    let mut ways = Vec::with_capacity(records.len());
    for (at, record) in records.iter().enumerate() {
        while around.pop_if(|(_, end)| *end == at).is_some() {}
        let parent = around.last().map_or(at, |(begin, _)| *begin);
        ways.push((at - parent) as u32);
        around.push((at, at + record[5] as usize));
    }
    ways
}

/// Whether the first record is a function or a file that holds all the others, each as its parent's row of the table
/// allows.
fn is_one_tree(records: &[Record]) -> bool {
    let is_top = |top: &Record| matches!(top[0], record::FUNCTION | record::PROGRAM);
    records
        .first()
        .is_some_and(|top| is_top(top) && top[5] as usize == records.len())
        && (0..records.len()).all(|at| holds(records, at))
}

/// Whether a record's fields and the children directly beneath it are right. Every record but the top is the child
/// of one, so where this holds for all, it is one tree.
fn holds(records: &[Record], at: usize) -> bool {
    let parent = &records[at];
    children(records, at).is_some_and(|children| {
        has_place(parent)
            && children.iter().all(|child| is_inside(child, parent))
            && fields::allowed(parent)
            && children::allowed(parent, &children)
    })
}

/// The children of a record: each begins where the one before it ends. `None` where their sizes do not add up.
fn children(records: &[Record], at: usize) -> Option<Vec<Record>> {
    let size = |at: usize| records[at][5] as usize;
    let end = at + size(at);
    let mut next = at + 1;
    let mut children = Vec::new();
    while next < end.min(records.len()) && size(next) > 0 {
        children.push(records[next]);
        next += size(next);
    }
    (next == end).then_some(children)
}

/// Only a file may be empty, and it starts at 0.
fn has_place([kind, start, end, ..]: &Record) -> bool {
    match *kind {
        record::PROGRAM => *start == 0,
        _ => start < end,
    }
}

fn is_inside(child: &Record, parent: &Record) -> bool {
    parent[1] <= child[1] && child[2] <= parent[2]
}
