//! The listings of a stream of drafts in all forms, whole and damaged, with word buffers around what is needed. Where a
//! draft is one function, its records without the program's are a listing too.

use crate::damage::{self, line_length};
use crate::grafts;
use crate::loading::Loading;
use crate::random::Random;
use partner::{write_in, write_lines, Form, Limits, Record};
use togmelic::{LINE, RECORD_WORDS};

/// Listings of so many lines or fewer are now and then cut at every length.
const FEW_LINES: usize = 12;

/// Compares the listings of the drafts; `None` where that is no whole stream.
pub fn all(stream: &[u8], loading: &mut Loading) -> Option<()> {
    let mut random = Random::from_bytes(stream);
    let mut rest = stream;
    let mut before = load(&partner::listing(b"fn f(){}", Limits::SMALL))?;
    while !rest.is_empty() {
        let draft = partner::streams::next_draft(&mut rest)?;
        let file = partner::listing(draft, Limits::SMALL);
        whole(&file, loading, &mut random);
        let Some(mut records) = load(&file) else {
            continue;
        };
        all_forms(&records, loading, &mut random);
        if let Some(function) = alone(&records) {
            // Cut out as it is, it has a way up to the program.
            whole(&file[LINE..], loading, &mut random);
            whole(&write_lines(&function), loading, &mut random);
            all_forms(&function, loading, &mut random);
            // Only one of the two is damaged, by chance.
            if random.one_in(2) {
                records = function;
            }
        }
        // Mostly in lines of 41 bytes, else with an end that needs six digits.
        if random.one_in(3) {
            records = damage::far(&records);
        }
        damaged(&records, &before, loading, &mut random);
        changed(&records, &before, loading, &mut random);
        before = records;
    }
    Some(())
}

/// A long listing: whole, in a form that it does not ask for, and damaged in one of the ways.
pub fn long(file: &[u8], loading: &mut Loading, random: &mut Random) {
    loading.check(file, needed(file));
    check(file, loading, random);
    let Some(records) = load(file) else {
        return;
    };
    check(
        &write_in(random.one_of(&Form::ALL), &records),
        loading,
        random,
    );
    let damaged = match random.below(5) {
        0 => damage::bytes(file, b"29", random),
        1 => damage::lines(file, random),
        2 => damage::forms(&records, random),
        3 => write_lines(&damage::field(&records, random)),
        _ => damage::ways(&records, random),
    };
    check(&damaged, loading, random);
}

fn load(lines: &[u8]) -> Option<Vec<Record>> {
    partner::load(lines, usize::MAX).ok()
}

/// The records of a file without its first, if they are one function then.
fn alone(file: &[Record]) -> Option<Vec<Record>> {
    load(&write_in(Form::Older, &file[1..]))
}

fn needed(lines: &[u8]) -> usize {
    lines.len() / line_length(lines) * RECORD_WORDS
}

/// The records without the way up, with more digits than they need, and with an end that needs them.
fn all_forms(records: &[Record], loading: &mut Loading, random: &mut Random) {
    whole(&write_in(Form::Older, records), loading, random);
    whole(&write_in(Form::Longer, records), loading, random);
    whole(&write_lines(&damage::far(records)), loading, random);
}

/// The listing itself, with buffers that are enough and with one that is not.
fn whole(lines: &[u8], loading: &mut Loading, random: &mut Random) {
    let needed = needed(lines);
    loading.check(lines, needed);
    loading.check(lines, needed + 1 + random.below(20));
    let short = [0, needed - 1, needed - RECORD_WORDS, needed / 2];
    loading.check(lines, random.one_of(&short));
    if lines.len() <= line_length(lines) * FEW_LINES && random.one_in(16) {
        for length in 0..lines.len() {
            loading.check(&lines[..length], needed);
        }
    }
}

/// The lines of records, mostly in the form that they ask for.
fn written(records: &[Record], random: &mut Random) -> Vec<u8> {
    match random.below(12) {
        0..4 => write_in(Form::Older, records),
        4 => write_in(Form::Newer, records),
        5 => write_in(Form::Longer, records),
        _ => write_lines(records),
    }
}

/// Bytes and lines damaged, and lines of several forms.
fn damaged(records: &[Record], other: &[Record], loading: &mut Loading, random: &mut Random) {
    for _ in 0..3 {
        let (lines, other) = (written(records, random), written(other, random));
        check(&damage::bytes(&lines, &other, random), loading, random);
    }
    let lines = written(records, random);
    check(&damage::lines(&lines, random), loading, random);
    check(&damage::forms(records, random), loading, random);
}

/// Records changed: their fields, their ways up, and where they stand.
fn changed(records: &[Record], other: &[Record], loading: &mut Loading, random: &mut Random) {
    for _ in 0..3 {
        let fields = damage::field(records, random);
        check(&written(&fields, random), loading, random);
        check(&damage::ways(records, random), loading, random);
    }
    // A file without items has no part that could be exchanged.
    let grafts = if records.len() > 1 { 4 } else { 0 };
    for _ in 0..grafts {
        let tree = grafts::graft(records, other, random);
        // Where it is still a function or a file, mostly mended.
        let mended = mended(&tree).filter(|_| !random.one_in(8));
        check(&written(&mended.unwrap_or(tree), random), loading, random);
    }
}

/// The tree with the ways that it has now, where it is a function or a file. Lines without them have four digits, so the
/// end of the first record is put back.
fn mended(tree: &[Record]) -> Option<Vec<Record>> {
    let mut mended = load(&write_in(Form::Older, tree))?;
    mended[0][2] = tree[0][2];
    Some(mended)
}

/// Mostly with as many words as are needed, so that 18 hides no answer.
fn check(lines: &[u8], loading: &mut Loading, random: &mut Random) {
    let needed = needed(lines);
    let more = [
        needed,
        needed,
        needed + 1,
        needed + RECORD_WORDS,
        needed.max(1) - 1,
    ];
    loading.check(lines, random.one_of(&more));
}
