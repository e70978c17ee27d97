//! The listings of `listings.txt`, each loaded and compared with its stated result.

use crate::{load, write_in, write_lines, Form, RECORD_WORDS};

const CASES: &str = include_str!("../listings.txt");

/// Runs all cases, names those that fail, and answers how many did.
pub fn failures() -> usize {
    let examples = CASES.split("\nexample\n").skip(1);
    let (run, failed) = examples
        .map(run)
        .fold((0, 0), |sum, more| (sum.0 + more.0, sum.1 + more.1));
    println!("{run} listings, {failed} failed");
    failed
}

/// Runs the cases of one example, whose text begins with its lines: how many there are, and how many fail.
fn run(text: &str) -> (usize, usize) {
    let example: Vec<String> = text
        .lines()
        .filter_map(|line| line.strip_prefix("    "))
        .map(|line| format!("{line}\n"))
        .collect();
    let cases = || {
        text.lines()
            .filter(|line| !line.starts_with('#'))
            .filter_map(|line| Some((line, line.split_once(" =")?)))
    };
    let failed = cases().filter(|(line, (result, changes))| {
        let fails = !holds(result, &changed(&example, changes));
        if fails {
            eprintln!("fails: {line}");
        }
        fails
    });
    let failed = failed.count() + usize::from(!buffer_holds(&example));
    (cases().count(), failed)
}

/// The example's lines with some replaced: a number from 1 and a text in quotes for each.
fn changed(example: &[String], changes: &str) -> String {
    let mut lines = example.to_vec();
    let mut pieces = changes.split('"');
    while let (Some(number), Some(text)) = (pieces.next(), pieces.next()) {
        let number: usize = number.trim().parse().expect("a line's number");
        lines[number - 1] = text.replace("\\n", "\n").replace("\\r", "\r");
    }
    lines.concat()
}

/// Whether the listing has the stated result; what is loaded, written again in the same form, is the listing.
fn holds(result: &str, listing: &str) -> bool {
    let mut words = result.split(' ');
    let what = words.next();
    let numbers: Vec<usize> = words.map(|word| word.parse().expect("a number")).collect();
    match load(listing.as_bytes(), usize::MAX) {
        Ok(records) => {
            what == Some("load")
                && numbers == [records.len()]
                && [write_lines(&records), write_in(Form::Older, &records)]
                    .contains(&listing.as_bytes().to_vec())
        }
        Err((number, line)) => what == Some("refuse") && numbers == [number as usize, line],
    }
}

/// 18 when the buffer is a word too short, but 16 and 17 before it.
fn buffer_holds(example: &[String]) -> bool {
    let (listing, words) = (example.concat(), RECORD_WORDS * example.len());
    load(listing.as_bytes(), words).is_ok()
        && load(listing.as_bytes(), words - 1) == Err((18, 0))
        && load(b"", 0) == Err((17, 0))
        && load(b"\n", 0) == Err((16, 1))
}

#[test]
fn cases() {
    assert_eq!(failures(), 0);
}
