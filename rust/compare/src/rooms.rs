//! Drafts of some size, accepted and refused, with buffers for tokens and for their starts of every length around what either
//! takes, and tree buffers around what is needed.

use crate::answers::Lengths;
use crate::comparison::Comparison;
use crate::{large, limits};
use partner::{Entry, Form, Limits, RECORD_WORDS, START_WORDS, TOKEN_WORDS};
use togmelic::MOST_BYTES;

/// Drafts as they would be written, one of them refused, and one of 500 tokens.
const EXAMPLES: [&str; 6] = [
    include_str!("../../../examples/broken.simf"),
    include_str!("../../../examples/escrow.simf"),
    include_str!("../../../examples/file.simf"),
    include_str!("../../../examples/greek.simf"),
    include_str!("../../../examples/polish.simf"),
    include_str!("../../../bench/reader/escrow.simf"),
];

pub fn all(comparison: &mut Comparison) {
    let examples = EXAMPLES.map(String::from).to_vec();
    for draft in [examples, limits::drafts(), large::ends()].concat() {
        comparison.check(draft.as_bytes(), MOST_BYTES);
        around(draft.as_bytes(), comparison);
    }
}

/// Compares with buffers around what the draft takes: of a refused one, where that is the refusal's line.
fn around(draft: &[u8], comparison: &mut Comparison) {
    let tokens = partner::lex(draft).map_or(0, |tokens| tokens.len());
    let reading = partner::read_with_room(draft, Entry::File, Limits::LARGE);
    let records = reading.map_or(1, |(_, records)| records.len());
    for tree in near(RECORD_WORDS * records, 1) {
        let enough = Lengths {
            tokens: TOKEN_WORDS * tokens,
            starts: START_WORDS * tokens,
            tree,
            room: Form::Longer.line() * records,
        };
        for words in token_buffers(tokens) {
            for lengths in [
                Lengths {
                    tokens: words,
                    ..enough
                },
                Lengths {
                    starts: words,
                    ..enough
                },
            ] {
                comparison.check_lent(draft, lengths);
            }
        }
    }
}

/// Every length around what so many tokens take in either buffer, and the least lengths.
fn token_buffers(tokens: usize) -> Vec<usize> {
    let least = near(0, 1);
    let starts = near(START_WORDS * tokens, START_WORDS + 1);
    let whole = near(TOKEN_WORDS * tokens, TOKEN_WORDS + 1);
    [least, starts, whole].concat()
}

/// The lengths around one, so many on each side.
fn near(length: usize, aside: usize) -> Vec<usize> {
    (length.saturating_sub(aside)..=length + aside).collect()
}
