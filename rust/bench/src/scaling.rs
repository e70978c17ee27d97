//! Times over the tokens of a draft, and over the depth of its brackets.

use crate::calls::{tokens, LIST, LIST_ROOM};
use crate::cases::{flat, pairs, statements};
use crate::times::table;

/// Statements of 104 to 2,000 tokens. A line for each draft: its tokens, the time here and the partner's.
pub fn over_tokens() -> String {
    let counts = (0..=12).map(|step| 8 + 158 * step / 12);
    listed(counts.map(|count| {
        let draft = statements(count);
        (tokens(&draft).to_string(), vec![draft])
    }))
}

/// Pairs nested until 1 to 48 brackets are open, and flat text with as many tokens. A line for each depth: the brackets,
/// the time here and the partner's for the pairs, and the same for the flat text.
pub fn over_depth() -> String {
    let depths = (0..=24).map(|step| (2 * step).max(1));
    listed(depths.map(|open| (open.to_string(), vec![pairs(open), flat(open)])))
}

fn listed(rows: impl Iterator<Item = (String, Vec<Vec<u8>>)>) -> String {
    let rows: Vec<_> = rows.collect();
    table(&rows, LIST, &mut vec![0; LIST_ROOM][..])
}
