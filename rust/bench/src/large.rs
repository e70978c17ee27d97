//! Drafts up to the large limits. A case is `KIND-TOKENS`, with buffers that are just long enough for the draft, or
//! `KIND-TOKENS-full`, with those that are enough for every draft.

use crate::cases::{body, statements};
use crate::turned::turned;

/// A kind of draft, and what makes one of as many tokens as it can have, but no more than are named.
type Kind = (&'static str, fn(usize) -> Vec<u8>);

const KINDS: [Kind; 4] = [
    ("statements", |tokens| statements((tokens - 8) / 12)),
    ("matches", matches),
    ("moved", |tokens| turned(tokens, MOST_LEVELS, 0, false)),
    ("left", left),
];
const TOKENS: [usize; 3] = [2_000, 20_000, partner::Limits::LARGE.tokens];
/// The one case that is also read with buffers for every draft.
pub const FULL: &str = "statements-2000-full";

/// Tokens of `fn f(){}`; of a match with another in one arm; of one without, and the `;` behind it.
const FUNCTION: usize = 6;
const LEVEL: usize = 11;
const LEAST_MATCH: usize = 13;
/// So many matches, a block and a match in it, and the body are 48 open brackets.
const LEVELS: usize = 45;
/// Tokens of a function with so many matches one in the other, and a block in the innermost.
const LEAST_LEVELS: usize = FUNCTION + 2 + LEVEL * LEVELS;
/// As many matches in the innermost block as the case `matches` has.
const INNER: usize = 115;
/// So many matches, and the array of nested calls that all of them move, are 48 open brackets.
const MOST_LEVELS: usize = 43;

/// The names of all cases.
pub fn names() -> Vec<String> {
    let cases = KINDS
        .iter()
        .flat_map(|(kind, _)| TOKENS.map(|tokens| format!("{kind}-{tokens}")));
    cases.chain([FULL.to_string()]).collect()
}

/// The draft of a case.
pub fn draft(case: &str) -> Option<Vec<u8>> {
    let (kind, tokens) = case.strip_suffix("-full").unwrap_or(case).split_once('-')?;
    let (_, draft) = KINDS.iter().find(|(name, _)| *name == kind)?;
    Some(draft(tokens.parse().ok()?))
}

/// Functions as in the case `matches`, one after the other: matches in the arms of matches until 48 brackets are open, all
/// arms written the other way round. The last function has fewer in its innermost block.
fn matches(tokens: usize) -> Vec<u8> {
    let of = LEAST_LEVELS + LEAST_MATCH * INNER;
    let mut draft = levels(INNER).repeat(tokens / of);
    if let Some(inner) = (tokens % of).checked_sub(LEAST_LEVELS) {
        draft.extend(levels(inner / LEAST_MATCH));
    }
    draft
}

fn levels(inner: usize) -> Vec<u8> {
    let inner = "match x{true=>1,false=>1,};".repeat(inner);
    let (before, behind) = (
        "match x{true=>".repeat(LEVELS),
        ",false=>1,}".repeat(LEVELS),
    );
    body(&format!("{before}{{{inner}}}{behind}"))
}

/// Calls `Left(..,)`, of one argument and a comma, nested until 48 brackets are open, in one statement after the other. The
/// last has fewer.
fn left(tokens: usize) -> Vec<u8> {
    let (calls, call) = (47, 4);
    let (of, rest) = (call * calls + 2, tokens - FUNCTION);
    let nested = |calls| "Left(".repeat(calls) + "1" + &",)".repeat(calls) + ";";
    let last = nested((rest % of).saturating_sub(2) / call);
    body(&(nested(calls).repeat(rest / of) + &last))
}
