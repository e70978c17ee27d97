//! Drafts within the limits that are named.

use crate::{
    list_large, listing, read, records, records_in, Limits, NoRecord, Record, Refusal, LONG_LINE,
};

/// The whole listing of a draft within these limits: one line a record, or one line for a refusal. Within [`Limits::Small`]
/// it is that of [`listing`](crate::listing). The buffers are as long as the draft asks for, so a short draft costs what it costs there.
///
/// ```
/// use togmelic::{listing, listing_within, Limits, LONG_LINE};
///
/// let short = b"fn f(){}";
/// assert_eq!(listing_within(short, Limits::Large), listing(short));
/// // Where a place needs five digits or six, every line has six.
/// let long = listing_within(&[b' '; 70_000], Limits::Large);
/// assert_eq!(long, b"29 000000 011170 00000000 00000000 000001 000000\n");
/// assert_eq!(long.len(), LONG_LINE);
/// ```
pub fn listing_within(draft: &[u8], limits: Limits) -> Vec<u8> {
    match limits {
        Limits::Small => listing(draft),
        Limits::Large => {
            let (mut tokens, mut tree) = scratch(draft);
            let mut out = vec![0; Limits::Large.listing_bytes(draft.len())];
            let used = list_large(draft, &mut tokens, &mut tree, &mut out).map_or(0, <[u8]>::len);
            out.truncate(used);
            // The listing may be kept for long, and most drafts have far fewer records than bytes.
            out.shrink_to_fit();
            out
        }
    }
}

/// The records of a draft within these limits, a parent before its children, or the refusal. Within [`Limits::Small`] they
/// are those of [`read`](crate::read).
///
/// ```
/// use togmelic::{read_within, Limits};
///
/// // 3,000 statements of two tokens.
/// let draft = format!("fn f(){{{}}}", "a;".repeat(3_000));
/// let refusal = read_within(draft.as_bytes(), Limits::Small).unwrap_err();
/// assert_eq!(refusal.to_string(), "refusal 6 at byte 2050: there are over 2,048 tokens");
/// let tree = read_within(draft.as_bytes(), Limits::Large).expect("an accepted draft");
/// assert_eq!(tree.len(), 3_004);
/// ```
pub fn read_within(draft: &[u8], limits: Limits) -> Result<Vec<Record>, Refusal> {
    match limits {
        Limits::Small => read(draft),
        Limits::Large => read_large(draft),
    }
}

/// The records are taken from the words, so that there must be room for no more than the line of a refusal.
fn read_large(draft: &[u8]) -> Result<Vec<Record>, Refusal> {
    let (mut tokens, mut tree) = scratch(draft);
    let mut line = [0; LONG_LINE];
    let lines = list_large(draft, &mut tokens, &mut tree, &mut line);
    match lines.and_then(|lines| records(lines).next()) {
        Some(Err(NoRecord::Refused(refusal))) => Err(refusal),
        _ => Ok(records_in(&tree).collect()),
    }
}

/// Words for the tokens and for the tree of a draft.
fn scratch(draft: &[u8]) -> (Vec<u32>, Vec<u32>) {
    let tokens = Limits::Large.token_words(draft.len());
    let tree = Limits::Large.tree_words(draft.len());
    (vec![0; tokens], vec![0; tree])
}
