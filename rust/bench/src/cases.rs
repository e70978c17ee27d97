//! The drafts that are measured. Most are a text in the body of `fn f(){..}`: six tokens, and the first open bracket.

use crate::turned::{turned, TOKENS};

/// A name and what makes the draft of that name.
type Case = (&'static str, fn() -> Vec<u8>);

pub const CASES: [Case; 12] = [
    ("least", least),
    ("short", short),
    ("pairs", || pairs(48)),
    ("flat", || flat(48)),
    ("statements", || statements(166)),
    ("names", names),
    ("comments", comments),
    ("matches", matches),
    ("rotation", rotation),
    ("escrow", escrow),
    ("refused", refused),
    ("refusedfirst", refused_first),
];

/// Bytes of the longest drafts.
const MOST_BYTES: usize = 16_384;

/// The draft of a case, or of another name that the search for `rotation` has.
pub fn draft(name: &str) -> Option<Vec<u8>> {
    match CASES.iter().find(|(case, _)| *case == name) {
        Some((_, draft)) => Some(draft()),
        None => crate::turned::named(name),
    }
}

/// A text in the body of a function.
pub fn body(text: &str) -> Vec<u8> {
    format!("fn f(){{{text}}}").into_bytes()
}

/// The least function: what a reading costs besides its tokens.
fn least() -> Vec<u8> {
    body("")
}

/// The same tokens in 520 bytes, the others spaces.
fn short() -> Vec<u8> {
    let mut draft = least();
    draft.resize(520, b' ');
    draft
}

/// Pairs nested in first place until so many brackets are open: three tokens, and four for each bracket.
pub fn pairs(open: usize) -> Vec<u8> {
    let nested = open - 1;
    body(&format!("{}1{}", "(".repeat(nested), ",1)".repeat(nested)))
}

/// As many tokens as `pairs` has, with nothing nested.
pub fn flat(open: usize) -> Vec<u8> {
    match open {
        1 => pairs(1),
        _ => body(&format!("[{}1]", "1,".repeat(2 * open - 3))),
    }
}

/// So many statements of twelve tokens, and a last one of two: with 166 these are 2,000 tokens.
pub fn statements(count: usize) -> Vec<u8> {
    body(&("let x:u8=f(x,1);".repeat(count) + "x;"))
}

/// The same 2,000 tokens with names of 14 letters, as many as the longest word of the tables has. None is a word.
fn names() -> Vec<u8> {
    let statement =
        "let ExplicitNonces:Confidentially=ExplicitAssets(ExplicitAmound,TokenAmounting);";
    body(&(statement.repeat(166) + "ExplicitAmound;"))
}

/// Comments of both forms in 16,310 bytes, some of them in Polish and in Greek, and a statement behind every four: 474
/// tokens.
fn comments() -> Vec<u8> {
    let part = "
        // The payment waits until the buyer releases it or the deadline has passed.
        /* Every signature covers the whole transaction, /* its outputs too, */ and so who gets the payment. */
        /* Zwrot pieniędzy kupującemu dopiero po upływie terminu. */
        // Μεσεγγύηση: αν περάσει η προθεσμία, τα χρήματα επιστρέφονται.
        let x:u8=f(x,1);";
    body(&part.repeat((MOST_BYTES - least().len()) / part.len()))
}

/// Matches in the arms of matches, until 48 brackets are open, and many in the innermost block: 160 matches in 1,998
/// tokens. All arms are written the other way round, so every match moves all records beneath it.
fn matches() -> Vec<u8> {
    let inner = "match x{true=>1,false=>1,};".repeat(115);
    let (before, behind) = ("match x{true=>".repeat(45), ",false=>1,}".repeat(45));
    body(&format!("{before}{{{inner}}}{behind}"))
}

/// Where exchanging arms cost the proved reader most for each token before order 11, of all that bench/reader/rotation.sh tries; within three percent of
/// the most now.
fn rotation() -> Vec<u8> {
    turned(TOKENS, 35, 4, false)
}

/// A draft of 45 lines, as one would be written.
fn escrow() -> Vec<u8> {
    include_bytes!("../../../bench/reader/escrow.simf").to_vec()
}

/// `statements` with another bracket as its last token: refused with 8 there.
fn refused() -> Vec<u8> {
    let mut draft = statements(166);
    *draft.last_mut().expect("a bracket") = b')';
    draft
}

/// As many bytes as a draft may have, refused with 3 at the first: what a long draft costs before it is read.
fn refused_first() -> Vec<u8> {
    let mut draft = vec![b' '; MOST_BYTES];
    draft[0] = b'#';
    draft
}
