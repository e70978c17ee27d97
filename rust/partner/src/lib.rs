//! A reader of escrow drafts, one function or a whole file: from the bytes of a draft to its tokens
//! and its tree of records, or to one of the refusals 1 to 15, 19 and 21. It looks ahead at the next
//! tokens and never reads twice. Of the tokens all may be kept, or the starts alone.
//! There are two sets of limits, [`Limits::SMALL`] and [`Limits::LARGE`].
//! Its listings come back, those without the way up too: from the lines to the records, or to one of the refusals 16 to 18.

pub mod kinds;
pub mod known_listings;
pub mod known_results;
mod lexer;
mod limits;
mod listing;
mod load;
mod names;
mod parser;
pub mod streams;

pub use lexer::lex;
pub use limits::Limits;
pub use listing::{
    list_into, list_large_into, list_lean_into, listing, write_in, write_lines, Form,
};
pub use load::load;

/// Kind, start, end.
pub type Token = [u32; 3];
/// Kind, start, end, low, high, size, and the way up: how many records back the parent begins, 0 for the first.
pub type Record = [u32; RECORD_WORDS];
/// Number and place; for a listing, number and line.
pub type Refusal = (u32, usize);
/// What a draft is read to.
pub type Reading = Result<(Vec<Token>, Vec<Record>), Refusal>;
/// A step goes on or refuses the draft.
type Step<T = ()> = Result<T, Refusal>;

/// Words of a record.
pub const RECORD_WORDS: usize = 7;
/// Words of a token.
pub const TOKEN_WORDS: usize = 3;
/// Words of a token of which only the start is kept.
pub const START_WORDS: usize = 1;

/// What a draft is read as.
#[derive(Clone, Copy, Debug, PartialEq, Eq)]
pub enum Entry {
    /// One function.
    Function,
    /// Any number of functions and type items, with a record above them.
    File,
}

/// Words of a token buffer and of a tree buffer.
pub type Words = (usize, usize);

/// Reads a draft with buffers that are enough for every one within the limits.
pub fn read_with_room(draft: &[u8], entry: Entry, limits: Limits) -> Reading {
    let words = (TOKEN_WORDS * limits.tokens, RECORD_WORDS * limits.records());
    read(draft, entry, limits, words)
}

/// Reads a draft into tokens and records for buffers of the given numbers of words.
pub fn read(
    draft: &[u8],
    entry: Entry,
    limits: Limits,
    (token_words, tree_words): Words,
) -> Reading {
    read_in(
        draft,
        entry,
        limits,
        (token_words / TOKEN_WORDS, tree_words),
    )
}

/// The same for a token buffer that keeps each token's start alone.
pub fn read_lean(
    draft: &[u8],
    entry: Entry,
    limits: Limits,
    (start_words, tree_words): Words,
) -> Reading {
    read_in(
        draft,
        entry,
        limits,
        (start_words / START_WORDS, tree_words),
    )
}

/// Reads a draft where there is room for so many tokens, and for records in so many words.
fn read_in(
    draft: &[u8],
    entry: Entry,
    limits: Limits,
    (room, tree_words): (usize, usize),
) -> Reading {
    if draft.len() > limits.bytes {
        return Err((kinds::refusal::DRAFT_TOO_LONG, limits.bytes));
    }
    let tokens = lexer::lex(draft)?;
    limits::check_number(&tokens, limits.tokens.min(room))?;
    limits::check_depth(&tokens)?;
    let records = parser::parse(draft, &tokens, entry)?;
    if tree_words < RECORD_WORDS * records.len() {
        return Err((kinds::refusal::TREE_TOO_SMALL, 0));
    }
    Ok((tokens, records))
}
