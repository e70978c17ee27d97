//! Drafts within the large limits, with buffers that are lent for their tokens, their tree and their lines.

#[cfg(doc)]
use crate::Limits;

/// An entry of the library that is lent three buffers: the draft, words for tokens, words for the tree and bytes for the
/// lines, each with its length behind it.
type Entry = unsafe extern "C" fn(
    *const u8,
    usize,
    *mut u32,
    usize,
    *mut u32,
    usize,
    *mut u8,
    usize,
) -> usize;

extern "C" {
    fn togmelic_list_large(
        draft: *const u8,
        draft_length: usize,
        tokens: *mut u32,
        tokens_length: usize,
        tree: *mut u32,
        tree_length: usize,
        out: *mut u8,
        out_length: usize,
    ) -> usize;

    fn togmelic_list_lean(
        draft: *const u8,
        draft_length: usize,
        starts: *mut u32,
        starts_length: usize,
        tree: *mut u32,
        tree_length: usize,
        out: *mut u8,
        out_length: usize,
    ) -> usize;
}

/// Lists a draft within [`Limits::Large`] into `out` and answers the lines, with zeros in the rest of `out`; they are of
/// [`LINE`](crate::LINE) or of [`LONG_LINE`](crate::LONG_LINE) bytes, all of one length. `None` only where the lines do not fit; then every
/// byte of `out` is zero.
///
/// Of an accepted draft `tokens` holds the tokens afterwards, [`TOKEN_WORDS`](crate::TOKEN_WORDS) words each: kind, start and
/// end (docs/LANGUAGE.md has their kinds). `tree` holds the records, [`RECORD_WORDS`](crate::RECORD_WORDS) words each;
/// [`records_in`](crate::records_in) has them, and nothing needs to be loaded. Zeros stand behind both, also where the lines do not
/// fit. Of a refused draft there is one line, and every word of both is zero.
///
/// Nothing is allocated. Lend [`Limits::token_words`], [`Limits::tree_words`] and [`Limits::listing_bytes`] of the draft's
/// length; of longer buffers the rest is cleared at every call. A shorter buffer for tokens may give refusal 6, and a
/// shorter one for the tree refusal 15, where the draft is fine.
///
/// ```
/// use togmelic::{list_large, records, records_in, Kind, Limits, Record};
///
/// let draft = b"fn f(){Left(1)}";
/// let mut tokens = vec![0; Limits::Large.token_words(draft.len())];
/// let mut tree = vec![0; Limits::Large.tree_words(draft.len())];
/// let mut out = vec![0; Limits::Large.listing_bytes(draft.len())];
/// let lines = list_large(draft, &mut tokens, &mut tree, &mut out).expect("room for every draft of this length");
/// assert_eq!(lines, togmelic::listing(draft));
///
/// // The same records from the words as from the lines.
/// let from_words: Vec<Record> = records_in(&tree).collect();
/// let from_lines: Result<Vec<Record>, _> = records(lines).collect();
/// assert_eq!((from_words.len(), from_words[4].kind), (6, Kind::Left));
/// assert_eq!(from_lines, Ok(from_words));
/// // The first token is `fn`, kind 4.
/// assert_eq!(tokens[..togmelic::TOKEN_WORDS], [4, 0, 2]);
/// ```
///
/// ```compile_fail
/// // No two of the buffers may be the same.
/// let (mut words, mut out) = ([0; 100], [0; 100]);
/// togmelic::list_large(b"fn f(){}", &mut words, &mut words, &mut out);
/// ```
pub fn list_large<'out>(
    draft: &[u8],
    tokens: &mut [u32],
    tree: &mut [u32],
    out: &'out mut [u8],
) -> Option<&'out [u8]> {
    list_with(togmelic_list_large, draft, tokens, tree, out)
}

/// Lists a draft as [`list_large`] does, with a third of the words for its tokens: the lines, the records in `tree` and the
/// refusals are the same wherever both are lent enough for the tokens, with equally long buffers for the rest.
///
/// Of an accepted draft `starts` holds the start of each token afterwards, in the order of the draft and
/// [`START_WORDS`](crate::START_WORDS) each, with zeros behind. Each start is greater than the one before, so behind the first
/// word they end at the first zero. A draft without items, the one record of whose tree is the program's, has none. Of a
/// refused draft every word is zero.
///
/// Lend [`Limits::start_words`] of the draft's length, and [`Limits::tree_words`] and [`Limits::listing_bytes`] as there. A
/// shorter `starts` may give refusal 6 where the draft is fine, at the first token that has no word.
///
/// Nothing is allocated, and nothing of `starts` is used by a later call. A server that holds many drafts lends one scratch
/// again and again, and keeps of each draft the tree alone, or keeps the starts with it. The kind and the end of a token are
/// not kept, and are had again in one of two ways. A record of a name, a number or another single token has its place, and so
/// its end, and its kind says what it is. For all tokens, with their brackets and marks, call [`list_large`] with the same
/// draft when they are wanted: the token with the same number has that start.
///
/// ```
/// use togmelic::{list_large, list_lean, records_in, Kind, Limits, Record};
///
/// // One scratch for the starts of every draft of up to 20 bytes, lent again and again.
/// let mut starts = vec![0; Limits::Large.start_words(20)];
/// let mut out = vec![0; Limits::Large.listing_bytes(20)];
/// let mut held = Vec::new();
/// for draft in ["fn f(){Left(1)}", "type A = u8;", ""] {
///     let mut tree = vec![0; Limits::Large.tree_words(draft.len())];
///     let lines = list_lean(draft.as_bytes(), &mut starts, &mut tree, &mut out).expect("room for every draft of 20 bytes");
///     assert_eq!(lines, togmelic::listing(draft.as_bytes()));
///     held.push(records_in(&tree).collect::<Vec<Record>>());
/// }
/// assert_eq!(held.iter().map(Vec::len).collect::<Vec<_>>(), [6, 4, 1]);
///
/// // The starts of `type`, `A`, `=`, `u8` and `;`. The name and the type are records; `=` is not.
/// let draft = b"type A = u8;";
/// let mut tree = vec![0; Limits::Large.tree_words(draft.len())];
/// list_lean(draft, &mut starts, &mut tree, &mut out);
/// assert_eq!(starts[..6], [0, 5, 7, 9, 11, 0]);
/// let at = |start: u32| records_in(&tree).find(|record| record.start == start as usize && record.size == 1);
/// assert_eq!(at(starts[3]).map(|record| (record.kind, record.end)), Some((Kind::Unsigned, 11)));
/// assert_eq!(at(starts[2]), None);
///
/// // All tokens, read again: `=` is kind 18.
/// let mut tokens = vec![0; Limits::Large.token_words(draft.len())];
/// list_large(draft, &mut tokens, &mut tree, &mut out);
/// assert_eq!(tokens[2 * togmelic::TOKEN_WORDS..3 * togmelic::TOKEN_WORDS], [18, starts[2], 8]);
/// ```
///
/// ```compile_fail
/// // No two of the buffers may be the same.
/// let (mut words, mut out) = ([0; 100], [0; 100]);
/// togmelic::list_lean(b"fn f(){}", &mut words, &mut words, &mut out);
/// ```
pub fn list_lean<'out>(
    draft: &[u8],
    starts: &mut [u32],
    tree: &mut [u32],
    out: &'out mut [u8],
) -> Option<&'out [u8]> {
    list_with(togmelic_list_lean, draft, starts, tree, out)
}

/// What an entry answers: the lines, or `None` where they do not fit.
fn list_with<'out>(
    entry: Entry,
    draft: &[u8],
    tokens: &mut [u32],
    tree: &mut [u32],
    out: &'out mut [u8],
) -> Option<&'out [u8]> {
    // SAFETY: the pointers of the slices are never null and good for the length beside them, in bytes and in words;
    // `tokens`, `tree` and `out` are borrowed alone, so no two of the four overlap. The entry reads and writes nothing else
    // and keeps no pointer.
    let used = unsafe {
        entry(
            draft.as_ptr(),
            draft.len(),
            tokens.as_mut_ptr(),
            tokens.len(),
            tree.as_mut_ptr(),
            tree.len(),
            out.as_mut_ptr(),
            out.len(),
        )
    };
    // Every listing has a line, so no bytes used means that the lines do not fit.
    (used > 0).then(|| &out[..used])
}
