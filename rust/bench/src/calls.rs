//! What is measured: a draft is listed and a listing is loaded, by the proved reader through its entries for C and by
//! the partner.

use crate::times::Call;

/// Bytes of the buffer that is lent for a listing, and words of the one for records.
pub const LIST_ROOM: usize = togmelic::MOST_BYTES;
pub const LOAD_ROOM: usize = togmelic::RECORD_WORDS * togmelic::MOST_LINES;

/// The proved reader's call and the partner's.
pub const LIST: [Call<[u8]>; 2] = [list_here, partner::list_into];
pub const LOAD: [Call<[u32]>; 2] = [load_here, load_partner];

fn list_here(draft: &[u8], out: &mut [u8]) -> usize {
    togmelic::list(draft, out).map_or(0, <[u8]>::len)
}

fn load_here(listing: &[u8], words: &mut [u32]) -> usize {
    togmelic::load_into(listing, words).unwrap_or(0)
}

fn load_partner(listing: &[u8], words: &mut [u32]) -> usize {
    let Ok(records) = partner::load(listing, words.len()) else {
        return 0;
    };
    let (loaded, rest) = words.split_at_mut(togmelic::RECORD_WORDS * records.len());
    for (words, record) in loaded
        .chunks_exact_mut(togmelic::RECORD_WORDS)
        .zip(&records)
    {
        words.copy_from_slice(record);
    }
    rest.fill(0);
    records.len()
}

/// The lines of a draft as they were written before the way up.
pub fn short_lines(draft: &[u8]) -> Vec<u8> {
    let short = |line: &[u8]| [&line[..togmelic::SHORT_LINE - 1], b"\n"].concat();
    togmelic::listing(draft)
        .chunks(togmelic::LINE)
        .flat_map(short)
        .collect()
}

/// How many tokens the partner's lexer gives, none where it refuses the draft.
pub fn tokens(draft: &[u8]) -> usize {
    partner::lex(draft).map_or(0, |tokens| tokens.len())
}
