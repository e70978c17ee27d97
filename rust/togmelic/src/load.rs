//! Listings come back: the records of a listing that is kept without its draft.

use crate::{LoadRefusal, Record, SHORT_LINE};

/// Words of a record: kind, start, end, low, high, size, and the way up.
pub const RECORD_WORDS: usize = 7;

extern "C" {
    fn togmelic_load(
        listing: *const u8,
        listing_length: usize,
        words: *mut u32,
        words_length: usize,
        refusal: *mut LoadRefusal,
    ) -> usize;
}

/// Loads a listing into `words`, seven a record, and answers the number of records, never 0, with zeros in the rest of
/// `words`. Where it is refused, every word is zero. The first word is the number of [`Kind::Program`](crate::Kind), or of
/// `Kind::Function` in a listing of one function alone. No draft is at hand, so a listing may be taken that is not your
/// draft's, or no draft's at all: see [`Record::place`].
///
/// All lines are of one form: of [`LINE`](crate::LINE) bytes, as [`list`](crate::list) writes them; of
/// [`LONG_LINE`](crate::LONG_LINE), as [`list_large`](crate::list_large) and [`list_lean`](crate::list_lean) write those that need it,
/// and no others are taken; or of [`SHORT_LINE`], as they were kept before records had the way up, which is worked out then.
pub fn load_into(listing: &[u8], words: &mut [u32]) -> Result<usize, LoadRefusal> {
    let mut refusal = LoadRefusal { number: 0, line: 0 };
    // SAFETY: the pointers of the slices are never null and good for the length beside them, in bytes and in words;
    // `words` and `refusal` are borrowed alone, so the three do not overlap. `LoadRefusal` is laid out as in C.
    // The entry reads and writes nothing else and keeps no pointer.
    let count = unsafe {
        togmelic_load(
            listing.as_ptr(),
            listing.len(),
            words.as_mut_ptr(),
            words.len(),
            &mut refusal,
        )
    };
    // Every file and every function has a record, so no record means that the listing is refused.
    if count > 0 {
        Ok(count)
    } else {
        Err(refusal)
    }
}

/// The records of a listing, a parent before its children, or the refusal, which is never 18. As with [`load_into`],
/// they may be those of another draft.
pub fn load(listing: &[u8]) -> Result<Vec<Record>, LoadRefusal> {
    // Enough in every form: of the shortest there are most lines.
    let mut words = vec![0; listing.len() / SHORT_LINE * RECORD_WORDS];
    let count = load_into(listing, &mut words)?;
    let (records, _) = words.as_chunks();
    let loaded = records.iter().take(count).copied();
    // The library is proved to take no kind but 1 to 42. Lines with another would form no file.
    let no_file = LoadRefusal {
        number: 17,
        line: 0,
    };
    loaded
        .map(Record::from_words)
        .collect::<Option<_>>()
        .ok_or(no_file)
}
