//! The two sets of limits, and what is enough for a draft within one of them.

use crate::{LINE, LONG_LINE, RECORD_WORDS, START_WORDS, TOKEN_WORDS};

/// How large a draft may be. There are these two sets and no others: whoever reads drafts of a server that has the small
/// ones must get its answers, and no number makes them so. The other limits, 48 open brackets and 8 `match` in a row, are
/// the same in both.
///
/// ```
/// use togmelic::Limits;
///
/// // A comment of 20,000 bytes is more than a server with the small limits takes.
/// let draft = format!("//{}\nfn f(){{}}", " ".repeat(20_000));
/// let refusal = togmelic::read_within(draft.as_bytes(), Limits::Small).unwrap_err();
/// assert_eq!((refusal.number, refusal.place), (1, Limits::Small.bytes()));
/// assert_eq!(togmelic::read_within(draft.as_bytes(), Limits::Large).map(|tree| tree.len()), Ok(4));
/// ```
///
/// ```compile_fail
/// // A number is no limits.
/// togmelic::read_within(b"fn f(){}", 20_000);
/// ```
#[derive(Clone, Copy, Debug, PartialEq, Eq, Hash)]
pub enum Limits {
    /// 16,384 bytes and 2,048 tokens: those of [`list`](crate::list), [`listing`](crate::listing) and
    /// [`read`](crate::read), and of each server that calls `togmelic_list`.
    Small,
    /// 1,048,576 bytes and 131,072 tokens, for contracts that a program generates: those of
    /// [`list_large`](crate::list_large) and [`list_lean`](crate::list_lean).
    Large,
}

impl Limits {
    /// Bytes of the longest draft that is read; one with more is refused with 1.
    pub const fn bytes(self) -> usize {
        match self {
            Limits::Small => 16_384,
            Limits::Large => 1_048_576,
        }
    }

    /// A draft with more tokens is refused with 6.
    pub const fn tokens(self) -> usize {
        match self {
            Limits::Small => 2_048,
            Limits::Large => 131_072,
        }
    }

    /// No draft has more lines: one for each token at most, and the program's.
    pub const fn lines(self) -> usize {
        self.tokens() + 1
    }

    /// So many words are enough for the tokens of a draft of so many bytes.
    pub const fn token_words(self, draft_bytes: usize) -> usize {
        TOKEN_WORDS * self.most_tokens(draft_bytes)
    }

    /// So many words are enough for the starts of the tokens of a draft of so many bytes: one for each byte, or for each of
    /// the tokens that there may be.
    ///
    /// ```
    /// use togmelic::Limits;
    ///
    /// assert_eq!(Limits::Large.start_words(1_000), 1_000);
    /// assert_eq!(Limits::Large.start_words(usize::MAX), 131_072);
    /// ```
    pub const fn start_words(self, draft_bytes: usize) -> usize {
        START_WORDS * self.most_tokens(draft_bytes)
    }

    /// So many words are enough for the tree of a draft of so many bytes.
    pub const fn tree_words(self, draft_bytes: usize) -> usize {
        RECORD_WORDS * (self.most_tokens(draft_bytes) + 1)
    }

    /// So many bytes are enough for the listing of a draft of so many bytes.
    ///
    /// ```
    /// use togmelic::Limits;
    ///
    /// assert_eq!(Limits::Small.listing_bytes(usize::MAX), togmelic::MOST_BYTES);
    /// assert_eq!(Limits::Large.listing_bytes(0), togmelic::LINE);
    /// assert_eq!(Limits::Large.listing_bytes(65_536), 65_537 * togmelic::LONG_LINE);
    /// ```
    pub const fn listing_bytes(self, draft_bytes: usize) -> usize {
        self.most_line(draft_bytes) * (self.most_tokens(draft_bytes) + 1)
    }

    /// A token has a byte at least.
    const fn most_tokens(self, draft_bytes: usize) -> usize {
        if draft_bytes < self.tokens() {
            draft_bytes
        } else {
            self.tokens()
        }
    }

    /// No place of a line is behind the draft, nor behind the limit that it passes.
    const fn most_line(self, draft_bytes: usize) -> usize {
        match self {
            Limits::Large if draft_bytes >= FOUR_DIGITS => LONG_LINE,
            _ => LINE,
        }
    }
}

/// The least number for which four hexadecimal digits are too few.
const FOUR_DIGITS: usize = 1 << 16;
