//! What a call leaves: the bytes used, all of the buffers that it is lent, and what is behind them.

use partner::{Form, Limits, RECORD_WORDS, START_WORDS, TOKEN_WORDS};
use std::iter::repeat;

/// What stands in a buffer before each call, so that what is not written shows.
const UNWRITTEN: u8 = 0xAA;
const UNWRITTEN_WORD: u32 = u32::from_ne_bytes([UNWRITTEN; 4]);
/// Bytes or words behind a lent buffer, which must stay as they are.
const GUARD: usize = 64;
/// Lines that are shown of a listing, at most.
const SHOWN: usize = 100;
/// From so many bytes on a draft's numbers may need six digits.
const LONG: usize = 0x1_0000;

/// An entry that is lent words for tokens, words for the tree and bytes: the library's, and the partner's.
type Here = unsafe extern "C" fn(
    *const u8,
    usize,
    *mut u32,
    usize,
    *mut u32,
    usize,
    *mut u8,
    usize,
) -> usize;
type Partner = fn(&[u8], &mut [u32], &mut [u32], &mut [u8]) -> usize;

extern "C" {
    fn togmelic_list_large(
        draft: *const u8,
        draft_length: usize,
        tokens: *mut u32,
        tokens_length: usize,
        tree: *mut u32,
        tree_length: usize,
        out: *mut u8,
        out_length: usize,
    ) -> usize;

    fn togmelic_list_lean(
        draft: *const u8,
        draft_length: usize,
        starts: *mut u32,
        starts_length: usize,
        tree: *mut u32,
        tree_length: usize,
        out: *mut u8,
        out_length: usize,
    ) -> usize;
}

/// The lengths of what the two entries with the large limits are lent: of the large one words for tokens, of the lean one
/// words for their starts, of both words of the tree and bytes.
#[derive(Clone, Copy, Debug)]
pub struct Lengths {
    pub tokens: usize,
    pub starts: usize,
    pub tree: usize,
    pub room: usize,
}

impl Lengths {
    /// What is enough for every draft of so many bytes.
    pub fn enough(bytes: usize) -> Lengths {
        let most = bytes.min(Limits::LARGE.tokens);
        let form = if bytes < LONG {
            Form::Newer
        } else {
            Form::Longer
        };
        let lines = most + 1;
        Lengths {
            tokens: TOKEN_WORDS * most,
            starts: START_WORDS * most,
            tree: RECORD_WORDS * lines,
            room: form.line() * lines,
        }
    }

    /// Whether both entries have room for so many tokens, or for all that there may be.
    pub fn suffice(self, tokens: usize) -> bool {
        let room = (self.tokens / TOKEN_WORDS).min(self.starts / START_WORDS);
        tokens.min(Limits::LARGE.tokens) <= room
    }

    pub fn large(self) -> Lent {
        Lent::Large([self.tokens, self.tree, self.room])
    }

    pub fn lean(self) -> Lent {
        Lent::Lean([self.starts, self.tree, self.room])
    }
}

/// The entry that is called, and the lengths of the buffers that it is lent.
#[derive(Clone, Copy, Debug)]
pub enum Lent {
    /// Bytes of the byte buffer.
    Small(usize),
    /// Words of the token buffer and of the tree buffer, and bytes of the byte buffer.
    Large([usize; 3]),
    /// The same, where the token buffer keeps starts alone.
    Lean([usize; 3]),
}

impl Lent {
    /// Words of tokens and of the tree, and bytes. The small entry has buffers of its own for words.
    fn lengths(self) -> [usize; 3] {
        match self {
            Lent::Small(room) => [0, 0, room],
            Lent::Large(lengths) | Lent::Lean(lengths) => lengths,
        }
    }
}

#[derive(Clone, Default, PartialEq)]
pub struct Answer {
    pub used: usize,
    tokens: Vec<u32>,
    tree: Vec<u32>,
    out: Vec<u8>,
}

impl Answer {
    /// The library's answer.
    pub fn here(&mut self, draft: &[u8], lent: Lent) {
        self.lend(lent);
        self.used = match lent {
            Lent::Small(room) => {
                togmelic::list(draft, &mut self.out[..room]).map_or(0, <[u8]>::len)
            }
            Lent::Large(lengths) => self.list_here(togmelic_list_large, draft, lengths),
            Lent::Lean(lengths) => self.list_here(togmelic_list_lean, draft, lengths),
        };
    }

    pub fn by_partner(&mut self, draft: &[u8], lent: Lent) {
        self.lend(lent);
        self.used = match lent {
            Lent::Small(room) => partner::list_into(draft, &mut self.out[..room]),
            Lent::Large(lengths) => self.list_by(partner::list_large_into, draft, lengths),
            Lent::Lean(lengths) => self.list_by(partner::list_lean_into, draft, lengths),
        };
    }

    fn lend(&mut self, lent: Lent) {
        let [tokens, tree, room] = lent.lengths();
        refill(&mut self.out, room, UNWRITTEN);
        // Of the small entry these stay as they are, without words.
        if !matches!(lent, Lent::Small(_)) {
            refill(&mut self.tokens, tokens, UNWRITTEN_WORD);
            refill(&mut self.tree, tree, UNWRITTEN_WORD);
        }
    }

    /// The entry is called here itself, so that every word which it leaves shows.
    fn list_here(&mut self, entry: Here, draft: &[u8], [tokens, tree, room]: [usize; 3]) -> usize {
        // SAFETY: the draft's pointer is good for its length, and each of the others for its length and the guard behind
        // it; the three buffers are borrowed alone, so no two of the four overlap.
        unsafe {
            entry(
                draft.as_ptr(),
                draft.len(),
                self.tokens.as_mut_ptr(),
                tokens,
                self.tree.as_mut_ptr(),
                tree,
                self.out.as_mut_ptr(),
                room,
            )
        }
    }

    fn list_by(&mut self, entry: Partner, draft: &[u8], [tokens, tree, room]: [usize; 3]) -> usize {
        let (tokens, tree) = (&mut self.tokens[..tokens], &mut self.tree[..tree]);
        entry(draft, tokens, tree, &mut self.out[..room])
    }

    /// Whether this is that answer of the large entry with the starts of its tokens alone, and nothing is written behind them.
    pub fn has_starts_of(&self, large: &Answer) -> bool {
        let words = self.tokens.len() - GUARD;
        (self.used, &self.tree, &self.out) == (large.used, &large.tree, &large.out)
            && self.tokens.iter().copied().eq(large.starts(words))
    }

    /// This answer of the large entry with the starts of its tokens alone, in a buffer of so many words that has room for them.
    pub fn with_starts(&self, words: usize) -> Answer {
        Answer {
            tokens: self.starts(words).collect(),
            ..self.clone()
        }
    }

    /// The second word of each token, with zeros behind, and the guard.
    fn starts(&self, words: usize) -> impl Iterator<Item = u32> + '_ {
        let (tokens, _) = lent(&self.tokens).as_chunks::<TOKEN_WORDS>();
        let starts = tokens.iter().map(|token| token[1]);
        let starts = starts.chain(repeat(0)).take(words);
        starts.chain([UNWRITTEN_WORD; GUARD])
    }

    /// The listing or a refusal's line; nothing where it did not fit.
    pub fn listing(&self) -> &[u8] {
        &self.out[..self.used]
    }

    /// How many records the tree buffer holds; none where the draft is refused.
    pub fn records(&self) -> usize {
        let (records, _) = lent(&self.tree).as_chunks::<RECORD_WORDS>();
        records.iter().take_while(|record| record[0] != 0).count()
    }

    pub fn show(&self, whose: &str, lent: Lent) {
        let room = lent.lengths()[2];
        eprintln!("compare: {whose}: {} bytes used", self.used);
        for line in self
            .listing()
            .split_inclusive(|byte| *byte == b'\n')
            .take(SHOWN)
        {
            eprint!("{}", String::from_utf8_lossy(line));
        }
        let zeros = self.out[self.used..room].iter().all(|byte| *byte == 0);
        eprintln!("compare: {whose}: zeros behind: {zeros}");
    }

    /// Where each buffer, or what is behind it, differs first from another's.
    pub fn show_first_differences(&self, other: &Answer) {
        let first = [
            first_difference(&self.tokens, &other.tokens),
            first_difference(&self.tree, &other.tree),
            first_difference(&self.out, &other.out),
        ];
        for (name, at) in ["word of the tokens", "word of the tree", "byte"]
            .iter()
            .zip(first)
        {
            if let Some(at) = at {
                eprintln!("compare: the buffers differ first in {name} {at}");
            }
        }
    }
}

/// A buffer of that length that nothing has been written to, and the guard behind it.
fn refill<Word: Copy>(buffer: &mut Vec<Word>, length: usize, unwritten: Word) {
    buffer.clear();
    buffer.resize(length + GUARD, unwritten);
}

/// A buffer without the guard.
fn lent(buffer: &[u32]) -> &[u32] {
    &buffer[..buffer.len() - GUARD]
}

fn first_difference<Word: PartialEq>(here: &[Word], partner: &[Word]) -> Option<usize> {
    here.iter()
        .zip(partner)
        .position(|(one, other)| one != other)
}
