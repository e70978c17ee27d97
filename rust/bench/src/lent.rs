//! Drafts in, by the two entries that are lent buffers for the tokens: that which keeps tokens and that which keeps their starts
//! alone. They are read with their listing out, and alone, where no byte is lent for lines.

use crate::calls::tokens;
use crate::times::{self, Call};
use crate::{cases, large};

/// The buffers that are lent: for tokens and for their starts, of which an entry takes one, for the tree and for the lines.
pub struct Lent {
    tokens: Vec<u32>,
    starts: Vec<u32>,
    tree: Vec<u32>,
    out: Vec<u8>,
}

impl Lent {
    /// Those of a case.
    fn of(case: &str, draft: &[u8], has_lines: bool) -> Lent {
        let limits = partner::Limits::LARGE;
        let [tokens, records, bytes] = if case == large::FULL {
            let line = partner::Form::Longer.line();
            [limits.tokens, limits.records(), line * limits.records()]
        } else {
            needed(draft)
        };
        Lent {
            tokens: vec![0; partner::TOKEN_WORDS * tokens],
            starts: vec![0; partner::START_WORDS * tokens],
            tree: vec![0; partner::RECORD_WORDS * records],
            out: vec![0; if has_lines { bytes } else { 0 }],
        }
    }

    /// A checksum of each buffer.
    fn checksums(&self) -> [u64; 4] {
        [
            times::checksum(&self.tokens),
            times::checksum(&self.starts),
            times::checksum(&self.tree),
            times::checksum(&self.out),
        ]
    }
}

/// Tokens and records of a draft, and the bytes of its listing. A refused draft has a line, and may have as many records as any with its
/// tokens.
fn needed(draft: &[u8]) -> [usize; 3] {
    let tokens = tokens(draft);
    match partner::read_with_room(draft, partner::Entry::File, partner::Limits::LARGE) {
        Ok((_, records)) => {
            let line = partner::Form::of(&records).line();
            [tokens, records.len(), line * records.len()]
        }
        Err(_) => [tokens, tokens + 1, partner::Form::Newer.line()],
    }
}

/// The proved reader's call and the partner's, of each of the entries.
const LARGE: [Call<Lent>; 2] = [large_here, large_partner];
const LEAN: [Call<Lent>; 2] = [lean_here, lean_partner];

fn large_here(draft: &[u8], lent: &mut Lent) -> usize {
    togmelic::list_large(draft, &mut lent.tokens, &mut lent.tree, &mut lent.out)
        .map_or(0, <[u8]>::len)
}

fn large_partner(draft: &[u8], lent: &mut Lent) -> usize {
    partner::list_large_into(draft, &mut lent.tokens, &mut lent.tree, &mut lent.out)
}

fn lean_here(draft: &[u8], lent: &mut Lent) -> usize {
    togmelic::list_lean(draft, &mut lent.starts, &mut lent.tree, &mut lent.out)
        .map_or(0, <[u8]>::len)
}

fn lean_partner(draft: &[u8], lent: &mut Lent) -> usize {
    partner::list_lean_into(draft, &mut lent.starts, &mut lent.tree, &mut lent.out)
}

/// An entry, and whether lines are written.
#[derive(Clone, Copy)]
pub struct Way {
    calls: [Call<Lent>; 2],
    has_lines: bool,
}

impl Way {
    /// That of a kind: `large` or `lean`, with `-read` behind where no lines are written.
    pub fn of(kind: &str) -> Option<Way> {
        let alone = kind.strip_suffix("-read");
        let calls = match alone.unwrap_or(kind) {
            "large" => LARGE,
            "lean" => LEAN,
            _ => return None,
        };
        Some(Way {
            calls,
            has_lines: alone.is_none(),
        })
    }

    /// A line for each case of that name: its name, the time here and the partner's, in microseconds.
    pub fn times(self, names: Vec<String>) -> Option<String> {
        times(names, self.calls, self.has_lines)
    }

    /// What repeated calls used of the buffer for lines, and a checksum of each buffer.
    pub fn repeated(self, case: &str, which: usize, repeats: u32) -> Option<String> {
        let draft = draft(case)?;
        let mut lent = Lent::of(case, &draft, self.has_lines);
        let used = times::repeat((self.calls[which], &draft), &mut lent, repeats);
        let sums = lent.checksums().map(|sum| format!("{sum:016x}"));
        Some(format!("{used} {}", sums.join(" ")))
    }
}

/// The names of the cases that both entries read: all.
pub fn names() -> Vec<String> {
    let small = cases::CASES.iter().map(|(name, _)| name.to_string());
    small.chain(large::names()).collect()
}

/// How many tokens a case has.
pub fn size(case: &str) -> Option<String> {
    Some(tokens(&draft(case)?).to_string())
}

fn draft(case: &str) -> Option<Vec<u8>> {
    large::draft(case).or_else(|| cases::draft(case))
}

fn times(names: Vec<String>, calls: [Call<Lent>; 2], has_lines: bool) -> Option<String> {
    let line = |case: String| {
        let draft = draft(&case)?;
        let mut lent = Lent::of(&case, &draft, has_lines);
        Some(times::table(&[(case, vec![draft])], calls, &mut lent))
    };
    let lines: Option<Vec<_>> = names.into_iter().map(line).collect();
    Some(lines?.join("\n"))
}
