//! One run of comparisons: how many drafts, and the smallest that differs.

use crate::answers::{Answer, Lengths, Lent};
use crate::random::Random;
use partner::{Form, Limits, RECORD_WORDS, START_WORDS, TOKEN_WORDS};
use togmelic::{LINE, MOST_BYTES};

/// Of the drafts of a few bytes or lexemes, of which there are millions, one in so many is also given to the two entries with
/// the large limits with buffers of other lengths than are enough.
const FEW: usize = 8;

pub struct Comparison {
    pub drafts: u64,
    pub accepted: u64,
    /// How many drafts were given to the two entries with the large limits, and how many those took.
    pub large: u64,
    pub large_accepted: u64,
    /// How many answers with starts alone were compared with one with whole tokens, each where both had room for the tokens.
    pub starts: u64,
    small_answers: Pair,
    large_answers: Pair,
    lean_answers: Pair,
    random: Random,
    smallest: Option<Difference>,
}

/// The library's answer and the partner's.
#[derive(Clone, Default)]
struct Pair {
    here: Answer,
    partner: Answer,
}

/// Two answers that should be one, each with whose it is and what was lent.
struct Difference {
    draft: Vec<u8>,
    answers: [(&'static str, Lent, Answer); 2],
}

impl Pair {
    /// Has both answer; whether they agree.
    fn ask(&mut self, draft: &[u8], lent: Lent) -> bool {
        self.here.here(draft, lent);
        self.partner.by_partner(draft, lent);
        self.here == self.partner
    }

    fn answers(&self, lent: Lent) -> [(&'static str, Lent, Answer); 2] {
        [
            ("here", lent, self.here.clone()),
            ("partner", lent, self.partner.clone()),
        ]
    }
}

impl Comparison {
    pub fn new() -> Self {
        Comparison {
            drafts: 0,
            accepted: 0,
            large: 0,
            large_accepted: 0,
            starts: 0,
            small_answers: Pair::default(),
            large_answers: Pair::default(),
            lean_answers: Pair::default(),
            random: Random::from_bytes(b"lengths"),
            smallest: None,
        }
    }

    pub fn agrees(&self) -> bool {
        self.smallest.is_none()
    }

    /// Compares with a byte buffer in which the lines of a draft of that many bytes fit, and some bytes more.
    pub fn check_short(&mut self, draft: &[u8]) {
        // The first line is the program's or a refusal's, and each other needs a token.
        self.check_small(draft, (LINE * (draft.len() + 1) + 40).min(MOST_BYTES));
        self.check_enough(draft, self.small_answers.partner.used + LINE);
        if self.random.one_in(FEW) {
            self.check_near(draft);
        }
    }

    /// Compares the answers of the small entry for a byte buffer of `room` bytes, and those of the two with the large limits.
    pub fn check(&mut self, draft: &[u8], room: usize) {
        self.check_small(draft, room);
        self.check_enough(draft, Lengths::enough(draft.len()).room);
        self.check_near(draft);
    }

    fn check_small(&mut self, draft: &[u8], room: usize) {
        let lent = Lent::Small(room);
        let agrees = self.small_answers.ask(draft, lent);
        self.drafts += 1;
        self.accepted += u64::from(is_accepted(&self.small_answers.partner));
        if !agrees {
            self.note(draft, self.small_answers.answers(lent));
        }
    }

    /// Compares the answers with the large limits, for a byte buffer of `room` bytes and words that are enough for every draft as
    /// long.
    fn check_enough(&mut self, draft: &[u8], room: usize) {
        let enough = Lengths::enough(draft.len());
        self.check_both(draft, Lengths { room, ..enough }, true);
        self.large += 1;
        self.large_accepted += u64::from(is_accepted(&self.large_answers.partner));
    }

    /// Compares them with buffers around what the draft needs; its answer with enough was the last.
    fn check_near(&mut self, draft: &[u8]) {
        let tokens = tokens(draft);
        let lengths = self.near(tokens);
        self.check_both(draft, lengths, lengths.suffice(tokens));
    }

    /// Compares the answers for these buffers.
    pub fn check_lent(&mut self, draft: &[u8], lengths: Lengths) {
        self.check_both(draft, lengths, lengths.suffice(tokens(draft)));
    }

    /// Compares the answers of each of the two entries, and those of the library with each other where both have room for the
    /// tokens.
    fn check_both(&mut self, draft: &[u8], lengths: Lengths, suffice: bool) {
        let (large, lean) = (lengths.large(), lengths.lean());
        if !self.large_answers.ask(draft, large) {
            self.note(draft, self.large_answers.answers(large));
        }
        if !self.lean_answers.ask(draft, lean) {
            self.note(draft, self.lean_answers.answers(lean));
        }
        if suffice {
            self.starts += 1;
            let [whole, starts] = [&self.large_answers.here, &self.lean_answers.here];
            if !starts.has_starts_of(whole) {
                let whole = whole.with_starts(lengths.starts);
                let answers = [
                    ("with starts alone", lean, starts.clone()),
                    ("starts of whole tokens", large, whole),
                ];
                self.note(draft, answers);
            }
        }
    }

    /// Lengths near those that the last answer of the large entry took.
    fn near(&mut self, tokens: usize) -> Lengths {
        let answer = &self.large_answers.partner;
        let (records, used) = (answer.records().max(1), answer.used);
        Lengths {
            tokens: self.near_length(TOKEN_WORDS * tokens, TOKEN_WORDS),
            starts: self.near_length(START_WORDS * tokens, START_WORDS),
            tree: self.near_length(RECORD_WORDS * records, RECORD_WORDS),
            room: self.near_length(used, Form::Longer.line()),
        }
    }

    /// Mostly enough, so that one length that is not hides no other; else too little by a bit, by one element or by more.
    fn near_length(&mut self, needed: usize, width: usize) -> usize {
        match self.random.below(12) {
            0 => needed.saturating_sub(1),
            1 => needed.saturating_sub(width),
            2 => self.random.below(needed + 1),
            3 => 0,
            4 => needed + 1,
            5 => needed + width,
            6 => needed + self.random.below(100),
            _ => needed,
        }
    }

    /// Where the partner says that the last draft cannot go on to a well-shaped one, if it does.
    pub fn cut(&self) -> Option<usize> {
        let line = self.small_answers.partner.listing().get(..LINE)?;
        if !line.starts_with(b"00 ") || &line[13..21] != b"00000008" {
            return None;
        }
        let place = std::str::from_utf8(&line[3..7]).ok()?;
        usize::from_str_radix(place, 16).ok()
    }

    /// Keeps a difference if its draft is the smallest so far.
    fn note(&mut self, draft: &[u8], answers: [(&'static str, Lent, Answer); 2]) {
        let smallest = self.smallest.as_ref();
        if smallest.is_none_or(|found| draft.len() < found.draft.len()) {
            self.smallest = Some(Difference {
                draft: draft.to_vec(),
                answers,
            });
        }
    }

    /// Writes the smallest difference, if there is one, to standard error.
    pub fn show_difference(&self) {
        let Some(Difference { draft, answers }) = &self.smallest else {
            return;
        };
        eprintln!("compare: {} bytes of draft:", draft.len());
        eprintln!("{}", draft.escape_ascii());
        for (whose, lent, answer) in answers {
            eprintln!("compare: {whose}: {lent:?}");
            answer.show(whose, *lent);
        }
        let [(_, _, one), (_, _, other)] = answers;
        one.show_first_differences(other);
    }
}

/// Whether there are lines that are not a refusal's.
fn is_accepted(answer: &Answer) -> bool {
    answer.used > 0 && !answer.listing().starts_with(b"00")
}

/// How many tokens a draft has that count against room for them: none where its bytes refuse it, so that there is no such thing as too
/// little room.
fn tokens(draft: &[u8]) -> usize {
    match draft.len() > Limits::LARGE.bytes {
        true => 0,
        false => partner::lex(draft).map_or(0, |tokens| tokens.len()),
    }
}
