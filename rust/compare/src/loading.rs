//! One run of loading: how many listings got which answer, and the smallest whose answers differ.

use togmelic::{LoadRefusal, RECORD_WORDS};

/// What stands in a word before each call, so that a word that is not written shows.
const UNWRITTEN: u32 = 0xAAAA_AAAA;
/// Words behind the lent buffer, which must stay as they are.
const GUARD: usize = 16;

extern "C" {
    fn togmelic_load(
        listing: *const u8,
        listing_length: usize,
        words: *mut u32,
        words_length: usize,
        refusal: *mut LoadRefusal,
    ) -> usize;
}

pub struct Loading {
    pub accepted: u64,
    /// With 16, 17 and 18.
    pub refused: [u64; 3],
    here: Answer,
    partner: Answer,
    smallest: Option<Difference>,
}

/// All of an answer: the number of records, number and line of the refusal, the whole buffer and the words behind it.
#[derive(Clone, PartialEq)]
struct Answer {
    count: usize,
    refusal: LoadRefusal,
    words: Vec<u32>,
}

struct Difference {
    listing: Vec<u8>,
    room: usize,
    here: Answer,
    partner: Answer,
}

impl Loading {
    pub fn new() -> Self {
        Loading {
            accepted: 0,
            refused: [0; 3],
            here: Answer::new(),
            partner: Answer::new(),
            smallest: None,
        }
    }

    pub fn agrees(&self) -> bool {
        self.smallest.is_none()
    }

    pub fn listings(&self) -> u64 {
        self.accepted + self.refused.iter().sum::<u64>()
    }

    /// Compares the answers for a buffer of `room` words; whether the partner takes the listing.
    pub fn check(&mut self, listing: &[u8], room: usize) -> bool {
        self.here.load_here(listing, room);
        self.partner.load_by_partner(listing, room);
        match self.partner.refusal.number {
            0 => self.accepted += 1,
            number => self.refused[number - 16] += 1,
        }
        if self.here != self.partner {
            self.note(listing, room);
        }
        self.partner.count > 0
    }

    /// Keeps a difference if its listing is the smallest so far.
    fn note(&mut self, listing: &[u8], room: usize) {
        let smallest = self.smallest.as_ref();
        if smallest.is_none_or(|found| listing.len() < found.listing.len()) {
            self.smallest = Some(Difference {
                listing: listing.to_vec(),
                room,
                here: self.here.clone(),
                partner: self.partner.clone(),
            });
        }
    }

    /// Writes the smallest difference, if there is one, to standard error.
    pub fn show_difference(&self) {
        let Some(found) = &self.smallest else {
            return;
        };
        eprintln!(
            "compare: {} bytes of listing, {} words of buffer:",
            found.listing.len(),
            found.room
        );
        for line in found.listing.split_inclusive(|byte| *byte == b'\n') {
            eprintln!("{}", line.escape_ascii());
        }
        found.here.show("here", found.room);
        found.partner.show("partner", found.room);
        let mut words = found.here.words.iter().zip(&found.partner.words);
        if let Some(at) = words.position(|(here, partner)| here != partner) {
            eprintln!("compare: the buffers differ first in word {at}");
        }
    }
}

impl Answer {
    fn new() -> Self {
        Answer {
            count: 0,
            refusal: LoadRefusal { number: 0, line: 0 },
            words: Vec::new(),
        }
    }

    /// The library's answer. The entry is called here itself, so that what it leaves in an accepted refusal shows.
    fn load_here(&mut self, listing: &[u8], room: usize) {
        self.words.clear();
        self.words.resize(room + GUARD, UNWRITTEN);
        self.refusal = LoadRefusal {
            number: UNWRITTEN as usize,
            line: UNWRITTEN as usize,
        };
        // SAFETY: the listing's pointer is good for its length and that of `words` for `room` words and the guard;
        // `words` and `refusal` are borrowed alone, so the three do not overlap.
        self.count = unsafe {
            togmelic_load(
                listing.as_ptr(),
                listing.len(),
                self.words.as_mut_ptr(),
                room,
                &mut self.refusal,
            )
        };
    }

    fn load_by_partner(&mut self, listing: &[u8], room: usize) {
        let (records, (number, line)) = match partner::load(listing, room) {
            Ok(records) => (records, (0, 0)),
            Err(refusal) => (Vec::new(), refusal),
        };
        self.count = records.len();
        self.refusal = LoadRefusal {
            number: number as usize,
            line,
        };
        self.words.clear();
        self.words.extend(records.iter().flatten());
        self.words.resize(room, 0);
        self.words.resize(room + GUARD, UNWRITTEN);
    }

    fn show(&self, whose: &str, room: usize) {
        let LoadRefusal { number, line } = self.refusal;
        let used = (self.count * RECORD_WORDS).min(room);
        let zeros = self.words[used..room].iter().all(|word| *word == 0);
        let guarded = self.words[room..].iter().all(|word| *word == UNWRITTEN);
        eprintln!(
            "compare: {whose}: {} records, number {number}, line {line}",
            self.count
        );
        eprintln!(
            "compare: {whose}: zeros behind: {zeros}; nothing written behind the buffer: {guarded}"
        );
    }
}
