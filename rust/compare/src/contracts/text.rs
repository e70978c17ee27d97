//! Tokens with what stands between them: blanks where they must be, and blanks and comments by chance.

use crate::random::Random;

const WORDS: [&str; 10] = [
    "escrow",
    "refund",
    "until",
    "the",
    "deadline",
    "zwrot",
    "pieniędzy",
    "πληρωμή",
    "/ *",
    "\u{1F4DC}",
];
const NAME_BYTES: &[u8] = b"abcdefghijklmnopqrstuvwxyzABCDEFGHIJKLMNOPQRSTUVWXYZ_0123456789";

/// How a file is written.
#[derive(Clone, Copy)]
pub struct Style {
    /// Bytes of the longest name, and words of the longest comment.
    pub name: usize,
    pub comment: usize,
    /// One gap in so many is a blank, and one in so many a comment.
    pub blanks: usize,
    pub comments: usize,
    /// Of so many expressions and types one is a leaf, where something could be nested.
    pub leaves: usize,
}

impl Style {
    /// Tokens should have about so many bytes, gaps with them.
    pub fn by_chance(random: &mut Random, bytes: usize) -> Style {
        let comment = random.one_of(&[3, 30, 300]);
        Style {
            name: 1 + random.below(bytes.clamp(1, 40)),
            comment,
            blanks: 1 + random.below(20),
            // A word of a comment has six bytes and a blank.
            comments: (3 * comment / bytes.max(1)).max(2) + random.below(200),
            leaves: random.one_of(&[2, 3, 6, 20]),
        }
    }
}

pub struct Text<'a> {
    pub random: &'a mut Random,
    pub style: Style,
    pub out: Vec<u8>,
    pub tokens: usize,
    /// Tokens that the item should still have; with none left, only leaves are written.
    pub left: isize,
    /// Brackets that are open.
    pub open: usize,
}

impl<'a> Text<'a> {
    pub fn new(random: &'a mut Random, style: Style) -> Self {
        Text {
            random,
            style,
            out: Vec::new(),
            tokens: 0,
            left: 0,
            open: 0,
        }
    }

    /// Writes a token.
    pub fn put(&mut self, token: &str) {
        self.gap();
        let is_word = |byte: &u8| byte.is_ascii_alphanumeric() || *byte == b'_';
        let begins = token.as_bytes().first().is_some_and(is_word);
        if begins && self.out.last().is_some_and(is_word) {
            self.out.push(b' ');
        }
        self.out.extend_from_slice(token.as_bytes());
        self.tokens += 1;
        self.left -= 1;
    }

    /// Writes tokens that are apart by spaces.
    pub fn put_all(&mut self, tokens: &str) {
        tokens.split(' ').for_each(|token| self.put(token));
    }

    pub fn open(&mut self, bracket: &str) {
        self.put(bracket);
        self.open += 1;
    }

    pub fn close(&mut self, bracket: &str) {
        self.put(bracket);
        self.open -= 1;
    }

    fn gap(&mut self) {
        if self.random.one_in(self.style.comments) {
            self.comment();
        } else if self.random.one_in(self.style.blanks) {
            let blanks = self.random.one_of(&[" ", "\n", "\r\n    ", "\t"]);
            self.out.extend_from_slice(blanks.as_bytes());
        }
    }

    fn comment(&mut self) {
        let ends = [("//", "\n"), ("//", "\r\n"), ("/*", "*/"), ("/*/*", "*/*/")];
        let (open, close) = self.random.one_of(&ends);
        self.out.extend_from_slice(open.as_bytes());
        for _ in 0..self.random.below(self.style.comment + 1) {
            self.out.push(b' ');
            let word = self.random.one_of(&WORDS);
            self.out.extend_from_slice(word.as_bytes());
        }
        self.out.extend_from_slice(close.as_bytes());
    }

    /// A name that no rule tells apart, since none of those begins with `q`.
    pub fn name(&mut self) {
        let mut name = String::from("q");
        for _ in 0..self.random.below(self.style.name) {
            name.push(char::from(self.random.one_of(NAME_BYTES)));
        }
        self.put(&name);
    }
}
