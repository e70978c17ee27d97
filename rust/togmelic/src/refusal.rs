//! Refusals, with their reasons in words.

use crate::Limits;
use std::fmt;

/// Why a draft is refused, and where. docs/REFUSALS.md says of each number what it means and what to do about it.
#[derive(Clone, Copy, Debug, PartialEq, Eq, Hash)]
pub struct Refusal {
    /// 1 to 14, 19 or 21; also 15, where [`list_large`](crate::list_large) or [`list_lean`](crate::list_lean) was lent a tree
    /// buffer that is too short.
    pub number: u32,
    /// Number of a byte of the draft, from 0; the draft's length where something is missing at its end. For refusal 1 it
    /// is the limit, [`Limits::bytes`], which may stand within a character of a comment: cut bytes there, not a `str`.
    pub place: usize,
}

impl Refusal {
    /// What the number says, in words. Of 1 and 6 the place tells within which limits it was read. Where
    /// [`list_large`](crate::list_large) was lent too few words for tokens, or [`list_lean`](crate::list_lean) too few for
    /// their starts, 6 is about these, which no number tells: the words say so where no limit can be passed at the place, and
    /// else name the limit.
    pub fn reason(&self) -> &'static str {
        match self.number {
            1 if self.is_large() => "the draft is over 1,048,576 bytes",
            1 => "the draft is over 16,384 bytes",
            2 => "a byte outside comments is over 127",
            3 => "no lexeme starts here",
            4 => "a block comment is never closed",
            5 => "the word simc is reserved",
            6 => self.too_many_tokens(),
            7 => "over 48 brackets are open, or over 8 match stand in a row",
            8 => "the draft cannot go on with this token",
            9 => "the bound is not a power of two from 2 to 9,223,372,036,854,775,808",
            10 => "the size is 0 or over 18,446,744,073,709,551,615",
            11 => "the match has no arms",
            12 => "the match has enum arms and built-in arms",
            13 => "the match does not have two built-in arms",
            14 => "the two built-in arms do not belong together",
            15 => "the tree buffer is too short",
            19 => "the array length is over 18,446,744,073,709,551,615",
            21 => "the comment is not well-formed UTF-8",
            _ => "no such refusal",
        }
    }

    /// Whether it is the large limit of bytes that is passed, whose place is that limit.
    fn is_large(&self) -> bool {
        self.place > Limits::Small.bytes()
    }

    /// Which limit refusal 6 is about. Each token has a byte, so the first over a limit begins no sooner than at that number,
    /// and over the small one no later than a draft may have bytes there. Anywhere else it is about the lent words.
    fn too_many_tokens(&self) -> &'static str {
        let small = Limits::Small.tokens()..Limits::Small.bytes();
        if self.place >= Limits::Large.tokens() {
            "there are over 131,072 tokens"
        } else if small.contains(&self.place) {
            "there are over 2,048 tokens"
        } else {
            "there are more tokens than the lent words hold"
        }
    }
}

impl fmt::Display for Refusal {
    fn fmt(&self, f: &mut fmt::Formatter<'_>) -> fmt::Result {
        write!(
            f,
            "refusal {} at byte {}: {}",
            self.number,
            self.place,
            self.reason()
        )
    }
}

impl std::error::Error for Refusal {}

/// Why a listing is refused, and at which line: two numbers, laid out as the entry for C writes them.
#[derive(Clone, Copy, Debug, PartialEq, Eq, Hash)]
#[repr(C)]
pub struct LoadRefusal {
    /// 16, 17 or 18; docs/REFUSALS.md has them too.
    pub number: usize,
    /// The first bad line, from 1, for 16; 0 for 17 and 18.
    pub line: usize,
}

impl LoadRefusal {
    /// What the number says, in words.
    pub fn reason(&self) -> &'static str {
        match self.number {
            16 => {
                "the line is in none of the three forms, or in another than the first line, or longer than need be"
            }
            17 => "the lines form neither one file nor one function, or a way up does not lead to the parent",
            18 => "the record buffer is too short",
            _ => "no such refusal",
        }
    }
}

impl fmt::Display for LoadRefusal {
    fn fmt(&self, f: &mut fmt::Formatter<'_>) -> fmt::Result {
        write!(f, "refusal {}", self.number)?;
        if self.line > 0 {
            write!(f, " at line {}", self.line)?;
        }
        write!(f, ": {}", self.reason())
    }
}

impl std::error::Error for LoadRefusal {}
