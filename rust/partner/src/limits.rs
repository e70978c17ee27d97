//! The limits: of bytes and tokens, of which there are two sets, and those over all tokens, refusals 6 and 7.

use crate::kinds::{refusal, token};
use crate::{Step, Token};

/// How many bytes and how many tokens a draft may have.
#[derive(Clone, Copy, Debug, PartialEq, Eq)]
pub struct Limits {
    pub bytes: usize,
    pub tokens: usize,
}

impl Limits {
    /// Those of the listing program and of the first entry for C.
    pub const SMALL: Limits = Limits {
        bytes: 16_384,
        tokens: 2_048,
    };
    /// Those of the library.
    pub const LARGE: Limits = Limits {
        bytes: 1_048_576,
        tokens: 131_072,
    };

    /// Each record owns a token, but for the first of a file.
    pub const fn records(self) -> usize {
        self.tokens + 1
    }
}

const OPEN_BRACKETS: usize = 48;
const MATCHES_IN_A_ROW: usize = 8;

pub fn check_number(tokens: &[Token], room: usize) -> Step {
    match tokens.get(room) {
        Some(first_too_many) => Err((refusal::TOO_MANY_TOKENS, first_too_many[1] as usize)),
        None => Ok(()),
    }
}

pub fn check_depth(tokens: &[Token]) -> Step {
    let mut open: usize = 0;
    let mut matches = 0;
    for [kind, start, _] in tokens {
        match *kind {
            token::L_PAREN | token::L_BRACKET | token::L_BRACE | token::L_ANGLE => open += 1,
            token::R_PAREN | token::R_BRACKET | token::R_BRACE | token::R_ANGLE => {
                open = open.saturating_sub(1)
            }
            _ => {}
        }
        matches = if *kind == token::MATCH {
            matches + 1
        } else {
            0
        };
        if open > OPEN_BRACKETS || matches > MATCHES_IN_A_ROW {
            return Err((refusal::TOO_DEEP, *start as usize));
        }
    }
    Ok(())
}
