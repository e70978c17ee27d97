//! Patterns, alone and with their types.

use super::Parser;
use crate::kinds::{record, token};
use crate::Step;

impl Parser<'_> {
    pub(super) fn pattern(&mut self) -> Step {
        match (self.kind(0), self.text()) {
            (token::IDENT, b"_") => self.leaf(record::IGNORE_PATTERN, (0, 0)),
            (token::IDENT, _) => self.leaf(record::IDENTIFIER_PATTERN, (0, 0)),
            (token::L_PAREN, _) => {
                self.bracketed(token::R_PAREN, Self::pattern, record::TUPLE_PATTERN)
            }
            (token::L_BRACKET, _) => {
                self.bracketed(token::R_BRACKET, Self::pattern, record::ARRAY_PATTERN)
            }
            _ => self.refuse(),
        }
    }

    /// A pattern, `:` and its type.
    pub(super) fn typed_pattern(&mut self) -> Step {
        self.pattern()?;
        self.take(token::COLON)?;
        self.aliased_type()
    }
}
