//! Expressions that are neither calls nor matches.

use super::Parser;
use crate::kinds::{call, record, token};
use crate::names::{generic_call, is_reserved};
use crate::Step;

impl Parser<'_> {
    pub(super) fn expression(&mut self) -> Step {
        match self.kind(0) {
            token::L_BRACE => self.block(),
            token::MATCH => self.match_expression(),
            token::L_PAREN => self.parenthesised(),
            token::L_BRACKET => self.bracketed(token::R_BRACKET, Self::expression, record::ARRAY),
            token::L_ANGLE => self.type_cast(),
            token::MACRO => self.macro_call(),
            token::JET => self.named_call(call::JET),
            token::IDENT => self.named_expression(),
            token::BOOL => {
                let low = u32::from(self.text() == b"true");
                self.leaf(record::BOOLEAN, (low, 0))
            }
            token::DEC_LITERAL => self.leaf(record::DECIMAL, (0, 0)),
            token::HEX_LITERAL => self.leaf(record::HEXADECIMAL, (0, 0)),
            token::BIN_LITERAL => self.leaf(record::BINARY, (0, 0)),
            token::WITNESS => self.leaf(record::WITNESS, (0, 0)),
            token::PARAM => self.leaf(record::PARAMETER_VALUE, (0, 0)),
            _ => self.refuse(),
        }
    }

    /// One expression without a comma is parenthesised, anything else is a tuple.
    fn parenthesised(&mut self) -> Step {
        let at = self.open();
        self.advance();
        let single = self.list(token::R_PAREN, Self::expression)? == (1, false);
        let kind = if single {
            record::PARENTHESISED
        } else {
            record::TUPLE
        };
        self.close(at, kind, (0, 0))
    }

    pub(super) fn list_expression(&mut self) -> Step {
        let at = self.open();
        self.advance();
        self.take(token::L_BRACKET)?;
        self.list(token::R_BRACKET, Self::expression)?;
        self.close(at, record::LIST, (0, 0))
    }

    /// An expression that begins with a name: the two tokens after it decide.
    fn named_expression(&mut self) -> Step {
        let name = self.text();
        if self.kind(1) == token::DOUBLE_COLON {
            return match generic_call(name) {
                Some(number) if self.kind(2) == token::L_ANGLE => self.generic_call(number),
                _ => self.enum_construction(),
            };
        }
        match (name, self.kind(1)) {
            (b"None", _) => self.leaf(record::NONE, (0, 0)),
            (b"Left", token::L_PAREN) => self.wrapper(record::LEFT),
            (b"Right", token::L_PAREN) => self.wrapper(record::RIGHT),
            (b"Some", token::L_PAREN) => self.wrapper(record::SOME),
            (b"unwrap", token::L_PAREN) => self.marked_call(call::UNWRAP),
            (_, token::L_PAREN) if !is_reserved(name) => self.named_call(call::CUSTOM),
            _ => self.leaf(record::VARIABLE, (0, 0)),
        }
    }

    /// `Left`, `Right` or `Some` with `(`: only the end tells the wrapper from a call of that name.
    fn wrapper(&mut self, kind: u32) -> Step {
        let [_, start, end] = self.tokens[self.next];
        let at = self.open();
        self.next += 2;
        if self.list(token::R_PAREN, Self::expression)? == (1, false) {
            self.close(at, kind, (0, 0))
        } else {
            // A call has its name as first child; the arguments move up by one record.
            self.records
                .insert(at + 1, [record::NAME, start, end, 0, 0, 1, 0]);
            self.close(at, record::CALL, (call::CUSTOM, 0))
        }
    }

    fn enum_construction(&mut self) -> Step {
        let at = self.open();
        let names = self.enum_path()?;
        if self.take_if(token::L_PAREN) {
            self.list(token::R_PAREN, Self::expression)?;
        }
        self.close(at, record::ENUM_CONSTRUCTION, (names, 0))
    }

    /// Two names or more, joined by `::`: how many.
    pub(super) fn enum_path(&mut self) -> Step<u32> {
        self.identifier()?;
        self.take(token::DOUBLE_COLON)?;
        self.identifier()?;
        let mut names = 2;
        while self.take_if(token::DOUBLE_COLON) {
            self.identifier()?;
            names += 1;
        }
        Ok(names)
    }
}
