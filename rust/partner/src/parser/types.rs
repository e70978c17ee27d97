//! Types.

use super::Parser;
use crate::kinds::{record, refusal, token};
use crate::names::{is_bound, named_type};
use crate::Step;

impl Parser<'_> {
    pub(super) fn aliased_type(&mut self) -> Step {
        match self.kind(0) {
            token::L_PAREN => {
                self.bracketed(token::R_PAREN, Self::aliased_type, record::TUPLE_TYPE)
            }
            token::L_BRACKET => self.array_type(),
            token::IDENT => match (self.text(), self.kind(1)) {
                (b"Either", token::L_ANGLE) => self.either_type(),
                (b"Option", token::L_ANGLE) => self.option_type(),
                (b"List", token::L_ANGLE) => self.list_type(),
                (name, _) => {
                    let (kind, low) = named_type(name);
                    self.leaf(kind, (low, 0))
                }
            },
            _ => self.refuse(),
        }
    }

    fn array_type(&mut self) -> Step {
        let at = self.open();
        self.advance();
        self.aliased_type()?;
        self.take(token::SEMI)?;
        // Any length that 64 bits hold, 0 too.
        let length = self.decimal(refusal::ARRAY_LENGTH, |_| true)?;
        self.take(token::R_BRACKET)?;
        self.close_number(at, record::ARRAY_TYPE, length)
    }

    fn either_type(&mut self) -> Step {
        let at = self.open();
        self.next += 2;
        self.aliased_type()?;
        self.take(token::COMMA)?;
        self.aliased_type()?;
        self.take(token::R_ANGLE)?;
        self.close(at, record::EITHER, (0, 0))
    }

    fn option_type(&mut self) -> Step {
        let at = self.open();
        self.next += 2;
        self.aliased_type()?;
        self.take(token::R_ANGLE)?;
        self.close(at, record::OPTION, (0, 0))
    }

    fn list_type(&mut self) -> Step {
        let at = self.open();
        self.next += 2;
        self.aliased_type()?;
        self.take(token::COMMA)?;
        let bound = self.decimal(refusal::BOUND_NOT_POW2, is_bound)?;
        self.take(token::R_ANGLE)?;
        self.close_number(at, record::LIST_TYPE, bound)
    }
}
