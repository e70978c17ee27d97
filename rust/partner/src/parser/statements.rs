//! Blocks and their statements.

use super::Parser;
use crate::kinds::{record, token};
use crate::Step;

impl Parser<'_> {
    pub(super) fn block(&mut self) -> Step {
        let at = self.open();
        self.take(token::L_BRACE)?;
        let mut last_expression = false;
        while !self.next_is(token::R_BRACE) {
            if self.next_is(token::LET) {
                self.assignment()?;
            } else {
                self.expression()?;
                last_expression = self.next_is(token::R_BRACE);
            }
            if !last_expression {
                self.take(token::SEMI)?;
            }
        }
        self.advance();
        self.close(at, record::BLOCK, (u32::from(last_expression), 0))
    }

    fn assignment(&mut self) -> Step {
        let at = self.open();
        self.advance();
        self.typed_pattern()?;
        self.take(token::EQ)?;
        self.expression()?;
        self.close(at, record::LET, (0, 0))
    }
}
