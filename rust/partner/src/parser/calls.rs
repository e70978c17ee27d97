//! Calls: a name or a mark, what stands in angles, and the arguments.

use super::Parser;
use crate::kinds::{call, record, refusal, token};
use crate::names::{is_bound, is_size};
use crate::Step;

impl Parser<'_> {
    fn arguments(&mut self) -> Step {
        self.take(token::L_PAREN)?;
        self.list(token::R_PAREN, Self::expression)?;
        Ok(())
    }

    /// A call whose first token is its name child: a jet or a function.
    pub(super) fn named_call(&mut self, number: u32) -> Step {
        let at = self.open();
        self.leaf(record::NAME, (0, 0))?;
        self.arguments()?;
        self.close(at, record::CALL, (number, 0))
    }

    /// A call whose first token is a mark of its own: `unwrap` or a macro.
    pub(super) fn marked_call(&mut self, number: u32) -> Step {
        let at = self.open();
        self.advance();
        self.arguments()?;
        self.close(at, record::CALL, (number, 0))
    }

    pub(super) fn macro_call(&mut self) -> Step {
        match self.text() {
            b"assert!" => self.marked_call(call::ASSERT),
            b"panic!" => self.marked_call(call::PANIC),
            b"dbg!" => self.marked_call(call::DEBUG),
            _ => self.list_expression(),
        }
    }

    pub(super) fn type_cast(&mut self) -> Step {
        let at = self.open();
        self.advance();
        self.aliased_type()?;
        self.take(token::R_ANGLE)?;
        self.take(token::DOUBLE_COLON)?;
        if self.text() != b"into" {
            return self.refuse();
        }
        self.advance();
        self.arguments()?;
        self.close(at, record::CALL, (call::TYPE_CAST, 0))
    }

    /// A call with `::<` after its word.
    pub(super) fn generic_call(&mut self, number: u32) -> Step {
        let at = self.open();
        self.next += 3;
        match number {
            call::FOLD => self.folded(refusal::BOUND_NOT_POW2, is_bound)?,
            call::ARRAY_FOLD => self.folded(refusal::ARRAY_SIZE, is_size)?,
            call::FOR_WHILE => self.function_name()?,
            _ => self.aliased_type()?,
        }
        self.take(token::R_ANGLE)?;
        self.arguments()?;
        self.close(at, record::CALL, (number, 0))
    }

    /// The function of `fold` or `array_fold`, and the bound or the size.
    fn folded(&mut self, number: u32, allows: fn(u64) -> bool) -> Step {
        self.function_name()?;
        self.take(token::COMMA)?;
        let at = self.open();
        let value = self.decimal(number, allows)?;
        self.close_number(at, record::NUMBER, value)
    }
}
