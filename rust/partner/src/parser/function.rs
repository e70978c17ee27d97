//! A function with its name and parameters.

use super::Parser;
use crate::kinds::{record, token};
use crate::names::is_reserved;
use crate::Step;

impl Parser<'_> {
    pub(super) fn function(&mut self) -> Step {
        let at = self.open();
        let public = self.take_if(token::PUB);
        self.take(token::FN)?;
        self.function_name()?;
        self.take(token::L_PAREN)?;
        let (parameters, _) = self.list(token::R_PAREN, Self::parameter)?;
        let result = self.take_if(token::ARROW);
        if result {
            self.aliased_type()?;
        }
        self.block()?;
        let low = u32::from(public) + 2 * u32::from(result);
        self.close(at, record::FUNCTION, (low, parameters))
    }

    fn parameter(&mut self) -> Step {
        let at = self.open();
        self.identifier()?;
        self.take(token::COLON)?;
        self.aliased_type()?;
        self.close(at, record::PARAMETER, (0, 0))
    }

    pub(super) fn identifier(&mut self) -> Step {
        if !self.next_is(token::IDENT) {
            return self.refuse();
        }
        self.leaf(record::NAME, (0, 0))
    }

    pub(super) fn function_name(&mut self) -> Step {
        if is_reserved(self.text()) {
            return self.refuse();
        }
        self.identifier()
    }
}
