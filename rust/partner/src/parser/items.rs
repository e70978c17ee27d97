//! A file and its items, which are functions and types.

use super::Parser;
use crate::kinds::{record, token};
use crate::names::is_reserved_type;
use crate::{Step, RECORD_WORDS};

impl Parser<'_> {
    /// Items up to the end. The record above them is the first; its place is the whole draft, so an empty file has it too.
    pub(super) fn file(&mut self) -> Step {
        self.records.push([0; RECORD_WORDS]);
        while !self.next_is(token::END) {
            self.item()?;
        }
        let size = self.records.len() as u32;
        self.records[0] = [record::PROGRAM, 0, self.draft.len() as u32, 0, 0, size, 0];
        self.adopt(0);
        Ok(())
    }

    fn item(&mut self) -> Step {
        match self.kind(0) {
            token::TYPE => self.type_item(),
            _ => self.function(),
        }
    }

    fn type_item(&mut self) -> Step {
        let at = self.open();
        self.advance();
        self.type_name()?;
        self.take(token::EQ)?;
        self.aliased_type()?;
        self.take(token::SEMI)?;
        self.close(at, record::TYPE_ITEM, (0, 0))
    }

    fn type_name(&mut self) -> Step {
        if is_reserved_type(self.text()) {
            return self.refuse();
        }
        self.identifier()
    }
}
