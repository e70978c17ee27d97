//! Matches and their arms.

use super::Parser;
use crate::kinds::{arm, record, refusal, token};
use crate::Step;

impl Parser<'_> {
    pub(super) fn match_expression(&mut self) -> Step {
        let place = self.place();
        let at = self.open();
        self.advance();
        self.expression()?;
        self.take(token::L_BRACE)?;
        let first = self.records.len();
        let (mut builtin_arms, mut enum_arms) = (0, 0);
        while !self.next_is(token::R_BRACE) {
            match self.match_arm()? {
                record::BUILTIN_ARM => builtin_arms += 1,
                _ => enum_arms += 1,
            }
        }
        self.advance();
        match (builtin_arms, enum_arms) {
            (0, 0) => self.fault(refusal::NO_ARMS, place),
            (0, _) => {}
            (2, 0) => self.order_arms(first, place),
            (_, 0) => self.fault(refusal::NOT_TWO_ARMS, place),
            _ => self.fault(refusal::MIXED_ARMS, place),
        }
        let kind = if builtin_arms == 0 {
            record::ENUM_MATCH
        } else {
            record::MATCH
        };
        self.close(at, kind, (0, 0))
    }

    /// Brings the two built-in arms at the end of the tree into canonical order.
    fn order_arms(&mut self, first: usize, place: usize) {
        let first_size = self.records[first][5] as usize;
        let (one, other) = (self.records[first][3], self.records[first + first_size][3]);
        if one.min(other) % 2 == 0 || one.abs_diff(other) != 1 {
            self.fault(refusal::INCOMPATIBLE_ARMS, place);
        } else if one > other {
            self.records[first..].rotate_left(first_size);
        }
    }

    /// One arm with its comma, which only a block may go without; answers the arm's kind.
    fn match_arm(&mut self) -> Step<u32> {
        let at = self.open();
        let (kind, low, high) = self.arm_head()?;
        self.take(token::FAT_ARROW)?;
        let block = self.next_is(token::L_BRACE);
        self.expression()?;
        if !self.take_if(token::COMMA) && !block {
            return self.refuse();
        }
        self.close(at, kind, (low, high))?;
        Ok(kind)
    }

    /// The head of an arm: its kind, low and high.
    fn arm_head(&mut self) -> Step<(u32, u32, u32)> {
        let low = match (self.kind(0), self.kind(1), self.text()) {
            (token::BOOL, _, b"true") => self.plain_head(arm::TRUE),
            (token::BOOL, _, _) => self.plain_head(arm::FALSE),
            (_, token::DOUBLE_COLON, _) => return self.enum_arm_head(),
            (_, _, b"None") => self.plain_head(arm::NONE),
            (_, _, b"Left") => self.wrapper_head(arm::LEFT)?,
            (_, _, b"Right") => self.wrapper_head(arm::RIGHT)?,
            (_, _, b"Some") => self.wrapper_head(arm::SOME)?,
            _ => return self.enum_arm_head(),
        };
        Ok((record::BUILTIN_ARM, low, 0))
    }

    fn plain_head(&mut self, low: u32) -> u32 {
        self.advance();
        low
    }

    fn wrapper_head(&mut self, low: u32) -> Step<u32> {
        self.advance();
        self.take(token::L_PAREN)?;
        self.typed_pattern()?;
        self.take(token::R_PAREN)?;
        Ok(low)
    }

    /// A path of names; parentheses after it hold at least one pattern with its type.
    fn enum_arm_head(&mut self) -> Step<(u32, u32, u32)> {
        let names = self.enum_path()?;
        let mut pairs = 0;
        if self.take_if(token::L_PAREN) {
            if self.next_is(token::R_PAREN) {
                return self.refuse();
            }
            (pairs, _) = self.list(token::R_PAREN, Self::typed_pattern)?;
        }
        Ok((record::ENUM_ARM, names, pairs))
    }
}
