//! Which children a record has: those of its kind's row, in the order of the row.

use super::fields::number;
use crate::kinds::{arm, call, record};
use crate::names::{is_bound, is_size};
use crate::Record;

/// Whether these are children that the record may have; its fields are known to be allowed.
pub fn allowed(parent: &Record, children: &[Record]) -> bool {
    let mut rest = Rest(children);
    take_row(parent, &mut rest).is_some() && rest.0.is_empty()
}

/// Takes the children that a row names.
fn take_row(parent: &Record, rest: &mut Rest) -> Option<()> {
    let [kind, _, _, low, high, ..] = *parent;
    match kind {
        record::FUNCTION => {
            rest.one(is_name)?;
            rest.many(high, |kind| kind == record::PARAMETER)?;
            rest.many(low >> 1, is_type)?;
            rest.one(|kind| kind == record::BLOCK)?;
        }
        record::PROGRAM => rest.all(is_item),
        record::PARAMETER | record::TYPE_ITEM => {
            rest.one(is_name)?;
            rest.one(is_type)?;
        }
        record::EITHER => rest.many(2, is_type)?,
        record::OPTION | record::ARRAY_TYPE | record::LIST_TYPE => rest.many(1, is_type)?,
        record::TUPLE_TYPE => rest.all(is_type),
        record::TUPLE_PATTERN | record::ARRAY_PATTERN => rest.all(is_pattern),
        record::LET => {
            rest.typed_pattern()?;
            rest.one(is_expression)?;
        }
        record::BLOCK => take_block(low == 1, rest)?,
        record::LEFT | record::RIGHT | record::SOME | record::PARENTHESISED => {
            rest.many(1, is_expression)?
        }
        record::TUPLE | record::ARRAY | record::LIST => rest.all(is_expression),
        record::ENUM_CONSTRUCTION => {
            rest.many(low, is_name)?;
            rest.all(is_expression);
        }
        record::MATCH => take_match(rest)?,
        record::ENUM_MATCH => {
            rest.one(is_expression)?;
            rest.one(is_enum_arm)?;
            rest.all(is_enum_arm);
        }
        record::BUILTIN_ARM => {
            if matches!(low, arm::LEFT | arm::RIGHT | arm::SOME) {
                rest.typed_pattern()?;
            }
            rest.one(is_expression)?;
        }
        record::ENUM_ARM => {
            rest.many(low, is_name)?;
            for _ in 0..high {
                rest.typed_pattern()?;
            }
            rest.one(is_expression)?;
        }
        record::CALL => take_call(low, rest)?,
        _ => return is_leaf(kind).then_some(()),
    }
    Some(())
}

/// Statements; the last of them is an expression where the block says so.
fn take_block(last_expression: bool, rest: &mut Rest) -> Option<()> {
    let last = rest.0.last().map(|child| child[0]);
    rest.all(|kind| kind == record::LET || is_expression(kind));
    (!last_expression || last.is_some_and(is_expression)).then_some(())
}

/// Two built-in arms that belong together, in canonical order.
fn take_match(rest: &mut Rest) -> Option<()> {
    rest.one(is_expression)?;
    let [_, _, _, first, ..] = rest.one(|kind| kind == record::BUILTIN_ARM)?;
    let [_, _, _, second, ..] = rest.one(|kind| kind == record::BUILTIN_ARM)?;
    let pairs = [
        (arm::LEFT, arm::RIGHT),
        (arm::NONE, arm::SOME),
        (arm::FALSE, arm::TRUE),
    ];
    pairs.contains(&(first, second)).then_some(())
}

/// What the call's name asks for, then the arguments.
fn take_call(name: u32, rest: &mut Rest) -> Option<()> {
    match name {
        call::JET | call::CUSTOM | call::FOR_WHILE => rest.many(1, is_name)?,
        call::UNWRAP_LEFT
        | call::UNWRAP_RIGHT
        | call::IS_NONE
        | call::TYPE_CAST
        | call::RAW_HASH => rest.many(1, is_type)?,
        call::FOLD | call::ARRAY_FOLD => {
            rest.one(is_name)?;
            let number = number(&rest.one(|kind| kind == record::NUMBER)?);
            let right = match name {
                call::FOLD => is_bound(number),
                _ => is_size(number),
            };
            right.then_some(())?;
        }
        // `unwrap` and the macros have their arguments alone.
        _ => {}
    }
    rest.all(is_expression);
    Some(())
}

/// The children not yet taken.
struct Rest<'a>(&'a [Record]);

/// What a place of a row may hold, by its kind.
type Class = fn(u32) -> bool;

impl Rest<'_> {
    /// Takes the next child, which must be of the class.
    fn one(&mut self, class: Class) -> Option<Record> {
        let (first, rest) = self.0.split_first()?;
        self.0 = rest;
        class(first[0]).then_some(*first)
    }

    /// Takes exactly so many.
    fn many(&mut self, count: u32, class: Class) -> Option<()> {
        (0..count).try_for_each(|_| self.one(class).map(|_| ()))
    }

    /// Takes as many as there are of the class, none among them.
    fn all(&mut self, class: Class) {
        while self.0.first().is_some_and(|child| class(child[0])) {
            self.0 = &self.0[1..];
        }
    }

    fn typed_pattern(&mut self) -> Option<()> {
        self.one(is_pattern)?;
        self.many(1, is_type)
    }
}

fn is_item(kind: u32) -> bool {
    matches!(kind, record::FUNCTION | record::TYPE_ITEM)
}

fn is_name(kind: u32) -> bool {
    kind == record::NAME
}

fn is_type(kind: u32) -> bool {
    (record::ALIAS..=record::LIST_TYPE).contains(&kind)
}

fn is_pattern(kind: u32) -> bool {
    (record::IDENTIFIER_PATTERN..=record::ARRAY_PATTERN).contains(&kind)
}

/// A block, what follows it in the table up to the matches, or a call.
fn is_expression(kind: u32) -> bool {
    (record::BLOCK..=record::ENUM_MATCH).contains(&kind) || kind == record::CALL
}

fn is_enum_arm(kind: u32) -> bool {
    kind == record::ENUM_ARM
}

/// Kinds that have a token and no children.
fn is_leaf(kind: u32) -> bool {
    matches!(
        kind,
        record::NAME
            | record::ALIAS..=record::UNSIGNED
            | record::IDENTIFIER_PATTERN
            | record::IGNORE_PATTERN
            | record::NONE..=record::VARIABLE
            | record::NUMBER
    )
}
