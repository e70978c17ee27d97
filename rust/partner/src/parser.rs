//! Well-shaped drafts: the tree of a draft's tokens, by functions chosen by the next tokens.

mod calls;
mod expressions;
mod function;
mod items;
mod matches;
mod patterns;
mod statements;
mod types;

use crate::kinds::{refusal, token};
use crate::names::{decimal_value, halves};
use crate::{Entry, Record, Refusal, Step, Token};

/// The tree of a well-shaped draft, or refusal 8, or the earliest of 9 to 14 and 19.
pub fn parse(draft: &[u8], tokens: &[Token], entry: Entry) -> Step<Vec<Record>> {
    let records = Vec::with_capacity(tokens.len() + 1);
    let mut parser = Parser {
        draft,
        tokens,
        next: 0,
        records,
        fault: None,
    };
    match entry {
        Entry::Function => parser.function()?,
        Entry::File => parser.file()?,
    }
    parser.take(token::END)?;
    match parser.fault {
        Some(refusal) => Err(refusal),
        None => Ok(parser.records),
    }
}

struct Parser<'a> {
    draft: &'a [u8],
    tokens: &'a [Token],
    /// Number of the next token.
    next: usize,
    records: Vec<Record>,
    /// The earliest of the refusals 9 to 14 and 19 so far; it counts once the draft is well-shaped.
    fault: Option<Refusal>,
}

/// One element of a list.
type Element<'a> = fn(&mut Parser<'a>) -> Step;

impl<'a> Parser<'a> {
    /// The kind of the token that many places ahead.
    fn kind(&self, ahead: usize) -> u32 {
        self.tokens
            .get(self.next + ahead)
            .map_or(token::END, |token| token[0])
    }

    fn next_is(&self, kind: u32) -> bool {
        self.kind(0) == kind
    }

    /// The text of the next token, empty at the end.
    fn text(&self) -> &'a [u8] {
        match self.tokens.get(self.next) {
            Some([_, start, end]) => &self.draft[*start as usize..*end as usize],
            None => &[],
        }
    }

    /// Where the next token starts, or the draft's length.
    fn place(&self) -> usize {
        self.tokens
            .get(self.next)
            .map_or(self.draft.len(), |token| token[1] as usize)
    }

    fn refuse<T>(&self) -> Step<T> {
        Err((refusal::NOT_WELL_SHAPED, self.place()))
    }

    fn advance(&mut self) {
        self.next += 1;
    }

    fn take(&mut self, kind: u32) -> Step {
        if !self.next_is(kind) {
            return self.refuse();
        }
        self.advance();
        Ok(())
    }

    /// Takes the next token if it has this kind.
    fn take_if(&mut self, kind: u32) -> bool {
        let found = self.next_is(kind);
        self.next += usize::from(found);
        found
    }

    /// Takes a decimal: its value, or `None` where the draft is refused for it, with the refusal `number`.
    /// One over the largest 64-bit number has no value and is refused by each rule.
    fn decimal(&mut self, number: u32, allows: fn(u64) -> bool) -> Step<Option<u64>> {
        let place = self.place();
        let text = self.text();
        self.take(token::DEC_LITERAL)?;
        let value = decimal_value(text).filter(|value| allows(*value));
        if value.is_none() {
            self.fault(number, place);
        }
        Ok(value)
    }

    /// Sets a record aside, before its children, for a rule that starts at the next token.
    fn open(&mut self) -> usize {
        self.records.push([0, self.place() as u32, 0, 0, 0, 0, 0]);
        self.records.len() - 1
    }

    /// Fills in an opened record, the last step of its rule: it ends with the last token taken.
    fn close(&mut self, at: usize, kind: u32, (low, high): (u32, u32)) -> Step {
        let start = self.records[at][1];
        let end = self.tokens[self.next - 1][2];
        let size = (self.records.len() - at) as u32;
        self.records[at] = [kind, start, end, low, high, size, 0];
        self.adopt(at);
        Ok(())
    }

    /// Tells each child of a record its way up. The children stand in the order handed over by now, arms that were exchanged too.
    fn adopt(&mut self, at: usize) {
        let mut child = at + 1;
        while child < self.records.len() {
            self.records[child][6] = (child - at) as u32;
            child += self.records[child][5] as usize;
        }
    }

    /// Fills in an opened record that holds a number. Without one the draft is refused, and no one
    /// will see the record.
    fn close_number(&mut self, at: usize, kind: u32, number: Option<u64>) -> Step {
        self.close(at, kind, halves(number.unwrap_or(0)))
    }

    /// Takes the next token as a record of its own.
    fn leaf(&mut self, kind: u32, numbers: (u32, u32)) -> Step {
        let at = self.open();
        self.advance();
        self.close(at, kind, numbers)
    }

    /// Notes a refusal that must wait until the whole draft is known to be well-shaped.
    fn fault(&mut self, number: u32, place: usize) {
        if self.fault.is_none_or(|(_, earliest)| place < earliest) {
            self.fault = Some((number, place));
        }
    }

    /// Elements up to the closing bracket: how many, and whether a comma came last.
    fn list(&mut self, close: u32, element: Element<'a>) -> Step<(u32, bool)> {
        let mut count = 0;
        let mut comma = false;
        while !self.next_is(close) {
            element(self)?;
            count += 1;
            comma = self.take_if(token::COMMA);
            if !comma {
                break;
            }
        }
        self.take(close)?;
        Ok((count, comma))
    }

    /// A record that is a list in brackets; the next token is the opening one.
    fn bracketed(&mut self, close: u32, element: Element<'a>, kind: u32) -> Step {
        let at = self.open();
        self.advance();
        self.list(close, element)?;
        self.close(at, kind, (0, 0))
    }
}
