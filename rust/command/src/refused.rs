//! What is said of a draft that is refused: where, why, the line of its source, and what to do.

use crate::advice::{advice, AT_THE_END};
use crate::place::{places, Place};
use crate::source::shown;
use crate::style::Colour;
use crate::terminal::{self, Look};
use std::ffi::OsStr;
use std::io::{self, Write};
use togmelic::{Limits, Refusal};

/// The width where nobody looks at a terminal.
const COLUMNS: usize = 100;
/// More bytes or tokens than may be, and not the shape of a file.
const TOO_LONG: u32 = 1;
const TOO_MANY_TOKENS: u32 = 6;
const MISSHAPEN: u32 = 8;

/// A draft that is refused, and within which limits.
pub(crate) struct Refused<'draft> {
    pub(crate) draft: &'draft [u8],
    pub(crate) refusal: Refusal,
    pub(crate) limits: Limits,
}

impl Refused<'_> {
    /// Where, as line and column.
    pub(crate) fn place(&self) -> Place {
        places(self.draft)[self.refusal.place]
    }

    /// Why, in words.
    pub(crate) fn reason(&self) -> &'static str {
        match self.is_at_the_end() {
            true => "the draft cannot end here",
            false => self.refusal.reason(),
        }
    }

    /// What to do about it.
    pub(crate) fn help(&self) -> String {
        let advice = match self.is_at_the_end() {
            true => AT_THE_END,
            false => advice(self.refusal.number),
        };
        format!("{}{advice}", self.larger())
    }

    /// A draft that ends too soon has no token with which it cannot go on.
    fn is_at_the_end(&self) -> bool {
        self.refusal.number == MISSHAPEN && self.refusal.place == self.draft.len()
    }

    /// What `--large` does about it, where it is not given.
    fn larger(&self) -> &'static str {
        match (self.limits, self.refusal.number) {
            (Limits::Small, TOO_LONG) => "with --large up to 1,048,576 bytes are read; else ",
            (Limits::Small, TOO_MANY_TOKENS) => "with --large up to 131,072 tokens are read; else ",
            _ => "",
        }
    }

    pub(crate) fn write(&self, out: &mut dyn Write, look: Look, file: &OsStr) -> io::Result<()> {
        let Place { line, column } = self.place();
        let number = line.to_string();
        let indent = " ".repeat(number.len());
        // A bar and the blanks on both sides of it stand behind the number.
        let before = number.len() + 3;
        let width = look.columns.unwrap_or(COLUMNS).saturating_sub(before);
        let source = shown(self.draft, self.refusal.place, width);
        let under = " ".repeat(source.caret);

        let refused = format!("refused ({})", self.refusal.number);
        let (reason, help) = (self.reason(), self.help());
        let red = |text| look.style.paint(Colour::Red, text);
        let blue = |text| look.style.paint(Colour::Blue, text);
        let (bar, caret) = (|| blue("|"), red("^"));
        out.write_all(&terminal::safe(file, look.columns.is_some()))?;
        writeln!(out, ":{line}:{column}: {}: {reason}", red(&refused))?;
        writeln!(out, "{indent} {}", bar())?;
        write!(out, "{} {}", blue(&number), bar())?;
        if !source.text.is_empty() {
            write!(out, " {}", source.text)?;
        }
        writeln!(out, "\n{indent} {} {under}{caret}", bar())?;
        writeln!(out, "{indent} {} {help}", blue("= help:"))
    }
}
