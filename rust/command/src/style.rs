//! Colours, as a terminal is told of them.

use std::fmt;

/// What `--color` says.
#[derive(Clone, Copy, Debug, Default, PartialEq, Eq)]
pub(crate) enum When {
    #[default]
    Auto,
    Always,
    Never,
}

/// What is told from the rest by a colour.
#[derive(Clone, Copy, PartialEq, Eq)]
pub(crate) enum Colour {
    Plain,
    /// What is drawn, and places.
    Dim,
    /// What stands in the draft.
    Cyan,
    /// What is wrong.
    Red,
    /// What frames a source line.
    Blue,
}

const END: &str = "\x1B[0m";

impl Colour {
    fn begin(self) -> &'static str {
        match self {
            Colour::Plain => "",
            Colour::Dim => "\x1B[2m",
            Colour::Cyan => "\x1B[36m",
            Colour::Red => "\x1B[1;31m",
            Colour::Blue => "\x1B[1;34m",
        }
    }
}

/// Whether there are colours.
#[derive(Clone, Copy)]
pub(crate) struct Style {
    pub(crate) colours: bool,
}

impl Style {
    pub(crate) fn paint(self, colour: Colour, text: &str) -> Painted<'_> {
        let colour = if self.colours { colour } else { Colour::Plain };
        Painted { colour, text }
    }
}

/// A text in its colour.
pub(crate) struct Painted<'text> {
    colour: Colour,
    text: &'text str,
}

impl fmt::Display for Painted<'_> {
    fn fmt(&self, f: &mut fmt::Formatter<'_>) -> fmt::Result {
        if self.colour == Colour::Plain || self.text.is_empty() {
            return f.write_str(self.text);
        }
        write!(f, "{}{}{END}", self.colour.begin(), self.text)
    }
}
