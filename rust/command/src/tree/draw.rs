//! The tree of a draft as it is shown: one line a record, with lines from each to its children.

use super::label::{label, Label};
use crate::place::{places, Place};
use crate::source::LEFT_OUT;
use crate::style::Colour;
use crate::terminal::Look;
use std::io::{self, Write};
use togmelic::Record;

pub(crate) fn tree(
    out: &mut dyn Write,
    look: Look,
    draft: &[u8],
    tree: &[Record],
) -> io::Result<()> {
    let places = places(draft);
    let mut branches = Branches::default();
    for (at, record) in tree.iter().enumerate() {
        let drawn = branches.before(at, record);
        let parts = parts(
            &drawn,
            &label(draft, tree, at),
            places[record.start],
            look.columns,
        );
        for (colour, text) in parts {
            write!(out, "{}", look.style.paint(colour, &text))?;
        }
        writeln!(out)?;
    }
    Ok(())
}

/// The records that hold the next one: each with the number of the record behind all beneath it, and with what is drawn for
/// it before these.
#[derive(Default)]
struct Branches {
    holders: Vec<(usize, &'static str)>,
}

impl Branches {
    /// What is drawn before a record. They come in tree order.
    fn before(&mut self, at: usize, record: &Record) -> String {
        while self.holders.pop_if(|(end, _)| *end <= at).is_some() {}
        let end = at + record.size;
        let (branch, beneath) = match self.holders.last() {
            None => ("", ""),
            Some((holder, _)) if *holder == end => ("└─ ", "   "),
            Some(_) => ("├─ ", "│  "),
        };
        let held: String = self.holders.iter().map(|(_, drawn)| *drawn).collect();
        self.holders.push((end, beneath));
        held + branch
    }
}

/// The parts of a line with their colours, cut where there is a terminal.
fn parts(
    drawn: &str,
    label: &Label,
    place: Place,
    columns: Option<usize>,
) -> Vec<(Colour, String)> {
    let drawn = columns.map_or(drawn.to_owned(), |columns| right_half(drawn, columns));
    let blank = if label.detail.is_empty() { "" } else { " " };
    let parts = vec![
        (Colour::Dim, drawn),
        (Colour::Plain, format!("{}{blank}", label.words)),
        (Colour::Cyan, label.detail.to_string()),
        (Colour::Plain, format!("{} ", label.behind)),
        (Colour::Dim, format!("{}:{}", place.line, place.column)),
    ];
    match columns {
        Some(columns) => cut(parts, columns),
        None => parts,
    }
}

/// What is drawn, or of more than half of the width the end, so that a label behind it is seen.
fn right_half(drawn: &str, columns: usize) -> String {
    let (wide, half) = (drawn.chars().count(), columns / 2);
    if wide <= half {
        return drawn.to_owned();
    }
    let end = drawn.chars().skip(wide - half).skip(1);
    let mark = (half > 0).then_some(LEFT_OUT);
    mark.into_iter().chain(end).collect()
}

/// The parts of a line in so many columns, the last a mark where the line is wider.
fn cut(parts: Vec<(Colour, String)>, columns: usize) -> Vec<(Colour, String)> {
    let wide: usize = parts.iter().map(|(_, text)| text.chars().count()).sum();
    if wide <= columns {
        return parts;
    }
    let mut kept = Vec::new();
    // The mark takes the last column.
    let mut left = columns - 1;
    for (colour, text) in parts {
        let used = text.chars().count();
        if used > left {
            let text = text.chars().take(left).chain([LEFT_OUT]).collect();
            kept.push((colour, text));
            break;
        }
        left -= used;
        kept.push((colour, text));
    }
    kept
}

#[cfg(test)]
mod tests {
    use super::*;
    use crate::style::Style;

    fn drawn(draft: &[u8], colours: bool, columns: Option<usize>) -> String {
        let found = togmelic::read(draft).expect("an accepted draft");
        let style = Style { colours };
        let mut out = Vec::new();
        tree(&mut out, Look { style, columns }, draft, &found).expect("written to memory");
        String::from_utf8(out).expect("a text")
    }

    #[test]
    fn lines_lead_to_the_children() {
        let expected = "\
program 1:1
├─ function, 1 parameter 1:1
│  ├─ name f 1:4
│  ├─ parameter 1:6
│  │  ├─ name a 1:6
│  │  └─ alias T 1:8
│  └─ block with a value 1:10
│     └─ Left 1:11
│        └─ variable a 1:16
└─ type item 2:1
   ├─ name A 2:6
   └─ alias B 2:8
";
        assert_eq!(
            drawn(b"fn f(a:T){Left(a)}\ntype A=B;", false, None),
            expected
        );
        assert_eq!(drawn(b"// nothing", false, Some(80)), "program 1:1\n");
    }

    #[test]
    fn lines_are_cut_to_a_terminal() {
        let expected = "\
program 1…
└─ type i…
… ├─ name…
… └─ Opti…
… └─ alia…
";
        // Six columns are drawn before the third label and the fourth, nine before the fifth: five of them are shown.
        assert_eq!(drawn(b"type A=Option<B>;", false, Some(10)), expected);
    }

    #[test]
    fn colours_are_ended() {
        let expected = "\
program \x1B[2m1:1\x1B[0m
\x1B[2m└─ \x1B[0mtype item \x1B[2m1:1\x1B[0m
\x1B[2m   ├─ \x1B[0mname \x1B[36mA\x1B[0m \x1B[2m1:6\x1B[0m
\x1B[2m   └─ \x1B[0mbool type \x1B[2m1:8\x1B[0m
";
        assert_eq!(drawn(b"type A=bool;", true, None), expected);
    }

    #[test]
    fn any_width_is_enough() {
        for columns in 1..40 {
            let drawn = drawn(b"type A=Option<Option<Option<B>>>;", false, Some(columns));
            assert_eq!(drawn.lines().count(), 7);
            assert!(
                drawn.lines().all(|line| line.chars().count() <= columns),
                "{drawn}"
            );
        }
    }

    #[test]
    fn the_right_half_is_shown() {
        assert_eq!(right_half("│  └─ ", 12), "│  └─ ");
        assert_eq!(right_half("│  └─ ", 11), "… └─ ");
        assert_eq!(right_half("│  │  └─ ", 8), "…└─ ");
        assert_eq!(right_half("│  └─ ", 1), "");
    }
}
