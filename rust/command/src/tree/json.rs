//! The tree of a draft, or its refusal, as a JSON object (RFC 8259) on one line.

use super::label::{label, token};
use crate::place::{places, Place};
use crate::refused::Refused;
use std::borrow::Cow;
use std::ffi::OsStr;
use std::io::{self, Write};
use togmelic::{Kind, Record};

pub(crate) fn tree(
    out: &mut dyn Write,
    file: &OsStr,
    draft: &[u8],
    tree: &[Record],
) -> io::Result<()> {
    let places = places(draft);
    begin(out, file, draft)?;
    write!(out, r#""records":["#)?;
    for (at, found) in tree.iter().enumerate() {
        if at > 0 {
            write!(out, ",")?;
        }
        record(out, found, found.parent(at), places[found.start])?;
        let label = string(&label(draft, tree, at).to_string());
        write!(out, r#","label":{label}"#)?;
        details(out, draft, found)?;
        write!(out, "}}")?;
    }
    writeln!(out, "]}}")
}

pub(crate) fn refusal(out: &mut dyn Write, file: &OsStr, refused: &Refused) -> io::Result<()> {
    let Place { line, column } = refused.place();
    let (number, place) = (refused.refusal.number, refused.refusal.place);
    let (reason, help) = (string(refused.reason()), string(&refused.help()));
    begin(out, file, refused.draft)?;
    write!(
        out,
        r#""refused":{{"number":{number},"place":{place},"line":{line},"column":{column},"#
    )?;
    writeln!(out, r#""reason":{reason},"help":{help}}}}}"#)
}

fn begin(out: &mut dyn Write, file: &OsStr, draft: &[u8]) -> io::Result<()> {
    let file = string(&file.to_string_lossy());
    write!(out, r#"{{"file":{file},"length":{},"#, draft.len())
}

/// The words of a record, and its place as line and column; what follows is to be closed.
fn record(
    out: &mut dyn Write,
    record: &Record,
    parent: Option<usize>,
    place: Place,
) -> io::Result<()> {
    let Record {
        kind,
        start,
        end,
        low,
        high,
        size,
        up,
    } = record;
    let Place { line, column } = place;
    let parent: Cow<str> = parent.map_or("null".into(), |parent| parent.to_string().into());
    let (number, name) = (kind.number(), string(kind.name()));
    write!(
        out,
        r#"{{"kind":{number},"name":{name},"start":{start},"end":{end},"#
    )?;
    write!(
        out,
        r#""line":{line},"column":{column},"low":{low},"high":{high},"#
    )?;
    write!(out, r#""size":{size},"up":{up},"parent":{parent}"#)
}

/// What only some kinds have.
fn details(out: &mut dyn Write, draft: &[u8], record: &Record) -> io::Result<()> {
    let number = matches!(record.kind, Kind::ArrayType | Kind::ListType | Kind::Number);
    let details = [
        ("text", token(draft, record)),
        ("number", number.then(|| record.number().to_string().into())),
        ("call", record.call().map(|call| call.name().into())),
        ("arm", record.arm().map(|arm| arm.name().into())),
        ("alias", record.alias().map(|alias| alias.name().into())),
    ];
    for (name, value) in details {
        if let Some(value) = value {
            write!(out, r#","{name}":{}"#, string(&value))?;
        }
    }
    Ok(())
}

/// A text as a JSON string.
fn string(text: &str) -> String {
    let mut string = String::with_capacity(text.len() + 2);
    string.push('"');
    for character in text.chars() {
        match character {
            '"' => string.push_str("\\\""),
            '\\' => string.push_str("\\\\"),
            '\n' => string.push_str("\\n"),
            '\r' => string.push_str("\\r"),
            '\t' => string.push_str("\\t"),
            '\x08' => string.push_str("\\b"),
            '\x0C' => string.push_str("\\f"),
            '\0'..='\x1F' => string.push_str(&format!("\\u{:04X}", character as u32)),
            _ => string.push(character),
        }
    }
    string.push('"');
    string
}

#[cfg(test)]
mod tests {
    use super::string;

    #[test]
    fn strings_are_escaped() {
        assert_eq!(string(""), r#""""#);
        assert_eq!(string(r#"a "b" \c/"#), r#""a \"b\" \\c/""#);
        assert_eq!(string("\n\r\t\x08\x0C"), r#""\n\r\t\b\f""#);
        assert_eq!(string("\0\x0B\x1B\x1F"), r#""\u0000\u000B\u001B\u001F""#);
        assert_eq!(
            string("\x7Fαβ€\u{1D11E}\u{FFFD}"),
            "\"\x7Fαβ€\u{1D11E}\u{FFFD}\""
        );
    }
}
