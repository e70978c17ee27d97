//! The line of a draft that is shown with a caret under a place of it.

use crate::place::character;

/// Fewer columns than these would not hold a place between two marks of what is left out.
const LEAST_WIDTH: usize = 3;
const TAB: usize = 4;
pub(crate) const LEFT_OUT: char = '…';
/// Stands for what is not shown itself.
const REPLACEMENT: char = '\u{FFFD}';

/// A line as it is shown, without blanks at its end, and how many columns stand before the caret.
#[derive(Debug, PartialEq, Eq)]
pub(crate) struct Shown {
    pub(crate) text: String,
    pub(crate) caret: usize,
}

/// The line in which a place stands, in so many columns at most.
pub(crate) fn shown(draft: &[u8], place: usize, width: usize) -> Shown {
    let (before, behind) = draft.split_at(place.min(draft.len()));
    let start = before
        .iter()
        .rposition(|byte| *byte == b'\n')
        .map_or(0, |at| at + 1);
    let line = match behind.iter().position(|byte| *byte == b'\n') {
        Some(at) => without_cr(&draft[start..before.len() + at]),
        None => &draft[start..],
    };
    let (columns, caret) = columns(line, before.len() - start);
    cut(&columns, caret, width.max(LEAST_WIDTH))
}

/// The line without a CR that stands right before its LF.
fn without_cr(line: &[u8]) -> &[u8] {
    line.strip_suffix(b"\r").unwrap_or(line)
}

/// What each column of a line shows, and how many stand before a place of it.
fn columns(line: &[u8], place: usize) -> (Vec<char>, usize) {
    let mut columns = Vec::new();
    let mut caret = 0;
    let mut at = 0;
    while at < line.len() {
        let (length, character) = character(&line[at..]);
        match character {
            Some('\t') => columns.extend([' '; TAB]),
            Some(character) => columns.push(picture(character)),
            None => columns.push(REPLACEMENT),
        }
        at += length;
        if at <= place {
            caret = columns.len();
        }
    }
    (columns, caret)
}

/// How a character is shown: one that would move what is written, or not be seen, by a picture or a replacement.
pub(crate) fn picture(character: char) -> char {
    match character {
        '\0'..='\x1F' => char::from_u32(0x2400 + character as u32).unwrap_or(REPLACEMENT),
        '\x7F' => '\u{2421}',
        '\u{80}'..='\u{9F}' | '\u{AD}' | '\u{61C}' | '\u{FEFF}' => REPLACEMENT,
        '\u{200B}'..='\u{200F}' | '\u{2028}'..='\u{202E}' | '\u{2060}'..='\u{206F}' => REPLACEMENT,
        _ => character,
    }
}

/// The part of a line that is shown in so many columns: where it is wider, the caret is in the middle, or left of it where the
/// line begins there.
fn cut(columns: &[char], caret: usize, width: usize) -> Shown {
    // The caret has a column of its own where it stands behind the line.
    let wide = columns.len().max(caret + 1);
    let from = match wide > width {
        true => caret.saturating_sub(width / 2),
        false => 0,
    };
    let mut part: Vec<char> = columns[from.min(columns.len())..]
        .iter()
        .take(width)
        .copied()
        .collect();
    if let (1.., Some(first)) = (from, part.first_mut()) {
        *first = LEFT_OUT;
    }
    if let (true, Some(last)) = (from + width < wide, part.last_mut()) {
        *last = LEFT_OUT;
    }
    let text: String = part.into_iter().collect();
    Shown {
        text: text.trim_end_matches(' ').to_owned(),
        caret: caret - from,
    }
}

#[cfg(test)]
mod tests {
    use super::*;

    fn sees(draft: &[u8], place: usize, width: usize, text: &str, caret: usize) {
        let text = text.to_owned();
        assert_eq!(shown(draft, place, width), Shown { text, caret });
    }

    #[test]
    fn the_line_of_the_place() {
        sees(b"ab\ncd\nef", 0, 9, "ab", 0);
        sees(b"ab\ncd\nef", 4, 9, "cd", 1);
        sees(b"ab\ncd\nef", 7, 9, "ef", 1);
        // At its LF, and behind the last byte.
        sees(b"ab\ncd\nef", 5, 9, "cd", 2);
        sees(b"ab\ncd\nef", 8, 9, "ef", 2);
        sees(b"ab\n", 3, 9, "", 0);
        sees(b"", 0, 9, "", 0);
    }

    #[test]
    fn blanks_at_the_end_are_not_shown() {
        sees(b"  a  ", 5, 9, "  a", 5);
        sees(b"a \t\nb", 0, 9, "a", 0);
        sees(b" \t ", 1, 9, "", 1);
    }

    #[test]
    fn a_cr_before_lf_is_not_shown() {
        sees(b"ab\r\ncd", 1, 9, "ab", 1);
        // The place is the LF: the caret stands behind what is shown.
        sees(b"ab\r\ncd", 3, 9, "ab", 2);
        sees(b"a\rb\r", 0, 9, "a\u{240D}b\u{240D}", 0);
    }

    #[test]
    fn a_tab_is_four_columns() {
        sees(b"\tab", 0, 9, "    ab", 0);
        sees(b"\tab", 1, 9, "    ab", 4);
        sees(b"a\tb", 2, 9, "a    b", 5);
    }

    #[test]
    fn what_would_move_the_text_is_replaced() {
        sees(
            b"\0\x01\x1B[2J\x7Fa",
            7,
            20,
            "\u{2400}\u{2401}\u{241B}[2J\u{2421}a",
            7,
        );
        // A control character above 127 and a mark that turns the direction have several bytes, and one column.
        sees("\u{9B}\u{202E}a".as_bytes(), 5, 9, "\u{FFFD}\u{FFFD}a", 2);
        sees(
            "\u{AD}\u{61C}\u{200B}\u{200F}\u{2028}\u{2060}\u{206F}\u{FEFF}".as_bytes(),
            0,
            9,
            &"\u{FFFD}".repeat(8),
            0,
        );
        // Not so those beside them.
        sees(
            "\u{A0}b\u{202F}\u{2070}".as_bytes(),
            2,
            9,
            "\u{A0}b\u{202F}\u{2070}",
            1,
        );
        // Bytes that are not UTF-8, one column each: the last two are a euro sign without its last byte.
        sees(
            b"\xFF\x80a\xE2\x82",
            3,
            9,
            "\u{FFFD}\u{FFFD}a\u{FFFD}\u{FFFD}",
            3,
        );
    }

    #[test]
    fn a_place_within_a_character_is_its_column() {
        sees("αβγ".as_bytes(), 2, 9, "αβγ", 1);
        sees("αβγ".as_bytes(), 3, 9, "αβγ", 1);
    }

    #[test]
    fn a_line_is_cut_where_it_is_wider() {
        let line = b"0123456789";
        sees(line, 0, 10, "0123456789", 0);
        sees(line, 0, 9, "01234567…", 0);
        // 9 columns: the middle has four before it. 8: as far left as can be is four before it, too.
        sees(line, 4, 9, "01234567…", 4);
        sees(line, 5, 9, "…23456789", 4);
        sees(line, 4, 8, "0123456…", 4);
        sees(line, 5, 8, "…234567…", 4);
        sees(line, 7, 8, "…456789", 4);
        sees(line, 9, 9, "…6789", 4);
        sees(line, 10, 9, "…789", 4);
        // The caret itself would stand behind the tenth column.
        sees(line, 10, 10, "…6789", 5);
        sees(line, 10, 11, "0123456789", 10);
    }

    #[test]
    fn tabs_and_greek_are_cut_by_columns() {
        sees(b"\t\tabcdefgh", 2, 9, "…   abcd…", 4);
        sees("αβγδεζηθικ".as_bytes(), 10, 7, "…δεζηθ…", 3);
    }

    #[test]
    fn a_width_that_is_too_small_holds_the_place() {
        for width in 0..=3 {
            sees(b"0123456789", 5, width, "…5…", 1);
        }
    }
}
