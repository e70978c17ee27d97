//! Places of a draft as line and column, which count characters where the reader counts bytes.

/// Both from 1.
#[derive(Clone, Copy, Debug, PartialEq, Eq)]
pub(crate) struct Place {
    pub(crate) line: usize,
    pub(crate) column: usize,
}

/// The place of every byte of a draft, and the one behind it: all of them are found in one walk, however many are asked
/// for.
pub(crate) fn places(draft: &[u8]) -> Vec<Place> {
    let mut places = Vec::with_capacity(draft.len() + 1);
    let mut place = Place { line: 1, column: 1 };
    while let Some(&byte) = draft.get(places.len()) {
        let (length, _) = character(&draft[places.len()..]);
        places.resize(places.len() + length, place);
        place = match byte {
            b'\n' => Place {
                line: place.line + 1,
                column: 1,
            },
            _ => Place {
                column: place.column + 1,
                ..place
            },
        };
    }
    places.push(place);
    places
}

/// The bytes of the character that these begin with, and which it is. A byte that begins none is one for itself.
pub(crate) fn character(bytes: &[u8]) -> (usize, Option<char>) {
    let length = match bytes {
        [0xC2..=0xDF, ..] => 2,
        [0xE0..=0xEF, ..] => 3,
        [0xF0..=0xF4, ..] => 4,
        _ => 1,
    };
    let text = bytes
        .get(..length)
        .and_then(|bytes| std::str::from_utf8(bytes).ok());
    match text.and_then(|text| text.chars().next()) {
        Some(character) => (length, Some(character)),
        None => (1, None),
    }
}

#[cfg(test)]
mod tests {
    use super::*;

    /// Lines and columns of a draft's bytes and of its end.
    fn pairs(draft: &[u8]) -> Vec<(usize, usize)> {
        let pair = |place: Place| (place.line, place.column);
        places(draft).into_iter().map(pair).collect()
    }

    #[test]
    fn an_empty_draft_has_its_end() {
        assert_eq!(pairs(b""), [(1, 1)]);
    }

    #[test]
    fn a_line_ends_with_lf() {
        assert_eq!(pairs(b"ab"), [(1, 1), (1, 2), (1, 3)]);
        assert_eq!(pairs(b"a\n"), [(1, 1), (1, 2), (2, 1)]);
        assert_eq!(pairs(b"\n\nb\n"), [(1, 1), (2, 1), (3, 1), (3, 2), (4, 1)]);
    }

    #[test]
    fn a_cr_is_a_character_of_its_line() {
        assert_eq!(
            pairs(b"a\r\nb\rc"),
            [(1, 1), (1, 2), (1, 3), (2, 1), (2, 2), (2, 3), (2, 4)]
        );
    }

    #[test]
    fn within_a_character_is_its_column() {
        // alpha has two bytes, the euro sign three, the musical clef four.
        assert_eq!(pairs("αb".as_bytes()), [(1, 1), (1, 1), (1, 2), (1, 3)]);
        assert_eq!(
            pairs("€\n".as_bytes()),
            [(1, 1), (1, 1), (1, 1), (1, 2), (2, 1)]
        );
        // The last one that there is, too.
        for text in ["\u{1D11E}a", "\u{10FFFF}a"] {
            assert_eq!(
                pairs(text.as_bytes()),
                [(1, 1), (1, 1), (1, 1), (1, 1), (1, 2), (1, 3)]
            );
        }
    }

    #[test]
    fn a_bad_byte_counts_as_one() {
        // The first bytes of a euro sign without its last; a byte that begins nothing; a surrogate; one too long.
        assert_eq!(pairs(b"\xE2\x82a"), [(1, 1), (1, 2), (1, 3), (1, 4)]);
        assert_eq!(pairs(b"\xE2\x82"), [(1, 1), (1, 2), (1, 3)]);
        assert_eq!(pairs(b"\x80\n"), [(1, 1), (1, 2), (2, 1)]);
        assert_eq!(pairs(b"\xED\xA0\x80"), [(1, 1), (1, 2), (1, 3), (1, 4)]);
        assert_eq!(pairs(b"\xC0\x80"), [(1, 1), (1, 2), (1, 3)]);
        // A bad byte takes nothing from the character behind it.
        assert_eq!(
            pairs(b"\xCE\xCE\xB1b"),
            [(1, 1), (1, 2), (1, 2), (1, 3), (1, 4)]
        );
    }
}
