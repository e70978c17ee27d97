//! Seeks the smallest draft of each refusal, read as a file: tries every draft of up to three bytes, then
//! for 9 to 14 and 19 every token list that has the right shape so far and leaves room for what the number
//! needs.

use partner::{read_with_room, Entry, Limits};
use std::collections::BTreeMap;

/// The shortest spelling of a number that 64 bits do not hold.
const TOO_LARGE: &str = "18446744073709551616";
/// Every token that a refusal tells apart, in its shortest spelling. `a` stands for all other names, `0`
/// for all digits but those of a number that is too large, `true` for both booleans.
#[rustfmt::skip]
const TOKENS: [&str; 46] = [
    "pub", "fn", "type", "let", "match", "a", "0", "true", "(", ")", "[", "]", "{", "}", "<", ">", ",", ";",
    ":", "::", "=", "->", "=>", "None", "Left", "Right", "Some", "Either", "Option", "List", "into",
    "fold", "array_fold", "for_while", "unwrap", "unwrap_left", "unwrap_right", "is_none",
    "raw_hash", "jet::a", "witness::a", "assert!", "panic!", "dbg!", "list!", TOO_LARGE,
];
/// Heads of built-in arms; the shortest have four bytes.
const BUILT_IN: [&str; 5] = ["Left", "Right", "None", "Some", "true"];

/// Every draft of up to three bytes: the smallest of each number.
fn try_bytes() {
    let mut smallest = BTreeMap::new();
    for length in 0..=3 {
        for bytes in 0u32..1 << (8 * length) {
            let draft = &bytes.to_be_bytes()[4 - length..];
            smallest
                .entry(number(draft))
                .or_insert_with(|| draft.to_vec());
        }
    }
    println!("numbers with their first draft of up to 3 bytes (0: accepted)");
    for (number, draft) in smallest {
        println!("{number}: length {}: {}", draft.len(), draft.escape_ascii());
    }
}

/// The number of the refusal, 0 for none.
fn number(draft: &[u8]) -> u32 {
    let refusal = read_with_room(draft, Entry::File, Limits::SMALL).err();
    refusal.map_or(0, |(number, _)| number)
}

/// One search: drafts of one number with at most so many bytes.
struct Search {
    number: u32,
    most_bytes: usize,
    tried: u64,
    found: Vec<String>,
}

impl Search {
    /// Tries each token behind those of a draft that can still become well-shaped.
    fn extend(&mut self, tokens: &mut Vec<&'static str>, draft: &str) {
        for token in TOKENS {
            let longer = join(draft, token);
            tokens.push(token);
            if longer.len() + open_brackets(tokens) + missing(self.number, tokens)
                <= self.most_bytes
            {
                self.visit(tokens, &longer);
            }
            tokens.pop();
        }
    }

    fn visit(&mut self, tokens: &mut Vec<&'static str>, draft: &str) {
        self.tried += 1;
        match read_with_room(draft.as_bytes(), Entry::File, Limits::SMALL) {
            // Only the end is wrong, or nothing is: the tokens can be continued.
            Err((8, place)) if place == draft.len() => self.extend(tokens, draft),
            Ok(_) => self.extend(tokens, draft),
            Err((number, _)) if number == self.number => self.found.push(draft.to_string()),
            _ => {}
        }
    }
}

/// A space only where two words would become one.
fn join(draft: &str, token: &str) -> String {
    let is_word = |byte: &u8| byte.is_ascii_alphanumeric() || *byte == b'_';
    let both = draft.as_bytes().last().is_some_and(is_word)
        && token.as_bytes().first().is_some_and(is_word);
    format!("{draft}{}{token}", if both { " " } else { "" })
}

/// Bytes that must follow to close what is open.
fn open_brackets(tokens: &[&str]) -> usize {
    let count = |marks: [&str; 4]| tokens.iter().filter(|token| marks.contains(token)).count();
    count(["(", "[", "{", "<"]).saturating_sub(count([")", "]", "}", ">"]))
}

/// Bytes without which no draft gets the number, as far as they are still missing.
fn missing(number: u32, tokens: &[&str]) -> usize {
    let seen = |wanted: &[&str]| tokens.iter().filter(|token| wanted.contains(token)).count();
    let short =
        |wanted: &[&str], times: usize, bytes: usize| times.saturating_sub(seen(wanted)) * bytes;
    // A fat arrow and two bytes behind it, such as `{}`; the shortest heads have four.
    let arms = |count: usize, built_in: usize| {
        short(&["match"], 1, 5) + short(&["=>"], count, 4) + short(&BUILT_IN, built_in, 4)
    };
    match number {
        9 => short(&["List", "fold"], 1, 4) + short(&["<"], 1, 1),
        10 => short(&["array_fold"], 1, 10) + short(&["::"], 1, 2) + short(&["<"], 1, 1),
        11 => arms(0, 0),
        12 => arms(2, 1) + short(&["::"], 1, 2),
        13 => arms(1, 1),
        14 => arms(2, 2),
        _ => short(&[TOO_LARGE], 1, TOO_LARGE.len()) + short(&["["], 1, 1) + short(&[";"], 1, 1),
    }
}

/// The fewest bytes with which a draft gets the number: one byte more is allowed until one is found.
fn try_tokens(number: u32) {
    for most_bytes in 0.. {
        let mut search = Search {
            number,
            most_bytes,
            tried: 0,
            found: Vec::new(),
        };
        search.extend(&mut Vec::new(), "");
        if let Some(first) = search.found.first() {
            let (tried, found) = (search.tried, search.found.len());
            println!("{number}: {most_bytes} bytes, {tried} token lists, {found} found: {first}");
            return;
        }
    }
}

fn main() {
    try_bytes();
    (9..=14).chain([19]).for_each(try_tokens);
}
