//! Random files as large as contracts may get: many functions and types, long comments, what is nested as deep as brackets
//! may be, arms that are exchanged, names; up to the limits or just over them, and some broken at a place.

mod items;
mod text;

use crate::comparison::Comparison;
use crate::large;
use crate::loading::Loading;
use crate::random::Random;
use partner::Limits;
use text::{Style, Text};

/// Tokens that one item is made of, about: from a name to a function of a megabyte.
const ITEMS: [usize; 6] = [0, 20, 200, 2_000, 20_000, 130_000];
/// What a broken file gets at a place, in bytes.
const BREAKS: [&[u8]; 12] = [
    b"(", b")", b"{", b"}", b">", b",", b";", b"/*", b"*/", b" simc ", b"#", b"\x80",
];

/// With so many tokens missing, any number can be made of fives and sixes.
const FILLED: usize = 20;

/// How many tokens and bytes a file should have, and whether it is filled up to just as many.
struct Goal {
    tokens: usize,
    bytes: usize,
    fill_tokens: bool,
    fill_bytes: bool,
}

pub fn all(seed: &str, count: usize, drafts: &mut Comparison, listings: &mut Loading) {
    let mut random = Random::from_bytes(format!("{seed} contracts").as_bytes());
    for _ in 0..count {
        let file = file(&mut random);
        large::check(&file, drafts, listings, &mut random);
    }
}

fn goal(random: &mut Random) -> Goal {
    let Limits { bytes, tokens } = Limits::LARGE;
    let some_tokens = tokens / (1 + random.below(8));
    let (tokens, bytes) = match random.below(16) {
        0..4 => (tokens, bytes),
        4 => (tokens + 1 + random.below(2), bytes),
        5 => (some_tokens, bytes + 1 + random.below(2)),
        6..8 => (some_tokens, bytes),
        // Around numbers of four digits.
        8..10 => (some_tokens, 0xFFF0 + random.below(32)),
        _ => (some_tokens, bytes - random.below(bytes)),
    };
    Goal {
        tokens,
        bytes,
        fill_tokens: random.one_in(2) || tokens >= Limits::LARGE.tokens,
        fill_bytes: random.one_in(2) || bytes > Limits::LARGE.bytes,
    }
}

fn file(random: &mut Random) -> Vec<u8> {
    let goal = goal(random);
    // Short tokens and few gaps where many tokens should fit.
    let style = Style::by_chance(random, goal.bytes / goal.tokens.max(1));
    let mut text = Text::new(random, style);
    add_items(&mut text, &goal);
    if goal.fill_tokens {
        fill_tokens(&mut text, goal.tokens, goal.bytes);
    }
    if goal.fill_bytes {
        fill_bytes(&mut text, goal.bytes);
    }
    let mut file = text.out;
    if random.one_in(5) {
        break_at_a_place(&mut file, random);
    }
    file
}

/// Adds an item of at most so many tokens, about; whether it stayed within the goal. One that did not is taken out again.
fn add_item(text: &mut Text, goal: &Goal, most: usize) -> bool {
    let (bytes, tokens) = (text.out.len(), text.tokens);
    text.left = text.random.one_of(&ITEMS).min(most) as isize;
    text.item();
    let fits = text.tokens + FILLED <= goal.tokens && text.out.len() <= goal.bytes;
    if !fits {
        text.out.truncate(bytes);
        text.tokens = tokens;
    }
    fits
}

/// Adds items until one does not fit that is as short as they get.
fn add_items(text: &mut Text, goal: &Goal) {
    let mut most = goal.tokens;
    while most > 0 {
        if !add_item(text, goal, most) {
            most /= 8;
        }
    }
}

/// Short items until there are just so many tokens, if they fit: five tokens in one, six in the other.
fn fill_tokens(text: &mut Text, tokens: usize, bytes: usize) {
    while text.tokens < tokens && text.out.len() + 9 <= bytes {
        let (item, more): (&[u8], usize) = match (tokens - text.tokens) % 5 {
            0 => (b"type A=A;", 5),
            _ => (b"fn f(){}", 6),
        };
        text.out.extend_from_slice(item);
        text.tokens += more;
    }
}

/// A comment or blanks until there are just so many bytes.
fn fill_bytes(text: &mut Text, bytes: usize) {
    let missing = bytes.saturating_sub(text.out.len());
    let (open, fill, close): (&[u8], u8, &[u8]) = match text.random.below(3) {
        0 if missing >= 4 => (b"/*", b'-', b"*/"),
        1 if missing >= 2 => (b"//", b'-', b""),
        _ => (b"", b' ', b""),
    };
    let inside = missing - open.len() - close.len();
    text.out.extend_from_slice(open);
    text.out.extend(std::iter::repeat_n(fill, inside));
    text.out.extend_from_slice(close);
}

/// A few bytes put in, another byte, some taken out, or the end cut off.
fn break_at_a_place(file: &mut Vec<u8>, random: &mut Random) {
    let at = random.below(file.len() + 1);
    let end = (at + random.below(8)).min(file.len());
    match random.below(4) {
        0 => _ = file.splice(at..at, random.one_of(&BREAKS).iter().copied()),
        1 => _ = file.splice(at..end, [random.below(256) as u8]),
        2 => _ = file.drain(at..end),
        _ => file.truncate(at),
    }
}
