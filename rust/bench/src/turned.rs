//! Matches whose arms are all written the other way round, so that every match moves all records beneath its arms.
//! bench/reader/rotation.sh tries these shapes, and the worst for the proved reader is the case `rotation`.

use crate::cases::body;

/// Tokens of the drafts of the search at most, and of a match without its arms' expressions.
pub const TOKENS: usize = 2_000;
const MATCH: usize = 10;
/// Many records for its tokens, in few brackets: seven in ten, and a comma.
const CALLS: &str = "f(f(f(x))),";

/// The draft that a name of the search stands for: `chain-LEVELS-ASIDE-first`, `chain-LEVELS-ASIDE-last`, `tree-LEVELS`.
pub fn named(name: &str) -> Option<Vec<u8>> {
    match *name.split('-').collect::<Vec<_>>() {
        ["chain", levels, aside, place @ ("first" | "last")] => Some(turned(
            TOKENS,
            levels.parse().ok()?,
            aside.parse().ok()?,
            place == "last",
        )),
        ["tree", levels] => Some(tree(levels.parse().ok()?)),
        _ => None,
    }
}

/// Matches one in the other. One arm of each leads inward, and the other has so many nested calls aside, written first or
/// last. The innermost arm has as many of them as so many tokens allow.
pub fn turned(tokens: usize, levels: usize, aside: usize, is_last: bool) -> Vec<u8> {
    let rest = tokens.saturating_sub(8 + levels * (MATCH + 2 + 11 * aside));
    let mut inner = array(rest / 11);
    let aside = array(aside);
    for _ in 0..levels {
        inner = if is_last {
            match_of(&inner, &aside)
        } else {
            match_of(&aside, &inner)
        };
    }
    body(&inner)
}

/// Matches in both arms of matches: the two arms have equally many records at every level.
fn tree(levels: u32) -> Vec<u8> {
    let arms = 2_usize.pow(levels);
    let rest = TOKENS.saturating_sub(6 + (arms - 1) * MATCH + 2 * arms);
    let mut inner = array(rest / arms / 11);
    for _ in 0..levels {
        inner = match_of(&inner, &inner);
    }
    body(&inner)
}

fn match_of(first: &str, last: &str) -> String {
    format!("match x{{true=>{first},false=>{last},}}")
}

fn array(calls: usize) -> String {
    format!("[{}]", CALLS.repeat(calls))
}
