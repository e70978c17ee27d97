//! Measures how drafts are listed and listings are loaded, for bench/reader/run.sh.
//!     bench KIND times                        a line for each case: microseconds of both, the least of batches in turn
//!     bench KIND CASE size                    tokens, or records
//!     bench KIND CASE here|partner REPEATS    calls one of the two: what it used of the buffer, and a checksum
//!     bench tokens|depth                      times over tokens and over open brackets
//!     bench large|lean names                  the cases of `large`, and those of both `list` and `large`, a line each
//! KIND is `list`, a draft in and its listing out; `load`, that listing in and its records out; or `short`, the same
//! listing in lines of 36 bytes, without the way up. `here` is the proved reader through its entries for C, `partner` the
//! plain Rust reader. Both are called by the same loop with the same buffer, of 84,009 bytes or 14,343 words, lent again
//! each time. `large`, which has cases of its own (large.rs), is a draft in, and its tokens, its tree and its listing out,
//! by the entry with the large limits, which is lent the three buffers. `lean` is the same by the entry that keeps the starts of tokens
//! alone. `large-read` and `lean-read` are these without lines, so that reading alone is counted; they and `lean` read the drafts
//! of `list` too, in buffers that are just long enough. The checksum is taken once, after the loop, so that it cancels where
//! two runs are subtracted.

mod calls;
mod cases;
mod large;
mod lent;
mod scaling;
mod times;
mod turned;

use calls::{LIST, LIST_ROOM, LOAD, LOAD_ROOM};
use std::process::ExitCode;
use times::{Call, Row};

fn main() -> ExitCode {
    let arguments: Vec<String> = std::env::args().skip(1).collect();
    let words: Vec<&str> = arguments.iter().map(String::as_str).collect();
    match answer(&words) {
        Some(lines) => println!("{lines}"),
        None => {
            eprintln!(
                "use: bench KIND times, bench KIND CASE size, bench KIND CASE here|partner REPEATS, \
                 bench tokens|depth, bench large|lean names; \
                 KIND is list, load, short, large, lean, large-read or lean-read"
            );
            return ExitCode::FAILURE;
        }
    }
    ExitCode::SUCCESS
}

fn answer(words: &[&str]) -> Option<String> {
    match *words {
        ["tokens"] => Some(scaling::over_tokens()),
        ["depth"] => Some(scaling::over_depth()),
        [kind, ref rest @ ..] => match lent::Way::of(kind) {
            Some(way) => answer_lent(way, names(kind), rest),
            None => answer_small(kind, rest),
        },
        _ => None,
    }
}

/// The names of the cases of a kind with lent buffers.
fn names(kind: &str) -> Vec<String> {
    match kind {
        "large" => large::names(),
        _ => lent::names(),
    }
}

fn answer_lent(way: lent::Way, names: Vec<String>, words: &[&str]) -> Option<String> {
    match *words {
        ["names"] => Some(names.join("\n")),
        ["times"] => way.times(names),
        [case, "size"] => lent::size(case),
        [case, which, repeats] => way.repeated(case, place(which)?, repeats.parse().ok()?),
        _ => None,
    }
}

fn answer_small(kind: &str, words: &[&str]) -> Option<String> {
    match *words {
        ["times"] if kind == "list" => Some(times::table(
            &rows(kind)?,
            LIST,
            &mut vec![0; LIST_ROOM][..],
        )),
        ["times"] => Some(times::table(
            &rows(kind)?,
            LOAD,
            &mut vec![0; LOAD_ROOM][..],
        )),
        [case, "size"] => size(kind, &cases::draft(case)?),
        [case, which, repeats] => {
            let input = input(kind, &cases::draft(case)?)?;
            let which = place(which)?;
            let repeats = repeats.parse().ok()?;
            Some(match kind {
                "list" => repeated(LIST[which], &input, vec![0; LIST_ROOM], repeats),
                _ => repeated(LOAD[which], &input, vec![0; LOAD_ROOM], repeats),
            })
        }
        _ => None,
    }
}

/// The place of one of the two in a pair of calls.
fn place(which: &str) -> Option<usize> {
    ["here", "partner"].iter().position(|name| *name == which)
}

/// The cases that are measured so, each with what is read. All are listed, and the listings of accepted ones loaded.
fn rows(kind: &str) -> Option<Vec<Row>> {
    let drafts = cases::CASES.iter().map(|(name, draft)| (*name, draft()));
    drafts
        .filter(|(_, draft)| kind == "list" || togmelic::read(draft).is_ok())
        .map(|(name, draft)| Some((name.to_string(), vec![input(kind, &draft)?])))
        .collect()
}

/// What is read of a draft.
fn input(kind: &str, draft: &[u8]) -> Option<Vec<u8>> {
    match kind {
        "list" => Some(draft.to_vec()),
        "load" => Some(togmelic::listing(draft)),
        "short" => Some(calls::short_lines(draft)),
        _ => None,
    }
}

fn size(kind: &str, draft: &[u8]) -> Option<String> {
    let size = match kind {
        "list" => calls::tokens(draft),
        "load" | "short" => togmelic::listing(draft).len() / togmelic::LINE,
        _ => return None,
    };
    Some(size.to_string())
}

/// What a call used of the buffer, and the checksum of the buffer.
fn repeated<Word: Copy + Into<u64>>(
    call: Call<[Word]>,
    input: &[u8],
    mut out: Vec<Word>,
    repeats: u32,
) -> String {
    let used = times::repeat((call, input), &mut out[..], repeats);
    format!("{used} {:016x}", times::checksum(&out))
}
