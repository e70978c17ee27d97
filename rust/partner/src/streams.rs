//! Streams of drafts and of listings on standard input, with one answer after the other.

use crate::{
    list_into, list_large_into, listing, load, read, read_lean, write_in, write_lines, Entry, Form,
    Limits, Reading, Record, Words,
};

/// The listings of a stream of drafts: length, line end, bytes, both ways.
pub fn many(mut stream: &[u8]) -> Option<Vec<u8>> {
    let mut answers = Vec::new();
    while !stream.is_empty() {
        let draft = next_draft(&mut stream)?;
        let lines = listing(draft, Limits::SMALL);
        answers.extend_from_slice(format!("{}\n", lines.len()).as_bytes());
        answers.extend_from_slice(&lines);
    }
    Some(answers)
}

/// Takes a draft off the stream: its length, a line end, its bytes.
pub fn next_draft<'a>(stream: &mut &'a [u8]) -> Option<&'a [u8]> {
    let [length] = take_numbers(stream)?;
    take(stream, length)
}

/// The answers to a stream of cases. A case is a line of four numbers, the words of the token
/// buffer, the words of the tree buffer, the bytes of the byte buffer and the bytes of the draft;
/// then the draft and a line end. Answered are the draft read as one function and as a file, both
/// within the large limits; the same by the entries that keep the starts alone, in as many words as
/// the others have for tokens, where they answer something else; the listing within the small limits,
/// and that within the large ones, whose lines are left out where they are the same.
pub fn cases(mut stream: &[u8]) -> Option<Vec<u8>> {
    let mut answers = Vec::new();
    while !stream.is_empty() {
        let [token_words, tree_words, room, length] = take_numbers(&mut stream)?;
        let draft = take(&mut stream, length)?;
        if take(&mut stream, 1)? != b"\n" {
            return None;
        }
        add_readings(&mut answers, draft, (token_words, tree_words));
        add_lean(&mut answers, draft, (token_words, tree_words));
        add_listings(&mut answers, draft, (token_words, tree_words), room);
    }
    Some(answers)
}

fn add_readings(answers: &mut Vec<u8>, draft: &[u8], words: Words) {
    let function = read(draft, Entry::Function, Limits::LARGE, words);
    let file = read(draft, Entry::File, Limits::LARGE, words);
    let lines = [
        format!("function {}\n", answer(&function)),
        format!("file {}{}\n", answer(&file), sameness(&function, &file)),
    ];
    answers.extend_from_slice(lines.concat().as_bytes());
}

fn add_lean(answers: &mut Vec<u8>, draft: &[u8], words: Words) {
    for (name, entry) in [("function", Entry::Function), ("file", Entry::File)] {
        let lean = read_lean(draft, entry, Limits::LARGE, words);
        if lean != read(draft, entry, Limits::LARGE, words) {
            answers.extend_from_slice(format!("lean {name} {}\n", answer(&lean)).as_bytes());
        }
    }
}

fn add_listings(answers: &mut Vec<u8>, draft: &[u8], (tokens, tree): Words, room: usize) {
    let [mut small, mut large] = [vec![0; room], vec![0; room]];
    let used = list_into(draft, &mut small);
    answers.extend_from_slice(format!("listed {used} zeros\n").as_bytes());
    answers.extend_from_slice(&small[..used]);
    let (mut tokens, mut tree) = (vec![0; tokens], vec![0; tree]);
    let large_used = list_large_into(draft, &mut tokens, &mut tree, &mut large);
    answers.extend_from_slice(format!("large {large_used} zeros\n").as_bytes());
    if small[..used] != large[..large_used] {
        answers.extend_from_slice(&large[..large_used]);
    }
}

fn answer(reading: &Reading) -> String {
    match reading {
        Ok((tokens, records)) => {
            format!("accepted {} {} owned zeros", tokens.len(), records.len())
        }
        Err((number, place)) => format!("refused {number} {place} zeros"),
    }
}

/// Where both entries accept: whether the file's records behind its first are the function's. Only in the file the
/// function has a record above it, one record back.
fn sameness(function: &Reading, file: &Reading) -> &'static str {
    let (Ok((_, function)), Ok((_, file))) = (function, file) else {
        return "";
    };
    let mut below = function.clone();
    below[0][6] = 1;
    if function[0][6] == 0 && file[1..] == below {
        " same"
    } else {
        " NOT THE SAME"
    }
}

/// The answers to a stream of listings. A case is a line of two numbers, the words of the record
/// buffer and the bytes of the listing; then the listing and a line end.
pub fn listings(mut stream: &[u8]) -> Option<Vec<u8>> {
    let mut answers = String::new();
    while !stream.is_empty() {
        let [words, length] = take_numbers(&mut stream)?;
        let listing = take(&mut stream, length)?;
        if take(&mut stream, 1)? != b"\n" {
            return None;
        }
        match load(listing, words) {
            Ok(records) => {
                let what = written_again(&records, listing);
                answers += &format!("records {} zeros {what}\n", records.len());
                for record in records {
                    answers += &(record.map(|word| word.to_string()).join(" ") + "\n");
                }
            }
            Err((number, line)) => answers += &format!("refused {number} {line} zeros\n"),
        }
    }
    Some(answers.into_bytes())
}

/// Whether the records of a listing give that listing, or its lines with the way up added to each.
fn written_again(records: &[Record], listing: &[u8]) -> &'static str {
    if write_lines(records) == listing {
        "same"
    } else if write_in(Form::Older, records) == listing {
        "wider"
    } else {
        "NOT THE SAME"
    }
}

/// Takes a line of decimal numbers with one space between off the stream.
fn take_numbers<const N: usize>(stream: &mut &[u8]) -> Option<[usize; N]> {
    let line_end = stream.iter().position(|byte| *byte == b'\n')?;
    let line = std::str::from_utf8(take(stream, line_end)?).ok()?;
    take(stream, 1)?;
    let mut words = line.split(' ');
    let mut numbers = [0; N];
    for number in &mut numbers {
        *number = words.next()?.parse().ok()?;
    }
    words.next().is_none().then_some(numbers)
}

fn take<'a>(stream: &mut &'a [u8], length: usize) -> Option<&'a [u8]> {
    let (taken, rest) = stream.split_at_checked(length)?;
    *stream = rest;
    Some(taken)
}
