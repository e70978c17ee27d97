//! The starts of a draft's tokens, one word each, and its tree.

use togmelic::{list_lean, records_in, Limits};

fn main() {
    let draft = b"fn f(){Left(1)}";
    let mut starts = vec![0; Limits::Large.start_words(draft.len())];
    let mut tree = vec![0; Limits::Large.tree_words(draft.len())];
    let mut out = vec![0; Limits::Large.listing_bytes(draft.len())];
    let lines = list_lean(draft, &mut starts, &mut tree, &mut out).expect("lines that fit");
    let records = records_in(&tree).count();
    println!("{records} records, {} bytes of lines", lines.len());
    println!("{} words: {starts:?}", starts.len());
}
