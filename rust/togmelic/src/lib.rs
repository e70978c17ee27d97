//! A safe wrapper around the proved reader of escrow drafts: lists any bytes as a draft, or reads them to records,
//! and loads a listing that is kept without its draft.
//!
//! A draft is a file of any number of functions and types. Its first record is a program, which holds all the others:
//! the items are its children, in the order of the draft. Comments may hold any text in UTF-8, and everything else is
//! ASCII; places count bytes, not characters.
//!
//! In the repository, docs/LANGUAGE.md says which drafts are read and within what limits, docs/KINDS.md which records there
//! are and what they hold, and docs/REFUSALS.md what each refusal means and what to do about it.
//!
//! [`list`], [`listing`] and [`read`] take drafts of up to 16,384 bytes and 2,048 tokens, [`Limits::Small`].
//! [`list_large`] takes 1,048,576 bytes and 131,072 tokens, [`Limits::Large`], for contracts that a program generates, and
//! [`listing_within`] and [`read_within`] take either, as they are told. [`list_lean`] is [`list_large`] with one word a
//! token in place of three, for a server that holds many drafts.
//!
//! [`list`], [`list_large`], [`list_lean`] and [`load_into`] write into lent buffers and allocate nothing; the others bring
//! their own. Each of them may be called with any bytes and from any thread, and no answer depends on an earlier call.
//! Within the small limits the reader keeps its tokens and its tree on the stack, and it calls itself for what is nested:
//! the deepest drafts take less than 400,000 bytes, so lend its thread 1 MiB. Within the large limits tokens and tree are not
//! on the stack, and it takes up to 320,000 bytes, however long the draft is. Loading takes less than 4,096 bytes, however
//! deep the listing is nested.
//!
//! ```
//! use togmelic::Kind;
//!
//! let draft = b"fn f(){Left(1)}";
//! let tree = togmelic::read(draft).expect("an accepted draft");
//! assert_eq!(tree.len(), 6);
//! assert_eq!((tree[0].kind, tree[1].kind), (Kind::Program, Kind::Function));
//! assert_eq!((tree[4].kind, tree[4].kind.number()), (Kind::Left, 19));
//! assert_eq!(&draft[tree[4].place()], b"Left(1)");
//! assert_eq!(format!("{}, {}", tree[4].kind, tree[5].kind), "Left, decimal");
//!
//! let refusal = togmelic::read(b"fn f(){fold(x)}").unwrap_err();
//! assert_eq!((refusal.number, refusal.place), (8, 11));
//!
//! // A comment in Greek, and one that is not UTF-8.
//! let greek = "/* η επιστροφή */ fn f(){}";
//! let function = togmelic::read(greek.as_bytes()).expect("an accepted draft")[1];
//! assert_eq!(&greek[function.place()], "fn f(){}");
//! let refusal = togmelic::read(b"fn f(){} // \xE9").unwrap_err();
//! assert_eq!((refusal.number, refusal.place), (21, 12));
//!
//! // From a record to what holds it, the parent first: the block, the function and the program.
//! assert_eq!(tree[4].parent(4), Some(3));
//! assert_eq!(togmelic::holders(&tree, 4).collect::<Vec<_>>(), [3, 1, 0]);
//!
//! // A listing comes back as the same records. One that is no file and no function, or with a bad line, is refused.
//! let mut kept = togmelic::listing(draft);
//! assert_eq!(togmelic::load(&kept), Ok(tree));
//! kept[togmelic::LINE] = b'x';
//! let refusal = togmelic::load(&kept).unwrap_err();
//! assert_eq!((refusal.number, refusal.line), (16, 2));
//! ```

mod kinds;
mod lent;
mod limits;
mod lines;
mod load;
mod numbered;
mod record;
mod refusal;
mod within;

pub use kinds::{Alias, Arm, Call, Kind};
pub use lent::{list_large, list_lean};
pub use limits::Limits;
pub use lines::{records, NoRecord};
pub use load::{load, load_into, RECORD_WORDS};
pub use record::{holders, records_in, Record};
pub use refusal::{LoadRefusal, Refusal};
pub use within::{listing_within, read_within};

/// Bytes of the longest draft that [`list`], [`listing`] and [`read`] take; one with more is refused with 1.
pub const MOST_DRAFT: usize = Limits::Small.bytes();
/// Bytes of a line, its line end among them.
pub const LINE: usize = 41;
/// Bytes of a line as it was written before records had the way up; [`load`] takes such lines too.
pub const SHORT_LINE: usize = 36;
/// Bytes of a line of [`list_large`] and [`list_lean`] where four digits do not hold every start, end, size and way up of its listing.
pub const LONG_LINE: usize = 49;
/// Words of a token: kind, start, end.
pub const TOKEN_WORDS: usize = 3;
/// Words of a token of which [`list_lean`] keeps the start alone.
pub const START_WORDS: usize = 1;
/// No listing of [`list`] has more lines: one for each of 2,048 tokens at most, and the program's.
pub const MOST_LINES: usize = Limits::Small.lines();
/// A buffer of so many bytes is enough for every listing of [`list`].
pub const MOST_BYTES: usize = LINE * MOST_LINES;

extern "C" {
    fn togmelic_list(
        draft: *const u8,
        draft_length: usize,
        out: *mut u8,
        out_length: usize,
    ) -> usize;
}

/// Lists a draft within [`Limits::Small`] into `out` and answers the lines, with zeros in the rest of `out`.
/// `None` only where the lines do not fit; then every byte of `out` is zero.
/// A refused draft is listed too: one line, of kind 00.
pub fn list<'out>(draft: &[u8], out: &'out mut [u8]) -> Option<&'out [u8]> {
    // SAFETY: each pointer is that of a slice, never null and good for the length beside it; `out` is borrowed
    // alone, so the two do not overlap. The entry reads and writes nothing else and keeps no pointer.
    let used = unsafe { togmelic_list(draft.as_ptr(), draft.len(), out.as_mut_ptr(), out.len()) };
    // Every listing has a line, so no bytes used means that the lines do not fit.
    (used > 0).then(|| &out[..used])
}

/// The whole listing of a draft within [`Limits::Small`]: one line a record, or one line for a refusal.
pub fn listing(draft: &[u8]) -> Vec<u8> {
    let mut out = vec![0; MOST_BYTES];
    let used = list(draft, &mut out).map_or(0, <[u8]>::len);
    out.truncate(used);
    out
}

/// The records of a draft within [`Limits::Small`], a parent before its children, or the refusal. The first is the
/// program's, so there is one also where the draft has no item.
pub fn read(draft: &[u8]) -> Result<Vec<Record>, Refusal> {
    let tree: Result<_, NoRecord> = records(&listing(draft)).collect();
    tree.map_err(|reason| match reason {
        NoRecord::Refused(refusal) => refusal,
        NoRecord::BadLine(line) => {
            unreachable!("line {line}: each that the library writes is proved to be in form")
        }
    })
}
