//! Records, of their seven words, and the way from one to what holds it.

use crate::{Alias, Arm, Call, Kind, RECORD_WORDS};
use std::ops::Range;

/// One record of a tree. What `low` and `high` hold depends on the kind: docs/KINDS.md has a table of them.
#[derive(Clone, Copy, Debug, PartialEq, Eq, Hash)]
pub struct Record {
    /// What it is of.
    pub kind: Kind,
    /// The first byte of the record's place in the draft.
    pub start: usize,
    /// The byte after its place.
    pub end: usize,
    /// What the kind says, else 0.
    pub low: u32,
    /// What the kind says, else 0.
    pub high: u32,
    /// How many records this one and all beneath it are; its children follow it in order.
    pub size: usize,
    /// The way up: how many records back the parent begins. 0 for the first record, which nothing holds.
    /// [`Record::parent`] and [`holders`] take it.
    pub up: usize,
}

impl Record {
    /// The place in bytes, to cut the record's text out of its draft; it cuts no character in two. A loaded listing may be
    /// that of another draft, or of none, and its places may lie behind the end of yours, or within a character: then cut
    /// with `draft.get(record.place())`, which does not panic.
    pub fn place(&self) -> Range<usize> {
        self.start..self.end
    }

    /// `low` and `high` as one number, for the kinds that hold one: `ArrayType`, `ListType` and `Number`.
    pub fn number(&self) -> u64 {
        u64::from(self.high) << 32 | u64::from(self.low)
    }

    /// What a call calls; `None` where this is no call, or `low` no call's number.
    ///
    /// ```
    /// use togmelic::Call;
    ///
    /// let tree = togmelic::read(b"fn f(){unwrap(jet::one())}").expect("an accepted draft");
    /// let calls: Vec<Call> = tree.iter().filter_map(|record| record.call()).collect();
    /// assert_eq!(calls, [Call::Unwrap, Call::Jet]);
    /// ```
    pub fn call(&self) -> Option<Call> {
        match self.kind {
            Kind::Call => Call::from_number(self.low),
            _ => None,
        }
    }

    /// What a built-in arm is for; `None` where this is no built-in arm, or `low` no arm's number.
    pub fn arm(&self) -> Option<Arm> {
        match self.kind {
            Kind::BuiltinArm => Arm::from_number(self.low),
            _ => None,
        }
    }

    /// Which built-in type a record of [`Kind::Builtin`] is; `None` where it is of another kind, or `low` no type's number.
    pub fn alias(&self) -> Option<Alias> {
        match self.kind {
            Kind::Builtin => Alias::from_number(self.low),
            _ => None,
        }
    }

    /// The number of the record that holds this one, if this is record `at` of a tree, counted from 0; `None` for the
    /// first, which nothing holds. It is always less than `at`, so a walk from parent to parent ends. Where `at` is
    /// not this record's number, the answer means nothing; [`holders`] takes both from the tree.
    ///
    /// ```
    /// let tree = togmelic::read(b"fn f(){Left(a)}").expect("an accepted draft");
    /// // Program, function, name, block, `Left`, `a`.
    /// assert_eq!(tree[5].parent(5), Some(4));
    /// assert_eq!(tree[3].parent(3), Some(1));
    /// assert_eq!(tree[0].parent(0), None);
    /// ```
    pub fn parent(&self, at: usize) -> Option<usize> {
        if self.up == 0 {
            return None;
        }
        at.checked_sub(self.up)
    }

    /// The record of seven words, as [`load_into`](crate::load_into) writes them; `None` where the first is no kind's
    /// number.
    pub fn from_words(words: [u32; RECORD_WORDS]) -> Option<Record> {
        let [kind, start, end, low, high, size, up] = words;
        Some(Record {
            kind: Kind::from_number(kind)?,
            start: start as usize,
            end: end as usize,
            low,
            high,
            size: size as usize,
            up: up as usize,
        })
    }
}

/// The records of a tree's words, as [`list_large`](crate::list_large), [`list_lean`](crate::list_lean) and
/// [`load_into`](crate::load_into) leave them in a lent buffer: seven words each, up to the zeros behind them, one by one and without an allocation.
///
/// ```
/// use togmelic::{load_into, records_in, Kind};
///
/// let lines = togmelic::listing(b"fn f(){}");
/// let mut words = [0; 40];
/// assert_eq!(load_into(&lines, &mut words), Ok(4));
/// let kinds: Vec<Kind> = records_in(&words).map(|record| record.kind).collect();
/// assert_eq!(kinds, [Kind::Program, Kind::Function, Kind::Name, Kind::Block]);
/// ```
pub fn records_in(words: &[u32]) -> impl Iterator<Item = Record> + '_ {
    let (records, _) = words.as_chunks();
    records.iter().map_while(|words| Record::from_words(*words))
}

/// The numbers of the records that hold record `at` of a tree, its parent first and the top last: none for the top
/// itself, nor where the tree has no such record. Of any records it makes a walk that ends; what [`read`](crate::read)
/// and [`load`](crate::load) answer is a tree.
///
/// ```
/// use togmelic::{holders, Kind};
///
/// // From the name `e` to what holds it. The arm of `true` was written first, and stands behind that of `false`.
/// let draft = b"fn f(){match b{true=>g(e),false=>h,}}";
/// let tree = togmelic::read(draft).expect("an accepted draft");
/// let at = tree.iter().position(|record| &draft[record.place()] == b"e").expect("a name");
/// let texts: Vec<&[u8]> = holders(&tree, at).map(|at| &draft[tree[at].place()]).collect();
/// assert_eq!(texts[0], b"g(e)");
/// assert_eq!(texts[1], b"true=>g(e),");
/// assert_eq!(texts[2], b"match b{true=>g(e),false=>h,}");
/// let kinds: Vec<Kind> = holders(&tree, at).map(|at| tree[at].kind).collect();
/// use Kind::{Block, BuiltinArm, Call, Function, Match, Program};
/// assert_eq!(kinds, [Call, BuiltinArm, Match, Block, Function, Program]);
/// ```
pub fn holders(tree: &[Record], at: usize) -> impl Iterator<Item = usize> + '_ {
    let parent = |at: &usize| tree.get(*at)?.parent(*at);
    std::iter::successors(parent(&at), parent)
}
