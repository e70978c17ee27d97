//! What tests share: the example of document 01, drafts within the small limits, and what a call of one of the two entries with lent buffers leaves in
//! buffers that are filled with garbage before, so that what is not written shows.

// Each test program uses a part of it.
#![allow(dead_code)]

const GARBAGE: u32 = 0xAAAA_AAAA;

pub const DRAFT: &[u8] = b"fn f(){match b{true=>1,false=>2,}}";
/// As document 01 prints it, "The listing program", with the program's line on top.
pub const LINES: &[u8] = b"\
29 0000 0022 00000000 00000000 000A 0000
01 0000 0022 00000000 00000000 0009 0001
02 0003 0004 00000000 00000000 0001 0001
12 0006 0022 00000001 00000000 0007 0002
23 0007 0021 00000000 00000000 0006 0001
1D 000D 000E 00000000 00000000 0001 0001
25 0017 0020 00000005 00000000 0002 0002
18 001E 001F 00000000 00000000 0001 0001
25 000F 0017 00000006 00000000 0002 0004
18 0015 0016 00000000 00000000 0001 0001
";
/// The same as words.
#[rustfmt::skip]
pub const TREE: [u32; 70] = [
    41, 0, 34, 0, 0, 10, 0,
    1, 0, 34, 0, 0, 9, 1,
    2, 3, 4, 0, 0, 1, 1,
    18, 6, 34, 1, 0, 7, 2,
    35, 7, 33, 0, 0, 6, 1,
    29, 13, 14, 0, 0, 1, 1,
    37, 23, 32, 5, 0, 2, 2,
    24, 30, 31, 0, 0, 1, 1,
    37, 15, 23, 6, 0, 2, 4,
    24, 21, 22, 0, 0, 1, 1,
];
/// Drafts within the small limits, accepted and refused.
pub const DRAFTS: [&str; 10] = [
    "",
    "fn f(){}",
    "fn f(){fold(x)}",
    "type A=(u8,[A;2]);fn f(){}",
    "fn f(){match match a{true=>1,false=>2,}{true=>[1,2,3],false=>match c{Some(d:u1)=>e,None=>f,},}}",
    "/*α*/ pub fn g(a:u8,b:A)->A{Left(Left(1,),match b{A::B=>match c{None=>1,Some(_:u8)=>2,},})}fn h(){}",
    "fn f(){0x_1;assert!(jet::eq_8(witness::A,0b1_0))}// end",
    "fn f(){match x{}}",
    "fn f(){list![1,2],}",
    "/*/**/",
];

/// A line that is refused so, at a place that four digits hold.
pub fn refusal(number: u32, place: usize) -> Vec<u8> {
    format!("00 {place:04X} {place:04X} {number:08X} 00000000 0001 0000\n").into_bytes()
}

/// An entry that is lent words for tokens, words for the tree and bytes.
type Call = for<'out> fn(&[u8], &mut [u32], &mut [u32], &'out mut [u8]) -> Option<&'out [u8]>;

/// One of the two entries, and the words that it leaves of the example's tokens.
pub struct Entry {
    pub call: Call,
    pub tokens: &'static [u32],
}

/// What a call with buffers of these lengths leaves: the lines, words of tokens, tree and out.
pub struct Left {
    pub lines: Option<Vec<u8>>,
    pub tokens: Vec<u32>,
    pub tree: Vec<u32>,
    pub out: Vec<u8>,
}

/// Some words with zeros behind, as many in all as a buffer has.
pub fn padded<T: Copy + Default>(words: &[T], length: usize) -> Vec<T> {
    let mut words = words.to_vec();
    words.resize(length, T::default());
    words
}

impl Entry {
    pub fn left(&self, draft: &[u8], [tokens, tree, out]: [usize; 3]) -> Left {
        let (mut tokens, mut tree, mut out) =
            (vec![GARBAGE; tokens], vec![GARBAGE; tree], vec![0xAA; out]);
        let lines = (self.call)(draft, &mut tokens, &mut tree, &mut out).map(<[u8]>::to_vec);
        Left {
            lines,
            tokens,
            tree,
            out,
        }
    }

    /// Sees that the example is accepted: its words, and its lines where they fit.
    pub fn assert_accepted(&self, lengths: [usize; 3]) {
        self.assert_left(DRAFT, lengths, LINES, [self.tokens, &TREE]);
    }

    /// Sees that a draft is refused with this line, where it fits, and zeros everywhere else.
    pub fn assert_refused(&self, draft: &[u8], lengths: [usize; 3], line: &[u8]) {
        self.assert_left(draft, lengths, line, [&[], &[]]);
    }

    fn assert_left(&self, draft: &[u8], lengths: [usize; 3], lines: &[u8], words: [&[u32]; 2]) {
        let left = self.left(draft, lengths);
        let lines = (lengths[2] >= lines.len()).then(|| lines.to_vec());
        let out = padded(lines.as_deref().unwrap_or_default(), lengths[2]);
        assert_eq!(left.out, out);
        assert_eq!(left.lines, lines, "{lengths:?}");
        assert_eq!(left.tokens, padded(words[0], lengths[0]));
        assert_eq!(left.tree, padded(words[1], lengths[1]));
    }
}
