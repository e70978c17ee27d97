//! The way up: from each record to what holds it, of trees that the reader writes and that are loaded, and of any records.

use togmelic::{holders, listing, load, read, Kind, Record, LINE, SHORT_LINE};

/// The record of a number with all else 0.
fn with_way(up: usize) -> Record {
    Record {
        kind: Kind::Variable,
        start: 0,
        end: 1,
        low: 0,
        high: 0,
        size: 1,
        up,
    }
}

/// What holds a record, told by sizes: all before it that reach over it, the last of them first.
fn around(tree: &[Record], at: usize) -> Vec<usize> {
    let reaches = |above: &usize| above + tree[*above].size > at;
    (0..at).rev().filter(reaches).collect()
}

/// Matches whose arms are exchanged and stay, one inside the other, and calls that are told late from wrappers.
const DRAFTS: [&str; 6] = [
    "",
    "type A=(u8,[A;2]);fn f(){}",
    "fn f(){match b{true=>1,false=>2,}}",
    "fn f(){match match a{true=>1,false=>2,}{true=>[1,2,3],false=>match c{Some(d:u1)=>e,None=>f,},}}",
    "fn f(){match b{Right(a:u8)=>match c{false=>{},true=>{},},Left(a:u8)=>match c{true=>{x;y},false=>{},},}}",
    "pub fn g(a:u8,b:A)->A{Left(Left(1,),match b{A::B=>match c{None=>1,Some(_:u8)=>2,},})}fn h(){}",
];

#[test]
fn each_record_of_a_tree() {
    for draft in DRAFTS {
        let tree = read(draft.as_bytes()).expect(draft);
        for (at, record) in tree.iter().enumerate() {
            let expected = around(&tree, at);
            assert_eq!(record.parent(at), expected.first().copied(), "{draft}");
            assert_eq!(holders(&tree, at).collect::<Vec<_>>(), expected, "{draft}");
        }
        assert_eq!(holders(&tree, tree.len()).next(), None);
        assert_eq!(holders(&tree, usize::MAX).next(), None);
    }
}

/// The parent's place is around each place, also where a match's arms do not stand in the order of their places.
#[test]
fn exchanged_arms() {
    let draft = b"fn f(){match b{true=>1,false=>2,}}";
    let tree = read(draft).expect("an accepted draft");
    let ways: Vec<usize> = tree.iter().map(|record| record.up).collect();
    assert_eq!(ways, [0, 1, 1, 2, 1, 1, 2, 1, 4, 1]);
    assert_eq!(&draft[tree[9].place()], b"1");
    let texts: Vec<&[u8]> = holders(&tree, 9)
        .map(|at| &draft[tree[at].place()])
        .collect();
    let expected: [&[u8]; 5] = [
        b"true=>1,",
        b"match b{true=>1,false=>2,}",
        b"{match b{true=>1,false=>2,}}",
        draft,
        draft,
    ];
    assert_eq!(texts, expected);
}

/// The same records from lines that say the way up and from lines that do not.
#[test]
fn loaded_from_both_forms() {
    for draft in DRAFTS {
        let lines = listing(draft.as_bytes());
        let short: Vec<u8> = lines
            .chunks(LINE)
            .flat_map(|line| [&line[..SHORT_LINE - 1], b"\n"].concat())
            .collect();
        let tree = read(draft.as_bytes());
        assert_eq!(load(&lines).ok(), tree.clone().ok());
        assert_eq!(load(&short).ok(), tree.ok());
    }
}

/// Any number and any way: no panic, and never the record itself or one behind it.
#[test]
fn parents_of_any_records() {
    let telling = [0, 1, 2, 5, 0xFFFF, 0x1_0000, u32::MAX as usize, usize::MAX];
    for up in telling {
        for at in telling {
            let parent = with_way(up).parent(at);
            assert_eq!(parent, (up > 0 && up <= at).then(|| at - up));
            assert!(parent.is_none_or(|parent| parent < at));
        }
    }
    let of_no_tree: Vec<Record> = [7, 0, 1, 1, 9, 5].map(with_way).to_vec();
    let walk = |at| holders(&of_no_tree, at).collect::<Vec<_>>();
    assert_eq!(
        [walk(0), walk(3), walk(4), walk(5)],
        [vec![], vec![2, 1], vec![], vec![0]]
    );
    assert_eq!(holders(&[], 0).next(), None);
}

#[test]
fn words_of_a_record() {
    let record = Record::from_words([29, 0, 1, 0, 0, 1, 5]);
    assert_eq!(record, Some(with_way(5)));
    let record = Record::from_words([29, 0, 1, 0, 0, 1, u32::MAX]).expect("a record");
    assert_eq!((record.parent(5), record.parent(0)), (None, None));
    for kind in [0, 43, 256, 256 + 29, u32::MAX] {
        assert_eq!(Record::from_words([kind, 0, 1, 0, 0, 1, 0]), None);
    }
}
