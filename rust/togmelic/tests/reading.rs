//! The typed view: records and refusals of drafts whose results the papers give.

use togmelic::{
    list, read, records, Alias, Arm, Call, Kind, Limits, Record, Refusal, MOST_BYTES, MOST_DRAFT,
};

const DRAFT: &[u8] = b"fn f(){match b{true=>1,false=>2,}}";

fn in_body(text: &str) -> Result<Vec<Record>, Refusal> {
    read(format!("fn f(){{{text}}}").as_bytes())
}

fn refused(text: &str) -> (u32, usize) {
    let refusal = in_body(text).expect_err("a refused draft");
    (refusal.number, refusal.place)
}

#[test]
fn example() {
    let tree = read(DRAFT).expect("an accepted draft");
    assert_eq!(tree.len(), 10);
    let program = Record {
        kind: Kind::Program,
        start: 0,
        end: 34,
        low: 0,
        high: 0,
        size: 10,
        up: 0,
    };
    assert_eq!(tree[0], program);
    let function = Record {
        kind: Kind::Function,
        size: 9,
        up: 1,
        ..program
    };
    assert_eq!(tree[1], function);
    let first_arm = Record {
        kind: Kind::BuiltinArm,
        start: 23,
        end: 32,
        low: 5,
        high: 0,
        size: 2,
        up: 2,
    };
    assert_eq!(tree[6], first_arm);
    assert_eq!(&DRAFT[tree[6].place()], b"false=>2,");
}

/// Document 02, order 3: items below a program, whose place is the whole draft.
#[test]
fn files() {
    let draft = b"type Pair = (u8, u8);\npub fn first(p: Pair) -> u8 { p }\ntype A=Pair; // end\n";
    let tree = read(draft).expect("an accepted draft");
    assert_eq!(tree[0].place(), 0..draft.len());
    assert_eq!(tree[0].size, tree.len());
    let mut items = Vec::new();
    let mut at = 1;
    while at < tree.len() {
        items.push((tree[at].kind, &draft[tree[at].place()]));
        at += tree[at].size;
    }
    let expected: [(Kind, &[u8]); 3] = [
        (Kind::TypeItem, b"type Pair = (u8, u8);"),
        (Kind::Function, b"pub fn first(p: Pair) -> u8 { p }"),
        (Kind::TypeItem, b"type A=Pair;"),
    ];
    assert_eq!(items, expected);
    // The name and the type of the last item.
    assert_eq!(&draft[tree[at - 2].place()], b"A");
    assert_eq!(&draft[tree[at - 1].place()], b"Pair");
    assert_eq!(read(b"").map(|tree| tree.len()), Ok(1));
}

#[test]
fn refused_files() {
    for (draft, number, place) in [
        ("fn f(){};", 8, 8),
        ("type A=u8", 8, 9),
        ("type u8=A;", 8, 5),
        ("pub type A=u8;", 8, 4),
        ("type A=List<u8,3>;", 9, 15),
        ("type A=[u8;18446744073709551616];", 19, 11),
    ] {
        assert_eq!(read(draft.as_bytes()), Err(Refusal { number, place }));
    }
}

#[test]
fn records_of_a_lent_buffer() {
    let mut out = vec![0xAA; MOST_BYTES];
    let lines = list(DRAFT, &mut out).expect("room for every draft");
    let tree: Result<Vec<_>, _> = records(lines).collect();
    assert_eq!(tree.ok(), read(DRAFT).ok());
}

/// Document 01, "Records and the marks they own": what `low` says of a call, a built-in arm and a built-in type.
#[test]
fn what_low_says() {
    let calls = [
        ("jet::j(x)", Call::Jet),
        ("unwrap_left::<u8>(x)", Call::UnwrapLeft),
        ("unwrap_right::<u8>(x)", Call::UnwrapRight),
        ("unwrap(x)", Call::Unwrap),
        ("is_none::<u8>(x)", Call::IsNone),
        ("assert!(x)", Call::Assert),
        ("panic!()", Call::Panic),
        ("dbg!(x)", Call::Debug),
        ("<u8>::into(x)", Call::TypeCast),
        ("g(x)", Call::Custom),
        ("fold::<g,2>(x)", Call::Fold),
        ("array_fold::<g,1>(x)", Call::ArrayFold),
        ("for_while::<g>(x)", Call::ForWhile),
        ("raw_hash::<u8>(x)", Call::RawHash),
    ];
    for (text, call) in calls {
        let tree = in_body(text).expect(text);
        let found: Vec<Call> = tree.iter().filter_map(Record::call).collect();
        assert_eq!(found, [call], "{text}");
    }
    let arms = [
        ("Right(a:u8)=>1,Left(a:u8)=>1,", [Arm::Left, Arm::Right]),
        ("Some(a:u8)=>1,None=>1,", [Arm::None, Arm::Some]),
        ("true=>1,false=>1,", [Arm::False, Arm::True]),
    ];
    for (text, pair) in arms {
        let tree = in_body(&format!("match x{{{text}}}")).expect(text);
        let found: Vec<Arm> = tree.iter().filter_map(Record::arm).collect();
        assert_eq!(found, pair, "{text}");
    }
    let tree = in_body("let a:(Ctx8,(Pubkey,bool),Other,TokenAmount1)=1;").expect("a block");
    let found: Vec<Alias> = tree.iter().filter_map(Record::alias).collect();
    assert_eq!(found, [Alias::Ctx8, Alias::Pubkey, Alias::TokenAmount1]);
}

#[test]
fn longest_draft() {
    assert_eq!(MOST_DRAFT, 16_384);
    let mut draft = vec![b' '; MOST_DRAFT];
    assert_eq!(read(&draft).map(|tree| tree.len()), Ok(1));
    draft.push(b' ');
    let (number, place) = (1, MOST_DRAFT);
    assert_eq!(read(&draft), Err(Refusal { number, place }));
}

/// No record but that of its kind has a call, an arm or a built-in type, whatever its `low`; nor has that one where `low`
/// is out of range.
#[test]
fn low_out_of_range() {
    for kind in Kind::ALL {
        for low in [0, 1, 6, 7, 14, 15, 23, 24, 256, u32::MAX] {
            let record = Record::from_words([kind.number(), 0, 1, low, 0, 1, 0]).expect("a kind");
            let (is_call, is_arm) = (kind == Kind::Call, kind == Kind::BuiltinArm);
            let calls = is_call && (1..=14).contains(&low);
            let arms = is_arm && (1..=6).contains(&low);
            let aliases = kind == Kind::Builtin && low < 24;
            assert_eq!(record.call().map(Call::number), calls.then_some(low));
            assert_eq!(record.arm().map(Arm::number), arms.then_some(low));
            assert_eq!(record.alias().map(Alias::number), aliases.then_some(low));
        }
    }
}

#[test]
fn numbers_of_64_bits() {
    let tree = in_body("let a:List<u8,9223372036854775808>=1;").unwrap();
    let list_type = tree
        .iter()
        .find(|record| record.kind == Kind::ListType)
        .unwrap();
    assert_eq!((list_type.low, list_type.high), (0, 1 << 31));
    assert_eq!(list_type.number(), 9_223_372_036_854_775_808);
    let tree = in_body("let a:[u8;18446744073709551615]=1;").unwrap();
    let array_type = tree
        .iter()
        .find(|record| record.kind == Kind::ArrayType)
        .unwrap();
    assert_eq!((array_type.low, array_type.high), (u32::MAX, u32::MAX));
    assert_eq!(array_type.number(), u64::MAX);
}

/// Document 02, order 2: at the number, and the earliest place among 9 to 14.
#[test]
fn lengths_over_64_bits() {
    for (text, refusal) in [
        ("let a:[u8;18446744073709551616]=1;", (19, 17)),
        ("let a:[u8;0_99999999999999999999_]=1;", (19, 17)),
        ("let a:List<[u8;18446744073709551616],3>=1;", (19, 22)),
        ("let a:[List<u8,3>;18446744073709551616]=1;", (9, 22)),
        ("match <[u8;18446744073709551616]>::into(x){}", (11, 7)),
        ("<[u8;18446744073709551616]>::into(match x{})", (19, 12)),
        ("let a:[u8;18446744073709551616]=1", (8, 40)),
    ] {
        assert_eq!(refused(text), refusal, "{text}");
    }
}

/// Document 02, order 6: any well-formed UTF-8 in comments; the texts around them are cut out by bytes.
#[test]
fn comments() {
    for comment in [
        "/*αγοραστής*/",
        "// zażółć gęślą jaźń\n",
        "/* 合同 /* 🔑 */ */",
        "//\u{85}\u{2028}\u{2029}\u{feff}\u{10ffff}\0#\r",
    ] {
        let draft = format!("{comment}type A=u8;{comment}fn f(){{{comment}}}{comment}");
        let tree = read(draft.as_bytes()).expect("an accepted draft");
        assert_eq!(tree.len(), 7);
        assert_eq!(tree[0].place(), 0..draft.len());
        assert_eq!(&draft[tree[1].place()], "type A=u8;");
        assert_eq!(draft[tree[4].place()], format!("fn f(){{{comment}}}"));
    }
}

/// The sequences of RFC 3629, section 4, at the bounds of its ABNF.
#[test]
fn sequences_of_comments() {
    let well_formed: [&[u8]; 11] = [
        b"\xC2\x80",
        b"\xDF\xBF",
        b"\xE0\xA0\x80",
        b"\xEC\xBF\xBF",
        b"\xED\x9F\xBF",
        b"\xEE\x80\x80",
        b"\xEF\xBF\xBF",
        b"\xF0\x90\x80\x80",
        b"\xF3\xBF\xBF\xBF",
        b"\xF4\x8F\xBF\xBF",
        b"\x7F",
    ];
    let bad: [&[u8]; 14] = [
        b"\x80",
        b"\xC0\x80",
        b"\xC1\xBF",
        b"\xC2",
        b"\xC2\xC0",
        b"\xE0\x9F\xBF",
        b"\xE0\xA0",
        b"\xED\xA0\x80",
        b"\xED\xBF\xBF",
        b"\xF0\x8F\xBF\xBF",
        b"\xF0\x90\x80",
        b"\xF4\x90\x80\x80",
        b"\xF5\x80\x80\x80",
        b"\xFF",
    ];
    for (before, behind) in [("//", ""), ("//", "\n"), ("//", "\r"), ("/*", "*/")] {
        let draft =
            |bytes: &[u8]| [before.as_bytes(), "α".as_bytes(), bytes, behind.as_bytes()].concat();
        for bytes in well_formed {
            assert_eq!(
                read(&draft(bytes)).map(|tree| tree.len()),
                Ok(1),
                "{bytes:x?}"
            );
        }
        for bytes in bad {
            let refusal = Refusal {
                number: 21,
                place: 4,
            };
            assert_eq!(read(&draft(bytes)), Err(refusal), "{bytes:x?}");
        }
    }
}

/// 2 outside comments, 21 in them, 4 where one is never closed: the earliest place.
#[test]
fn refused_bytes() {
    let cases: [(&[u8], u32, usize); 12] = [
        (b"\x80", 2, 0),
        (b"//\x80", 21, 2),
        (b"/*\x80*/", 21, 2),
        (b"fn \xCE\xB1(){}", 2, 3),
        (b"\xEF\xBB\xBFfn f(){}", 2, 0),
        (b"//\xCE\xB1\n\x80", 2, 5),
        (b"//\x80\n\x80", 21, 2),
        (b"/*\x80", 4, 0),
        (b"/*\x80*//*", 21, 2),
        (b"/*/*\xCE\xB1*/\xCE*/", 21, 8),
        (b"#//\x80", 3, 0),
        (b";//\x80", 21, 3),
    ];
    for (draft, number, place) in cases {
        assert_eq!(read(draft), Err(Refusal { number, place }), "{draft:x?}");
    }
}

#[test]
fn refusals() {
    assert_eq!(
        read(b";"),
        Err(Refusal {
            number: 8,
            place: 0
        })
    );
    assert_eq!(
        read(b"/*/**/"),
        Err(Refusal {
            number: 4,
            place: 0
        })
    );
    assert_eq!(refused("fold::<g,3>(x)"), (9, 16));
    assert_eq!(refused("array_fold::<g,0>(x)"), (10, 22));
    assert_eq!(refused("match x{}"), (11, 7));
    assert_eq!(refused("match x{true=>1,}"), (13, 7));
    assert_eq!(refused("match x{None=>1,true=>2,}"), (14, 7));
}

#[test]
fn refusals_in_words() {
    let refusal = in_body("match x{}").unwrap_err();
    assert_eq!(
        refusal.to_string(),
        "refusal 11 at byte 7: the match has no arms"
    );
    let refusal = in_body("<[u8;18446744073709551616]>::into(x)").unwrap_err();
    assert_eq!(
        refusal.to_string(),
        "refusal 19 at byte 12: the array length is over 18,446,744,073,709,551,615"
    );
    let refusal = read(b"//\x80").unwrap_err();
    assert_eq!(
        refusal.to_string(),
        "refusal 21 at byte 2: the comment is not well-formed UTF-8"
    );
    // Where the token over a small limit may begin.
    let place = Limits::Small.tokens();
    let reason = |number| Refusal { number, place }.reason();
    for (number, said) in [
        (1, "the draft is over 16,384 bytes"),
        (2, "a byte outside comments is over 127"),
        (3, "no lexeme starts here"),
        (4, "a block comment is never closed"),
        (5, "the word simc is reserved"),
        (6, "there are over 2,048 tokens"),
        (
            7,
            "over 48 brackets are open, or over 8 match stand in a row",
        ),
        (8, "the draft cannot go on with this token"),
        (
            9,
            "the bound is not a power of two from 2 to 9,223,372,036,854,775,808",
        ),
        (10, "the size is 0 or over 18,446,744,073,709,551,615"),
        (11, "the match has no arms"),
        (12, "the match has enum arms and built-in arms"),
        (13, "the match does not have two built-in arms"),
        (14, "the two built-in arms do not belong together"),
        (15, "the tree buffer is too short"),
    ] {
        assert_eq!(reason(number), said);
    }
    // 16 to 18 are about listings.
    for number in [0, 16, 17, 18, 20, 22, u32::MAX] {
        assert_eq!(reason(number), "no such refusal");
    }
}

#[test]
fn threads_do_not_disturb_each_other() {
    let expected = read(DRAFT);
    std::thread::scope(|scope| {
        for _ in 0..4 {
            scope.spawn(|| (0..200).for_each(|_| assert_eq!(read(DRAFT), expected)));
        }
    });
}
