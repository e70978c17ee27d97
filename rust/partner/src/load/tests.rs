//! Each row of document 01's kinds table: records that it allows and records that it does not.

use super::load;
use crate::kinds::{arm, call, record};
use crate::{listing, read_with_room, write_in, write_lines, Entry, Form, Limits, Record};

/// A record over its children; all places are alike, so each is inside the others.
fn over(kind: u32, (low, high): (u32, u32), children: &[Vec<Record>]) -> Vec<Record> {
    let mut tree = vec![[kind, 0, 1, low, high, 1, 0]];
    for child in children {
        let way = tree.len();
        tree.extend_from_slice(child);
        tree[way][6] = way as u32;
    }
    tree[0][5] = tree.len() as u32;
    tree
}

fn node(kind: u32, children: &[Vec<Record>]) -> Vec<Record> {
    over(kind, (0, 0), children)
}

fn leaf(kind: u32) -> Vec<Record> {
    node(kind, &[])
}

fn name() -> Vec<Record> {
    leaf(record::NAME)
}

fn alias() -> Vec<Record> {
    leaf(record::ALIAS)
}

fn pattern() -> Vec<Record> {
    leaf(record::IGNORE_PATTERN)
}

fn value() -> Vec<Record> {
    leaf(record::DECIMAL)
}

/// Whether the records load, from lines with and without the way up.
fn loads(records: &[Record]) -> bool {
    let loaded = load(&write_lines(records), usize::MAX);
    assert_eq!(load(&write_in(Form::Older, records), usize::MAX), loaded);
    match loaded {
        Ok(loaded) => loaded == records,
        Err(refusal) => {
            assert_eq!(refusal, (17, 0));
            false
        }
    }
}

/// Whether a function whose block ends with this expression loads.
fn loads_expression(expression: Vec<Record>) -> bool {
    let block = over(record::BLOCK, (1, 0), &[expression]);
    loads(&node(record::FUNCTION, &[name(), block]))
}

/// Whether a function with this result type loads.
fn loads_type(result: Vec<Record>) -> bool {
    let block = leaf(record::BLOCK);
    loads(&over(record::FUNCTION, (2, 0), &[name(), result, block]))
}

/// Whether the call loads with these children and two arguments, and without arguments.
fn loads_call(call: u32, children: &[Vec<Record>]) -> bool {
    let with = [children, &[value(), value()]].concat();
    let loaded = [with.as_slice(), children]
        .map(|children| loads_expression(over(record::CALL, (call, 0), children)));
    assert_eq!(loaded[0], loaded[1]);
    loaded[0]
}

fn number(number: u64) -> Vec<Record> {
    over(record::NUMBER, (number as u32, (number >> 32) as u32), &[])
}

#[test]
fn drafts_come_back() {
    let drafts = [
        "pub fn f(a:u8,b:Point,)->Either<Option<bool>,List<(u8,[_;0]),9223372036854775808>>{}",
        "fn f(){let (a,[_,()],):()=Left(Right(Some(None)));((),(1,),(1),[0x1],list![0b1,]);}",
        "fn f(){match A::B(true){Left(x:u8)=>witness::w,Right(x:u8)=>{param::p;}};}",
        "fn f(){match x{Some(x:u8)=>1,None=>2,}}",
        "fn f(){match x{A::B=>1,A::B::C(x:u8,_:u8)=>{}}}",
        "fn f(){jet::j(1);unwrap(1);<u8>::into(1);raw_hash::<u8>(1);Left(1,);dbg!();}",
        "fn f(){fold::<g,2>(x);array_fold::<g,18446744073709551615>();for_while::<g>(x)}",
    ];
    for draft in drafts {
        let records = |entry| {
            let reading = read_with_room(draft.as_bytes(), entry, Limits::SMALL);
            reading.expect("an accepted draft").1
        };
        assert!(loads(&records(Entry::Function)));
        let loaded = load(&listing(draft.as_bytes(), Limits::SMALL), usize::MAX);
        assert_eq!(loaded, Ok(records(Entry::File)));
    }
}

#[test]
fn files() {
    let function = || node(record::FUNCTION, &[name(), leaf(record::BLOCK)]);
    let item = |children: &[Vec<Record>]| node(record::TYPE_ITEM, children);
    let named = || item(&[name(), alias()]);
    let file = |children: &[Vec<Record>]| loads(&node(record::PROGRAM, children));
    assert!(file(&[]) && file(&[function()]) && file(&[named()]));
    assert!(file(&[named(), function(), function(), named(), named()]));
    // No other child, and none of the two below another.
    for wrong in [name(), alias(), value(), pattern(), leaf(record::PROGRAM)] {
        assert!(!file(std::slice::from_ref(&wrong)) && !file(&[function(), wrong]));
    }
    assert!(!loads(&named()) && !loads_expression(named()) && !loads_expression(function()));
    assert!(!loads_expression(leaf(record::PROGRAM)) && !loads_type(named()));
    for wrong in [
        item(&[]),
        item(&[name()]),
        item(&[alias()]),
        item(&[alias(), name()]),
        item(&[name(), value()]),
        item(&[name(), alias(), alias()]),
        over(record::TYPE_ITEM, (1, 0), &[name(), alias()]),
        over(record::TYPE_ITEM, (0, 1), &[name(), alias()]),
    ] {
        assert!(!file(&[wrong]));
    }
}

/// A file begins at 0 and may end there; a function, and what is in a file, may not be empty.
#[test]
fn places_of_tops() {
    for (start, end) in (0..3).flat_map(|start| (0..3).map(move |end| (start, end))) {
        assert_eq!(
            loads(&[[record::PROGRAM, start, end, 0, 0, 1, 0]]),
            start == 0
        );
        let mut function = node(record::FUNCTION, &[name(), leaf(record::BLOCK)]);
        (function[0][1], function[0][2]) = (start, end);
        // The others have the place from 0 to 1.
        assert_eq!(loads(&function), start == 0 && end > 0);
        let mut file = node(record::PROGRAM, &[function]);
        assert_eq!(loads(&file), start == 0 && end == 1);
        (file[0][1], file[0][2]) = (start, end);
        assert_eq!(loads(&file), start == 0 && end > 0);
    }
    for numbers in [(1, 0), (0, 1)] {
        assert!(!loads(&over(record::PROGRAM, numbers, &[])));
    }
}

#[test]
fn functions() {
    let block = || leaf(record::BLOCK);
    let parameter = || node(record::PARAMETER, &[name(), alias()]);
    let function =
        |low, high, children: &[Vec<Record>]| loads(&over(record::FUNCTION, (low, high), children));
    assert!(function(
        3,
        2,
        &[name(), parameter(), parameter(), alias(), block()]
    ));
    assert!(!function(
        3,
        1,
        &[name(), parameter(), parameter(), alias(), block()]
    ));
    assert!(!function(
        3,
        3,
        &[name(), parameter(), parameter(), alias(), block()]
    ));
    assert!(!function(1, 0, &[name(), alias(), block()]));
    assert!(!function(0, 0, &[name()]));
    assert!(!function(0, 0, &[block()]));
    assert!(!function(0, 0, &[name(), block(), block()]));
    assert!(!function(0, u32::MAX, &[name(), parameter(), block()]));
    assert!(!function(0, 0, &[name(), value()]));
}

#[test]
fn types() {
    let with_low = |kind, low| loads_type(over(kind, (low, 0), &[]));
    assert!((0..24).all(|low| with_low(record::BUILTIN, low)));
    assert!(!with_low(record::BUILTIN, 24));
    let widths = (0..1024).filter(|low| with_low(record::UNSIGNED, *low));
    assert!(widths.eq([1, 2, 4, 8, 16, 32, 64, 128, 256]));
    assert!(with_low(record::ALIAS, 0) && !with_low(record::ALIAS, 1));
    assert!(!loads_type(over(record::BUILTIN, (1, 1), &[])));
    for (kind, counts) in [
        (record::ALIAS, vec![0]),
        (record::EITHER, vec![2]),
        (record::OPTION, vec![1]),
        (record::TUPLE_TYPE, vec![0, 1, 2, 3]),
        (record::ARRAY_TYPE, vec![1]),
    ] {
        let loaded = (0..4).filter(|count| loads_type(node(kind, &vec![alias(); *count])));
        assert!(loaded.eq(counts), "kind {kind}");
    }
    let numbered = |kind, number: u64| {
        let halves = (number as u32, (number >> 32) as u32);
        loads_type(over(kind, halves, &[alias()]))
    };
    for power in 0..64 {
        assert_eq!(numbered(record::LIST_TYPE, 1 << power), power > 0);
        assert_eq!(numbered(record::LIST_TYPE, (1 << power) + 1), power == 0);
        assert!(numbered(record::ARRAY_TYPE, 1 << power));
    }
    assert!(!numbered(record::LIST_TYPE, 0) && numbered(record::ARRAY_TYPE, u64::MAX));
}

#[test]
fn expressions() {
    for (kind, counts) in [
        (record::LEFT, vec![1]),
        (record::SOME, vec![1]),
        (record::NONE, vec![0]),
        (record::VARIABLE, vec![0]),
        (record::PARENTHESISED, vec![1]),
        (record::TUPLE, vec![0, 1, 2, 3]),
        (record::ARRAY, vec![0, 1, 2, 3]),
        (record::LIST, vec![0, 1, 2, 3]),
        (record::BLOCK, vec![0, 1, 2, 3]),
        (record::MATCH, vec![]),
        (record::NUMBER, vec![]),
    ] {
        let loaded = (0..4).filter(|count| loads_expression(node(kind, &vec![value(); *count])));
        assert!(loaded.eq(counts), "kind {kind}");
    }
    let statement = || node(record::LET, &[pattern(), alias(), value()]);
    let block =
        |low, children: &[Vec<Record>]| loads_expression(over(record::BLOCK, (low, 0), children));
    assert!(block(0, &[value(), statement()]) && block(1, &[statement(), value()]));
    assert!(!block(1, &[value(), statement()]) && !block(1, &[]) && !block(2, &[value()]));
    let path = |low, names| {
        let children = [vec![name(); names], vec![value()]].concat();
        loads_expression(over(record::ENUM_CONSTRUCTION, (low, 0), &children))
    };
    assert!(path(2, 2) && path(3, 3) && !path(1, 1) && !path(0, 0) && !path(2, 3) && !path(3, 2));
}

#[test]
fn matches() {
    let built_in = |low: u32| match low {
        arm::LEFT | arm::RIGHT | arm::SOME => over(
            record::BUILTIN_ARM,
            (low, 0),
            &[pattern(), alias(), value()],
        ),
        _ => over(record::BUILTIN_ARM, (low, 0), &[value()]),
    };
    for (first, second) in (0..8).flat_map(|first| (0..8).map(move |second| (first, second))) {
        let arms = [value(), built_in(first), built_in(second)];
        let belong = [(1, 2), (3, 4), (5, 6)].contains(&(first, second));
        assert_eq!(loads_expression(node(record::MATCH, &arms)), belong);
    }
    let named =
        |names, pairs, children: &[Vec<Record>]| over(record::ENUM_ARM, (names, pairs), children);
    let plain = named(2, 0, &[name(), name(), value()]);
    let pair = named(2, 1, &[name(), name(), pattern(), alias(), value()]);
    let short = named(2, 2, &[name(), name(), pattern(), alias(), value()]);
    let single = named(1, 0, &[name(), value()]);
    let matched = |arms: &[Vec<Record>]| {
        loads_expression(node(record::ENUM_MATCH, &[&[value()], arms].concat()))
    };
    assert!(
        matched(std::slice::from_ref(&plain))
            && matched(&[pair.clone(), plain.clone(), pair.clone()])
    );
    assert!(!matched(&[]) && !matched(&[short]) && !matched(&[single]));
    assert!(!matched(&[built_in(5), built_in(6)]) && !matched(&[plain.clone(), built_in(6)]));
    assert!(!loads_expression(node(
        record::MATCH,
        &[value(), plain, pair]
    )));
}

#[test]
fn calls() {
    assert!(!loads_call(0, &[]) && !loads_call(15, &[]));
    for low in call::JET..=call::RAW_HASH {
        let named = matches!(low, call::JET | call::CUSTOM | call::FOR_WHILE);
        let bare = matches!(low, call::UNWRAP | call::ASSERT | call::PANIC | call::DEBUG);
        let folds = matches!(low, call::FOLD | call::ARRAY_FOLD);
        assert_eq!(loads_call(low, &[name()]), named);
        assert_eq!(loads_call(low, &[]), bare);
        assert_eq!(loads_call(low, &[alias()]), !named && !bare && !folds);
        assert_eq!(loads_call(low, &[name(), number(2)]), folds);
        assert_eq!(
            loads_call(low, &[name(), number(3)]),
            low == call::ARRAY_FOLD
        );
        assert!(!loads_call(low, &[name(), number(0)]));
        assert!(!loads_call(low, &[name(), number(2), number(2)]));
    }
    for power in 1..64 {
        assert!(loads_call(call::FOLD, &[name(), number(1 << power)]));
    }
    assert!(!loads_call(call::FOLD, &[name(), number(1)]));
    assert!(loads_call(call::ARRAY_FOLD, &[name(), number(u64::MAX)]));
}

/// A type inside so many others.
fn chain(depth: u32) -> Vec<Record> {
    let above = (0..depth).map(|above| [record::OPTION, 0, 1, 0, 0, depth + 1 - above, 1]);
    let mut chain: Vec<Record> = above.chain(alias()).collect();
    chain[depth as usize][6] = 1;
    chain
}

/// Nothing calls itself, so the longest chain that sizes of four digits can count loads on any stack.
#[test]
fn deepest() {
    assert!(loads_type(chain(0xFFFF - 4)));
}

/// One record more is written in six digits, and a longer chain too; in four the sizes are others.
#[test]
fn deeper() {
    for depth in [0x10000 - 4, 300_000] {
        let children = [name(), chain(depth), leaf(record::BLOCK)];
        let records = over(record::FUNCTION, (2, 0), &children);
        let lines = write_lines(&records);
        assert_eq!(lines.len(), 49 * records.len());
        assert_eq!(load(&lines, usize::MAX), Ok(records.clone()));
        for form in [Form::Older, Form::Newer] {
            let cut = write_in(form, &records);
            assert_eq!(load(&cut, usize::MAX), Err((17, 0)));
        }
    }
}

/// The forms of lines by the papers' numbers.
#[test]
fn forms() {
    assert_eq!(Form::ALL.map(Form::line), [36, 41, 49]);
}

/// In 49 bytes a line only where one of the four words is 65,536 or more; written back as it came.
#[test]
fn longer_lines() {
    let file = |end: u32, more: u32| {
        let function = node(record::FUNCTION, &[name(), leaf(record::BLOCK)]);
        let mut file = node(record::PROGRAM, &vec![function; more as usize]);
        file[0][2] = end;
        file
    };
    for (end, more, longer) in [
        (0xFFFF, 0, false),
        (0x10000, 0, true),
        (0xFF_FFFF, 1, true),
        // One record and 21,844 times three; then three more.
        (1, 21_844, false),
        (1, 21_845, true),
    ] {
        let records = file(end, more);
        let lines = write_in(Form::Longer, &records);
        let loaded = load(&lines, usize::MAX);
        let same = write_lines(&records) == lines;
        if longer {
            assert_eq!((loaded, same), (Ok(records), true));
        } else {
            assert_eq!((loaded, same), (Err((16, 1)), false));
            assert_eq!(load(&write_lines(&records), usize::MAX), Ok(records));
        }
    }
}
