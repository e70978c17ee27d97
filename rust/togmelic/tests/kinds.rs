//! The names of the numbers: kinds, calls, built-in arms and built-in types. Numbers and orders are written by hand from
//! document 01 ("Records and the marks they own") and document 02, order 3, those of `CallName` and `BuiltinAlias` from
//! the Rust that they speak of; and each is what the reader gives the text beside it.

use togmelic::{listing, Alias, Arm, Call, Kind, LONG_LINE, SHORT_LINE};

const PAGE: &str = include_str!("../../../docs/KINDS.md");
const ESCROW: &str = include_str!("../../../examples/escrow.simf");

/// A draft with a record of every kind.
const DRAFT: &str = "\
type A = Either<u8, Option<bool>>;
pub fn f(x: Pubkey) -> (List<A, 4>, [u8; 3]) {
    let (a, _): A = Left(1);
    let [b, c]: A = [Right(0x2), Some(0b1)];
    (None, true, witness::W, param::P, x);
    list![(y)];
    E::B(1);
    match x { Left(p: A) => 1, Right(p: A) => 2, };
    match x { E::B => 1, };
    fold::<g, 8>(x)
}";

/// Each kind with its name and the beginning of the text that its first record in the draft has.
const KINDS: [(Kind, &str, &str); 42] = [
    (Kind::Function, "function", "pub fn f("),
    (Kind::Name, "name", "A"),
    (Kind::Parameter, "parameter", "x: Pubkey"),
    (Kind::Alias, "alias", "A"),
    (Kind::Builtin, "builtin", "Pubkey"),
    (Kind::BoolType, "bool type", "bool"),
    (Kind::Unsigned, "unsigned", "u8"),
    (Kind::EitherType, "Either type", "Either<u8, Option<bool>>"),
    (Kind::OptionType, "Option type", "Option<bool>"),
    (Kind::TupleType, "tuple type", "(List<A, 4>, [u8; 3])"),
    (Kind::ArrayType, "array type", "[u8; 3]"),
    (Kind::ListType, "list type", "List<A, 4>"),
    (Kind::IdentifierPattern, "identifier pattern", "a"),
    (Kind::IgnorePattern, "ignore pattern", "_"),
    (Kind::TuplePattern, "tuple pattern", "(a, _)"),
    (Kind::ArrayPattern, "array pattern", "[b, c]"),
    (Kind::Let, "let", "let (a, _): A = Left(1)"),
    (Kind::Block, "block", "{\n    let (a, _)"),
    (Kind::Left, "Left", "Left(1)"),
    (Kind::Right, "Right", "Right(0x2)"),
    (Kind::Some, "Some", "Some(0b1)"),
    (Kind::None, "None", "None"),
    (Kind::Boolean, "boolean", "true"),
    (Kind::Decimal, "decimal", "1"),
    (Kind::Hexadecimal, "hexadecimal", "0x2"),
    (Kind::Binary, "binary", "0b1"),
    (Kind::Witness, "witness", "witness::W"),
    (Kind::ParameterValue, "parameter value", "param::P"),
    (Kind::Variable, "variable", "x"),
    (Kind::Parenthesised, "parenthesised", "(y)"),
    (
        Kind::Tuple,
        "tuple",
        "(None, true, witness::W, param::P, x)",
    ),
    (Kind::Array, "array", "[Right(0x2), Some(0b1)]"),
    (Kind::List, "list", "list![(y)]"),
    (Kind::EnumConstruction, "enum construction", "E::B(1)"),
    (Kind::Match, "match", "match x { Left("),
    (Kind::EnumMatch, "enum match", "match x { E::B => 1, }"),
    (Kind::BuiltinArm, "built-in arm", "Left(p: A) => 1,"),
    (Kind::EnumArm, "enum arm", "E::B => 1,"),
    (Kind::Call, "call", "fold::<g, 8>(x)"),
    (Kind::Number, "number", "8"),
    (Kind::Program, "program", DRAFT),
    (
        Kind::TypeItem,
        "type item",
        "type A = Either<u8, Option<bool>>;",
    ),
];

/// Each call with its name and such a call.
const CALLS: [(Call, &str, &str); 14] = [
    (Call::Jet, "jet", "jet::add_32(a)"),
    (Call::UnwrapLeft, "unwrap_left", "unwrap_left::<u8>(a)"),
    (Call::UnwrapRight, "unwrap_right", "unwrap_right::<u8>(a)"),
    (Call::Unwrap, "unwrap", "unwrap(a)"),
    (Call::IsNone, "is_none", "is_none::<u8>(a)"),
    (Call::Assert, "assert!", "assert!(a)"),
    (Call::Panic, "panic!", "panic!()"),
    (Call::Debug, "dbg!", "dbg!(a)"),
    (Call::TypeCast, "into", "<u8>::into(a)"),
    (Call::Custom, "function", "g(a)"),
    (Call::Fold, "fold", "fold::<g, 4>(a)"),
    (Call::ArrayFold, "array_fold", "array_fold::<g, 3>(a)"),
    (Call::ForWhile, "for_while", "for_while::<g>(a)"),
    (Call::RawHash, "raw_hash", "raw_hash::<u8>(a)"),
];

/// Each built-in arm with its name, such an arm and its partner's.
const ARMS: [(Arm, &str, &str, &str); 6] = [
    (Arm::Left, "Left", "Left(p: A) => 1,", "Right(p: A) => 2,"),
    (Arm::Right, "Right", "Right(p: A) => 2,", "Left(p: A) => 1,"),
    (Arm::None, "None", "None => 3,", "Some(p: A) => 4,"),
    (Arm::Some, "Some", "Some(p: A) => 4,", "None => 3,"),
    (Arm::False, "false", "false => 5,", "true => 6,"),
    (Arm::True, "true", "true => 6,", "false => 5,"),
];

const ALIASES: [(Alias, &str); 24] = [
    (Alias::Ctx8, "Ctx8"),
    (Alias::Pubkey, "Pubkey"),
    (Alias::Message, "Message"),
    (Alias::Message64, "Message64"),
    (Alias::Signature, "Signature"),
    (Alias::Scalar, "Scalar"),
    (Alias::Fe, "Fe"),
    (Alias::Ge, "Ge"),
    (Alias::Gej, "Gej"),
    (Alias::Point, "Point"),
    (Alias::Height, "Height"),
    (Alias::Time, "Time"),
    (Alias::Distance, "Distance"),
    (Alias::Duration, "Duration"),
    (Alias::Lock, "Lock"),
    (Alias::Outpoint, "Outpoint"),
    (Alias::Confidential1, "Confidential1"),
    (Alias::ExplicitAsset, "ExplicitAsset"),
    (Alias::Asset1, "Asset1"),
    (Alias::ExplicitAmount, "ExplicitAmount"),
    (Alias::Amount1, "Amount1"),
    (Alias::ExplicitNonce, "ExplicitNonce"),
    (Alias::Nonce, "Nonce"),
    (Alias::TokenAmount1, "TokenAmount1"),
];

/// Sees that an enum has these cases with these names, numbered from a first number on, and no others.
macro_rules! agree {
    ($enum:ident, $first:literal, $expected:expr) => {
        let expected: Vec<($enum, &str)> = $expected;
        assert!($enum::ALL
            .into_iter()
            .eq(expected.iter().map(|(case, _)| *case)));
        for (number, (case, name)) in ($first..).zip(&expected) {
            assert_eq!(case.number(), number, "{case:?}");
            assert_eq!(case.name(), *name);
            assert_eq!(case.to_string(), *name);
            assert_eq!($enum::from_number(number), Some(*case));
            // A number over 255 is none, whatever its last eight bits are.
            assert_eq!($enum::from_number(number + 256), None, "{case:?}");
        }
        let behind: u32 = $first + expected.len() as u32;
        assert_eq!($enum::from_number(behind), None);
        assert_eq!($enum::from_number(u32::MAX), None);
    };
}

#[test]
fn kinds() {
    agree!(Kind, 1, KINDS.map(|(case, name, _)| (case, name)).to_vec());
    assert_eq!(Kind::from_number(0), None);
    assert_eq!(Kind::from_number(43), None);
}

#[test]
fn calls() {
    agree!(Call, 1, CALLS.map(|(case, name, _)| (case, name)).to_vec());
    assert_eq!(Call::from_number(0), None);
    assert_eq!(Call::from_number(43), None);
}

#[test]
fn arms() {
    agree!(Arm, 1, ARMS.map(|(case, name, ..)| (case, name)).to_vec());
    assert_eq!(Arm::from_number(0), None);
    assert_eq!(Arm::from_number(43), None);
}

#[test]
fn aliases() {
    agree!(Alias, 0, ALIASES.to_vec());
    assert_eq!(Alias::from_number(0), Some(Alias::Ctx8));
    assert_eq!(Alias::from_number(43), None);
}

#[test]
fn padded() {
    assert_eq!(format!("{:8}|", Kind::Let), "let     |");
    assert_eq!(format!("{:>8}|", Call::Debug), "    dbg!|");
    assert_eq!(format!("{:-^8}|", Arm::True), "--true--|");
    assert_eq!(format!("{:.3}|", Alias::Pubkey), "Pub|");
}

/// Kind, text and low of each record of an accepted draft, from the lines of its listing.
fn records(draft: &str) -> Vec<(u32, &str, u32)> {
    let lines = String::from_utf8(listing(draft.as_bytes())).expect("ASCII");
    let record = |line: &str| {
        let numbers: Vec<u32> = line
            .split(' ')
            .map(|digits| u32::from_str_radix(digits, 16).expect("hexadecimal"))
            .collect();
        let place = numbers[1] as usize..numbers[2] as usize;
        (numbers[0], &draft[place], numbers[3])
    };
    lines.lines().map(record).collect()
}

/// The low of the first record of a kind that has this text.
fn low(kind: Kind, text: &str, draft: &str) -> Option<u32> {
    records(draft)
        .into_iter()
        .find(|record| (record.0, record.1) == (kind.number(), text))
        .map(|record| record.2)
}

#[test]
fn kinds_of_the_reader() {
    let tree = records(DRAFT);
    for (kind, _, text) in KINDS {
        let first = tree.iter().find(|record| record.0 == kind.number());
        let found = first.unwrap_or_else(|| panic!("no record of {kind}")).1;
        assert!(found.starts_with(text), "{kind}: {found}");
    }
}

#[test]
fn lows_of_the_reader() {
    for (call, _, text) in CALLS {
        let draft = format!("fn f(){{{text}}}");
        assert_eq!(low(Kind::Call, text, &draft), Some(call.number()), "{call}");
    }
    for (arm, _, text, partner) in ARMS {
        for arms in [[text, partner], [partner, text]] {
            let draft = format!("fn f(){{match x{{{}}}}}", arms.concat());
            let found = low(Kind::BuiltinArm, text, &draft);
            assert_eq!(found, Some(arm.number()), "{arm}");
        }
    }
    for (alias, name) in ALIASES {
        let draft = format!("type A={name};");
        let found = low(Kind::Builtin, name, &draft);
        assert_eq!(found, Some(alias.number()), "{alias}");
    }
}

/// Whether a row of the page's tables begins with these cells.
fn row(cells: &[String]) -> bool {
    let begin = format!("| {} |", cells.join(" | "));
    PAGE.lines().any(|line| line.starts_with(&begin))
}

#[test]
fn tables_of_the_page() {
    for (number, (_, name, _)) in (1..).zip(KINDS) {
        assert!(
            row(&[format!("{number}"), format!("`{number:02X}`"), name.into()]),
            "{name}"
        );
    }
    for (number, (_, name, ..)) in (1..).zip(ARMS) {
        assert!(
            row(&[format!("{number}"), format!("`{number:08X}`"), name.into()]),
            "{name}"
        );
    }
    for (number, (call, ..)) in (1..).zip(CALLS) {
        let name = format!("{call:?}");
        assert!(
            row(&[format!("{number}"), format!("`{number:08X}`"), name]),
            "{call:?}"
        );
    }
    for (number, (_, name)) in (0..).zip(ALIASES) {
        assert!(
            row(&[
                format!("{number}"),
                format!("`{number:08X}`"),
                format!("`{name}`")
            ]),
            "{name}"
        );
    }
}

/// The lines that the page explains are those of the escrow.
#[test]
fn lines_of_the_page() {
    let lines = String::from_utf8(listing(ESCROW.as_bytes())).expect("ASCII");
    let shown: Vec<&str> = PAGE
        .lines()
        .filter_map(|line| line.strip_prefix("    "))
        .filter(|line| line.len() == 40 && line.split(' ').count() == 7)
        .collect();
    assert_eq!(shown.len(), 13);
    for line in &shown {
        assert!(lines.lines().any(|found| found == *line), "{line}");
    }
    // The first of them once with six digits for each place, and once without the way up.
    let fields: Vec<&str> = shown[0].split(' ').collect();
    let [kind, start, end, low, high, size, up] = fields[..] else {
        panic!("seven numbers: {fields:?}");
    };
    let long = format!("    {kind} 00{start} 00{end} {low} {high} 00{size} 00{up}");
    let short = format!("    {kind} {start} {end} {low} {high} {size}");
    assert_eq!(
        (long.len(), short.len()),
        (4 + LONG_LINE - 1, 4 + SHORT_LINE - 1)
    );
    for line in [long, short] {
        assert_eq!(PAGE.lines().filter(|shown| **shown == line).count(), 1);
    }
}
