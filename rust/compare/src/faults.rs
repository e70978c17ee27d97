//! Well-shaped drafts with numbers and arms that are refused: lengths around the largest 64-bit number wherever a type
//! may stand, and up to three of the refusals 9 to 14 and 19 in one draft, in every order, in one function and in several;
//! with up to two also misshapen.

use crate::comparison::Comparison;
use crate::strings;

/// Drafts with a type in each place that may have one; `#` stands for it.
const PLACES: [&str; 18] = [
    "fn f(a:#){}",
    "pub fn f(a:u8,b:#,)->u8{}",
    "fn f()->#{}",
    "fn f(){let a:#=1;}",
    "fn f(){match x{Left(a:#)=>1,Right(b:u8)=>2,}}",
    "fn f(){match x{Right(a:#)=>1,Left(b:u8)=>2,}}",
    "fn f(){match x{None=>{}Some(a:#)=>{}}}",
    "fn f(){match x{A::B(a:#)=>1,}}",
    "fn f(){match x{A::B=>1,A::C(a:u8,b:#,)=>{}}}",
    "fn f(){<#>::into(x)}",
    "fn f(){unwrap_left::<#>(x)}",
    "fn f(){unwrap_right::<#>(x)}",
    "fn f(){is_none::<#>(x)}",
    "fn f(){raw_hash::<#>(x)}",
    "fn f(a:u8)->[u8;0]{match a{A::B=>[{let (b,):#=a;b}],}}",
    "fn f(a:#,b:#)->#{<#>::into(a)}",
    "type A=#;",
    "fn f(){}type A=#;fn g(a:#){}",
];

/// The type itself, and types that hold it, some with a number of their own that is refused.
const AROUND: [&str; 12] = [
    "#",
    "Either<#,u8>",
    "Either<u8,#>",
    "Option<#>",
    "List<#,2>",
    "List<#,3>",
    "List<#,18446744073709551616>",
    "(#)",
    "(u8,#,)",
    "[#;2]",
    "[#;0]",
    "[#;18446744073709551616]",
];

/// Expressions with room for others. All but the first are refused, by each number in its ways.
const FAULTS: [&str; 21] = [
    "g(#)",
    "fold::<g,3>(#)",
    "fold::<g,18446744073709551616>(#)",
    "is_none::<List<u8,3>>(#)",
    "array_fold::<g,0>(#)",
    "array_fold::<g,18446744073709551616>(#)",
    "match #{}",
    "match #{A::B=>1,true=>2,}",
    "match x{A::B=>#,true=>#,}",
    "match #{true=>1,}",
    "match #{true=>1,false=>2,true=>3,}",
    "match x{Left(a:[u8;18446744073709551616])=>#,}",
    "match #{None=>1,true=>2,}",
    "match x{None=>#,Left(a:[u8;18446744073709551616])=>#,}",
    "<[u8;18446744073709551616]>::into(#)",
    "is_none::<[u8;99999999999999999999]>(#)",
    "raw_hash::<List<[u8;18446744073709551616],3>>(#)",
    "raw_hash::<[List<u8,3>;18446744073709551616]>(#)",
    "match #{Right(a:[u8;18446744073709551616])=>1,Left(b:u8)=>2,}",
    "match x{A::B(a:u8,b:[u8;18446744073709551616])=>#,}",
    "{let a:[[u8;0];18446744073709551616]=#;}",
];

pub fn all(comparison: &mut Comparison) {
    for length in lengths() {
        let array = format!("[u8;{length}]");
        for place in PLACES {
            for around in AROUND {
                let draft = place.replace('#', &around.replace('#', &array));
                comparison.check_short(draft.as_bytes());
            }
        }
    }
    let pieces = FAULTS.map(str::as_bytes);
    strings::each(&pieces, &mut |string| {
        let faults: Vec<&str> = string.iter().map(|piece| text(piece)).collect();
        for draft in [behind(&faults), inside(&faults), apart(&faults)] {
            comparison.check_short(draft.as_bytes());
            if faults.len() < 3 {
                misshapen(&draft, comparison);
            }
        }
        faults.len() < 3
    });
}

fn text(piece: &[u8]) -> &str {
    std::str::from_utf8(piece).expect("a piece is text")
}

/// Lengths that 64 bits hold, and some that they do not: a little more, digits more, and multiples of 2 to the 64th,
/// which are 0 where a sum runs over.
fn lengths() -> Vec<String> {
    let limit = 1u128 << 64;
    let near = limit - 16..limit + 16;
    let far = [
        0,
        1,
        (1 << 32) - 1,
        1 << 32,
        10u128.pow(19),
        10u128.pow(20) - 1,
        10u128.pow(20),
        2 * limit,
        10 * limit,
        10 * limit + 1,
        1 << 127,
        u128::MAX,
    ];
    let numbers = near.clone().chain(far);
    let mut texts: Vec<String> = numbers.map(|number| number.to_string()).collect();
    // The same with zeros before them, and with `_` between the digits and behind.
    texts.extend(near.flat_map(|number| {
        let digits = number.to_string();
        let apart: String = digits.chars().flat_map(|digit| [digit, '_']).collect();
        [
            format!("0{digits}"),
            format!("{}{digits}", "0_".repeat(30)),
            apart,
        ]
    }));
    texts.extend(["0", "9"].map(|digit| digit.repeat(60)));
    texts.push(format!("1{}", "0".repeat(60)));
    texts.extend(["00", "0_0", "0_"].map(String::from));
    texts
}

/// One behind the other.
fn behind(faults: &[&str]) -> String {
    let statements: String = faults
        .iter()
        .map(|fault| fault.replace('#', "x") + ";")
        .collect();
    format!("fn f(){{{statements}}}")
}

/// Each in a function of its own.
fn apart(faults: &[&str]) -> String {
    let functions = faults
        .iter()
        .map(|fault| format!("fn f(){{{}}}", fault.replace('#', "x")));
    functions.collect()
}

/// Each in all the room of the one before it.
fn inside(faults: &[&str]) -> String {
    let nested = faults
        .iter()
        .rev()
        .fold("x".to_string(), |inner, fault| fault.replace('#', &inner));
    format!("fn f(){{{nested}}}")
}

/// The draft cut off at each byte, and with a mark too many there.
fn misshapen(draft: &str, comparison: &mut Comparison) {
    for at in 0..draft.len() {
        let (before, after) = draft.split_at(at);
        comparison.check_short(before.as_bytes());
        comparison.check_short(format!("{before};{after}").as_bytes());
    }
}
