//! Files: every name that is a type already, and names that are nearly one, as a type's own; all strings of a few items;
//! and files of 0 to 30 items, whole, with a token dropped, doubled or exchanged with the next, and cut at each byte.

use crate::comparison::Comparison;
use crate::strings;

/// `ALIAS_RESERVED`.
const RESERVED: &str = "Either Option bool List u128 u256 u16 u32 u64 u1 u2 u4 u8 Ctx8 Pubkey Message64 Message \
    Signature Scalar Fe Gej Ge Point Height Time Distance Duration Lock Outpoint Confidential1 ExplicitAsset Asset1 \
    ExplicitAmount Amount1 ExplicitNonce Nonce TokenAmount1";

/// Other words that are singled out somewhere; some are names and some are not.
const WORDS: &str = "Left Right Some None into unwrap unwrap_left unwrap_right is_none raw_hash fold array_fold \
    for_while assert panic dbg list jet witness param main pub use as fn let type mod const match enum crate simc true \
    false assert! panic! dbg! list! jet::a witness::a param::a 1 0x1 0b1 _ __ A";

/// Where a name is tried; `#` stands for it.
const PLACES: [&str; 5] = [
    "type #=u8;",
    "fn f(){}type # = A ;fn g(){}",
    "type A=#;",
    "type A=(#,#);type #=#;",
    "fn #(){}type B=u8;",
];

/// Items, their tokens apart by spaces.
const ITEMS: [&str; 8] = [
    "type A = u8 ;",
    "fn f ( ) { }",
    "pub fn g ( a : A , b : ( ) ) -> A { a }",
    "type Pair = ( A , [ bool ; 3 ] ) ;",
    "fn h ( ) { match b { true => 1 , false => { } } }",
    "type List_ = Either < Option < A > , List < u8 , 2 > > ;",
    "fn f ( ) { let x : A = Left ( 1 , ) ; jet::j ( x ) ; }",
    "type fold = _ ;",
];

/// What stands between items, in turn.
const GAPS: [&str; 4] = [" ", "\n\n", "/* fn */", " // type\n"];

const MOST_ITEMS: usize = 30;

pub fn all(comparison: &mut Comparison) {
    names(comparison);
    let items = ITEMS.map(str::as_bytes);
    strings::each(&items, &mut |string| {
        comparison.check_short(&string.concat());
        string.len() < 4
    });
    for count in 0..=MOST_ITEMS {
        // Squares mix the items.
        let items: Vec<&str> = (0..count)
            .map(|at| ITEMS[(count + at * at) % ITEMS.len()])
            .collect();
        whole(&items, comparison);
        damaged(&items, comparison);
    }
}

fn names(comparison: &mut Comparison) {
    let words = RESERVED.split_whitespace().flat_map(near);
    let words = words.chain(WORDS.split_whitespace().map(String::from));
    for word in words {
        for place in PLACES {
            comparison.check_short(place.replace('#', &word).as_bytes());
        }
    }
}

/// The word itself, and with one byte in another case, taken out, doubled, or with `_` or a digit before or behind it.
fn near(word: &str) -> Vec<String> {
    let mut words = vec![word.to_string(), word.to_lowercase(), word.to_uppercase()];
    for at in 0..word.len() {
        let (before, byte, behind) = (&word[..at], &word[at..at + 1], &word[at + 1..]);
        let other = if byte == byte.to_lowercase() {
            byte.to_uppercase()
        } else {
            byte.to_lowercase()
        };
        let changes = [
            other,
            String::new(),
            byte.repeat(2),
            format!("_{byte}"),
            format!("{byte}_"),
            format!("{byte}1"),
        ];
        words.extend(changes.map(|changed| [before, &changed, behind].concat()));
    }
    words
}

/// The file with one gap everywhere, and with each gap in turn.
fn whole(items: &[&str], comparison: &mut Comparison) {
    comparison.check_short(items.concat().as_bytes());
    let gaps = GAPS.iter().cycle();
    let parts = items.iter().zip(gaps).map(|(item, gap)| [gap, *item]);
    comparison.check_short(parts.flatten().collect::<String>().as_bytes());
}

fn damaged(items: &[&str], comparison: &mut Comparison) {
    let file = items.join(" ");
    let tokens: Vec<&str> = file.split_whitespace().collect();
    for at in 0..tokens.len() {
        let (before, token, behind) = (&tokens[..at], tokens[at], &tokens[at + 1..]);
        let dropped = [before, behind].concat();
        let doubled = [before, &[token, token], behind].concat();
        let mut exchanged = tokens.clone();
        exchanged.swap(at, (at + 1) % tokens.len());
        for changed in [dropped, doubled, exchanged] {
            comparison.check_short(changed.join(" ").as_bytes());
        }
    }
    for length in 0..file.len() {
        comparison.check_short(&file.as_bytes()[..length]);
    }
}
