//! Drafts at each limit, just under it and over it, and byte buffers of every length.

use crate::comparison::Comparison;
use partner::Limits;
use std::ops::RangeInclusive;
use togmelic::{LINE, MOST_BYTES};

pub fn all(comparison: &mut Comparison) {
    for draft in drafts() {
        comparison.check(draft.as_bytes(), MOST_BYTES);
    }
    buffers(comparison);
}

/// The drafts at each limit, that of bytes and that of tokens being the small ones.
pub fn drafts() -> Vec<String> {
    let drafts = [
        at_limits(Limits::SMALL).concat(),
        brackets(),
        matches(),
        numbers(),
        nested_files(),
    ];
    drafts.concat()
}

/// Functions and files with as many bytes and tokens as the limits allow, or one fewer, or one or two more.
pub fn at_limits(limits: Limits) -> [Vec<String>; 3] {
    let (bytes, tokens) = (around(limits.bytes), around(limits.tokens));
    [
        long_functions(bytes.clone()),
        many_tokens(tokens.clone()),
        files(bytes, tokens),
    ]
}

/// A number and those next to it.
fn around(number: usize) -> RangeInclusive<usize> {
    number - 1..=number + 2
}

/// A text in the body of a function.
pub fn body(text: &str) -> String {
    format!("fn f(){{{text}}}")
}

/// Drafts of so many bytes.
fn long_functions(lengths: RangeInclusive<usize>) -> Vec<String> {
    let mut drafts = Vec::new();
    for length in lengths {
        let fill = |piece: &str| piece.repeat(length - 8);
        drafts.push(body(&fill(" ")));
        drafts.push(body(&fill("x")));
        drafts.push(body(&fill("1")));
        drafts.push(body(&format!("/*{}*/", " ".repeat(length - 12))));
        drafts.push(format!("fn f(){{}}//{}", " ".repeat(length - 10)));
        drafts.push(format!("fn f(){{}}/*{}", " ".repeat(length - 10)));
        drafts.push(format!("fn f(){{}}{}#", " ".repeat(length - 9)));
        drafts.push(format!("fn f(){{{}simc", " ".repeat(length - 11)));
        drafts.push(fill("("));
        drafts.push("/*".repeat(length / 4) + &"*/".repeat(length / 4));
    }
    drafts
}

/// Drafts of so many tokens.
fn many_tokens(counts: RangeInclusive<usize>) -> Vec<String> {
    let mut drafts = Vec::new();
    for count in counts {
        // The head and the closing brace are six tokens.
        let inner = count - 6;
        let (pairs, odd) = (inner / 2, inner % 2);
        drafts.push(body(&("1;".repeat(pairs) + ["", "1"][odd])));
        drafts.push(body(&format!(
            "[{}{}]",
            "1,".repeat(pairs - 1),
            ["", "1"][odd]
        )));
        drafts.push(body(&format!(
            "f({}1{})",
            "x,".repeat(pairs - 2),
            ["", ","][odd]
        )));
        drafts.push(body(&("{}".repeat(pairs) + ["", "1"][odd])));
        drafts.push(body(&"let x:u8=f(x,1);".repeat(inner / 12)));
        drafts.push(";".repeat(count));
        drafts.push("(".repeat(count));
        drafts.push("x ".repeat(count) + "#");
        drafts.push("x ".repeat(count) + "simc");
    }
    drafts
}

/// 47 to 50 brackets of each kind open, closed again or not.
fn brackets() -> Vec<String> {
    let mut drafts = Vec::new();
    for count in 47..=50 {
        for pair in [
            ("(", ")"),
            ("[", "]"),
            ("{", "}"),
            ("<", ">"),
            ("Option<", ">"),
        ] {
            let (open, close) = (pair.0.repeat(count), pair.1.repeat(count));
            // The same, where the surrounding has a bracket open already.
            let (inner, outer) = (pair.0.repeat(count - 1), pair.1.repeat(count - 1));
            drafts.push(open.clone());
            drafts.push(format!("{close}{open}"));
            drafts.push(format!("{open}{close}{open}"));
            drafts.push(body(&format!("{inner}1{outer}")));
            drafts.push(body(&format!("{inner}1,1{outer}")));
            drafts.push(body(&format!("let {inner}x{outer}:u8=1;")));
            drafts.push(body(&format!("let x:{inner}u8{outer}=1;")));
            drafts.push(body(&format!(
                "{}{inner}",
                [pair.0, pair.1, ";"].concat().repeat(count)
            )));
            drafts.push(format!("fn f(a:{inner}u8{outer}){{}}"));
        }
        drafts.push(body(&nested("(", "1", ",1)", count - 1)));
        drafts.push(body(&nested(
            "match x{true=>",
            "1",
            ",false=>1,}",
            count - 1,
        )));
        drafts.push(body(&nested("([{", "1", "}])", count / 3)));
        drafts.push(body(&nested("f(", "1", ")", count - 1)));
        drafts.push(body(&nested("list![", "", "]", count - 1)));
    }
    drafts
}

fn nested(open: &str, inside: &str, close: &str, count: usize) -> String {
    open.repeat(count) + inside + &close.repeat(count)
}

/// 7 to 10 `match` in a row, and as many that are not in a row.
fn matches() -> Vec<String> {
    let mut drafts = Vec::new();
    for count in 7..=10 {
        for arms in [
            "{A::B=>1,}",
            "{true=>1,false=>{}}",
            "{Some(x:u8)=>{}None=>{}}",
            "{}",
        ] {
            drafts.push(body(&("match ".repeat(count) + "x" + &arms.repeat(count))));
            drafts.push(body(
                &("match (".repeat(count) + "x" + &format!("){arms}").repeat(count)),
            ));
        }
        drafts.push("match ".repeat(count));
        drafts.push(body(&"match/**/\n".repeat(count)));
    }
    drafts
}

/// Bounds, sizes and lengths around their limits.
fn numbers() -> Vec<String> {
    let mut texts: Vec<String> = (0..=64).map(|power| (1u128 << power).to_string()).collect();
    texts.extend((0..=64).map(|power| ((1u128 << power) + 1).to_string()));
    texts.extend((0..=64).map(|power| ((1u128 << power) - 1).to_string()));
    texts.extend(
        [
            "0_0",
            "1_",
            "0002",
            "2_0",
            "99999999999999999999999",
            "0x2",
            "0b10",
        ]
        .map(String::from),
    );
    let places = |text: &String| {
        [
            body(&format!("fold::<g,{text}>(x)")),
            body(&format!("array_fold::<g,{text}>(x)")),
            body(&format!("let a:List<u8,{text}>=1;")),
            body(&format!("let a:[u8;{text}]=1;")),
        ]
    };
    texts.iter().flat_map(places).collect()
}

/// Files of so many bytes, blanks and comments alone among them, and of so many tokens.
fn files(lengths: RangeInclusive<usize>, counts: RangeInclusive<usize>) -> Vec<String> {
    let mut drafts = Vec::new();
    for length in lengths {
        drafts.push(" ".repeat(length));
        drafts.push(format!("//{}", "a".repeat(length - 2)));
        drafts.push(format!("/*{}*/", "a".repeat(length - 4)));
        drafts.push(format!("type A=u8;{}fn f(){{}}", "\n".repeat(length - 18)));
        drafts.push(format!("type {}=u8;", "A".repeat(length - 9)));
    }
    // Five tokens a type and six a function; then the first tokens of a type.
    for count in counts {
        for functions in 0..5 {
            let types = count - 6 * functions;
            let cut = ["", "type", "type A", "type A=", "type A=A"][types % 5];
            drafts.push("fn f(){}".repeat(functions) + &"type A=A;".repeat(types / 5) + cut);
        }
    }
    drafts
}

/// Brackets are closed again before the next item.
fn nested_files() -> Vec<String> {
    let mut drafts = Vec::new();
    for count in 47..=50 {
        let item = format!("type A={}A{};", "(".repeat(count), ")".repeat(count));
        drafts.push(item.repeat(2));
        drafts.push(format!("fn f(){{}}type A={}A", "[".repeat(count)));
        drafts.push("fn f(){}".repeat(count));
    }
    drafts
}

/// Byte buffers of every length, from none to some bytes over what is needed.
fn buffers(comparison: &mut Comparison) {
    let small = [
        "",
        " ",
        "fn f(){}",
        "type A=u8;",
        "type A=u8;fn f(){}",
        "fn f(){1",
        "fn f(){match b{true=>1,false=>2,}}",
        "fn f(a:u8){Left(a,)}",
        "#",
    ];
    for draft in small {
        for room in 0..LINE * draft.len().max(1) + 80 {
            comparison.check(draft.as_bytes(), room);
        }
    }
    // 1,534 lines: three for each element, and four around them.
    let many = body(&"A::B;".repeat(510));
    let needed = LINE * 1_534;
    for room in (needed - 3..needed + 3).chain(MOST_BYTES - 3..MOST_BYTES + 3) {
        comparison.check(many.as_bytes(), room);
    }
}
