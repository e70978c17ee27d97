//! What a record is called: its kind, what the draft says of it, and how many there are of what it has.

use std::borrow::Cow;
use std::fmt;
use togmelic::{Call, Kind, Record};

/// The words of the kind, the detail that comes from the draft, if there is one, and what is said behind it.
#[derive(Debug, PartialEq, Eq)]
pub(crate) struct Label<'draft> {
    pub(crate) words: Cow<'static, str>,
    pub(crate) detail: Cow<'draft, str>,
    pub(crate) behind: String,
}

impl fmt::Display for Label<'_> {
    fn fmt(&self, f: &mut fmt::Formatter<'_>) -> fmt::Result {
        let blank = if self.detail.is_empty() { "" } else { " " };
        write!(f, "{}{blank}{}{}", self.words, self.detail, self.behind)
    }
}

/// The label of a record of a tree, which has that number.
pub(crate) fn label<'draft>(draft: &'draft [u8], tree: &[Record], at: usize) -> Label<'draft> {
    let record = &tree[at];
    match record.kind {
        Kind::Function => words(function(record)),
        Kind::Block if record.low == 1 => words("block with a value"),
        Kind::Witness | Kind::ParameterValue => {
            let text = text(draft, record);
            named(record, behind_colons(text))
        }
        Kind::ArrayType => detailed("array", format!("[_; {}]", record.number())),
        Kind::ListType => detailed("list", format!("List<_, {}>", record.number())),
        Kind::EnumConstruction => named(record, path(draft, tree, at)),
        Kind::EnumArm => Label {
            behind: patterns(record.high),
            ..named(record, path(draft, tree, at))
        },
        Kind::BuiltinArm => detailed("arm", record.arm().map_or("", |arm| arm.name())),
        Kind::Call => detailed("call", called(draft, tree, at)),
        kind if shows_text(kind) => named(record, text(draft, record)),
        kind => words(kind.name()),
    }
}

/// The text of a record's place. It is ASCII where that has one token.
fn text<'draft>(draft: &'draft [u8], record: &Record) -> Cow<'draft, str> {
    String::from_utf8_lossy(&draft[record.place()])
}

/// The whole text of a record of one token; `None` for the other kinds.
pub(crate) fn token<'draft>(draft: &'draft [u8], record: &Record) -> Option<Cow<'draft, str>> {
    let without_detail = matches!(
        record.kind,
        Kind::BoolType | Kind::IgnorePattern | Kind::None
    );
    let behind_colons = matches!(record.kind, Kind::Witness | Kind::ParameterValue);
    let one = shows_text(record.kind) || without_detail || behind_colons;
    one.then(|| text(draft, record))
}

/// Kinds of one token whose label has the token's whole text.
fn shows_text(kind: Kind) -> bool {
    matches!(
        kind,
        Kind::Name
            | Kind::Alias
            | Kind::Builtin
            | Kind::Unsigned
            | Kind::IdentifierPattern
            | Kind::Boolean
            | Kind::Decimal
            | Kind::Hexadecimal
            | Kind::Binary
            | Kind::Variable
            | Kind::Number
    )
}

fn words(words: impl Into<Cow<'static, str>>) -> Label<'static> {
    detailed(words, "")
}

fn detailed<'draft>(
    words: impl Into<Cow<'static, str>>,
    detail: impl Into<Cow<'draft, str>>,
) -> Label<'draft> {
    Label {
        words: words.into(),
        detail: detail.into(),
        behind: String::new(),
    }
}

fn named<'draft>(record: &Record, detail: Cow<'draft, str>) -> Label<'draft> {
    detailed(record.kind.name(), detail)
}

/// The bits of a function's `low`.
const PUBLIC: u32 = 1;
const WITH_RESULT: u32 = 2;

fn function(record: &Record) -> String {
    let has = |bit, words| if record.low & bit == 0 { "" } else { words };
    let parameters = counted(record.high, "parameter");
    let (public, result) = (has(PUBLIC, "pub "), has(WITH_RESULT, ", result"));
    format!("{public}function, {parameters}{result}")
}

fn patterns(count: u32) -> String {
    match count {
        0 => String::new(),
        _ => format!(", {}", counted(count, "pattern")),
    }
}

fn counted(count: u32, what: &str) -> String {
    let several = if count == 1 { "" } else { "s" };
    format!("{count} {what}{several}")
}

/// The name of a token such as `jet::NAME`.
fn behind_colons(text: Cow<'_, str>) -> Cow<'_, str> {
    match text.rfind("::") {
        Some(at) => text[at + 2..].to_owned().into(),
        None => text,
    }
}

/// The names of an enum's path, which are the first children, as many as `low` says.
fn path(draft: &[u8], tree: &[Record], at: usize) -> Cow<'static, str> {
    let names = tree[at + 1..].iter().take(tree[at].low as usize);
    let names: Vec<_> = names.map(|name| text(draft, name)).collect();
    names.join("::").into()
}

/// What a call calls, with the name of its first child where that is a name.
fn called(draft: &[u8], tree: &[Record], at: usize) -> Cow<'static, str> {
    let call = tree[at].call();
    let word = call.map_or("", Call::name);
    // A name stands behind a call only as its child.
    match tree.get(at + 1).filter(|next| next.kind == Kind::Name) {
        Some(name) => {
            let name = text(draft, name);
            format!("{word} {}", behind_colons(name)).into()
        }
        None => word.into(),
    }
}

#[cfg(test)]
mod tests {
    use super::*;

    /// The labels of a draft's records behind the first, which is the program.
    fn labels(draft: &str) -> Vec<String> {
        let tree = togmelic::read(draft.as_bytes()).expect("an accepted draft");
        let label = |at| label(draft.as_bytes(), &tree, at).to_string();
        assert_eq!(label(0), "program");
        (1..tree.len()).map(label).collect()
    }

    /// The labels of an expression that is the last of a function.
    fn of_expression(expression: &str) -> Vec<String> {
        let labels = labels(&format!("fn f(){{{expression}}}"));
        let [function, name, block, rest @ ..] = &labels[..] else {
            panic!("too few records: {labels:?}");
        };
        assert_eq!(function, "function, 0 parameters");
        assert_eq!((&name[..], &block[..]), ("name f", "block with a value"));
        rest.to_vec()
    }

    #[test]
    fn functions() {
        let plain = ["function, 0 parameters", "name f", "block"];
        assert_eq!(labels("fn f(){}"), plain);
        let all = [
            "pub function, 2 parameters, result",
            "name f",
            "parameter",
            "name a",
            "unsigned u8",
            "parameter",
            "name b",
            "bool type",
            "alias T",
            "block",
        ];
        assert_eq!(labels("pub fn f(a: u8, b: bool) -> T {}"), all);
        assert_eq!(labels("fn f(a:u1){}")[0], "function, 1 parameter");
        assert_eq!(labels("pub fn f(){}")[0], "pub function, 0 parameters");
    }

    #[test]
    fn types() {
        let draft = "type A=Either<Option<Pubkey>,(List<u8,1_6>,[(); 0_18446744073709551615])>;";
        let expected = [
            "type item",
            "name A",
            "Either type",
            "Option type",
            "builtin Pubkey",
            "tuple type",
            "list List<_, 16>",
            "unsigned u8",
            "array [_; 18446744073709551615]",
            "tuple type",
        ];
        assert_eq!(labels(draft), expected);
    }

    #[test]
    fn patterns_and_statements() {
        let expected = [
            "function, 0 parameters",
            "name f",
            "block",
            "let",
            "tuple pattern",
            "identifier pattern a",
            "ignore pattern",
            "array pattern",
            "alias T",
            "variable x",
        ];
        assert_eq!(labels("fn f(){let (a, _, []): T = x;}"), expected);
    }

    #[test]
    fn values() {
        let expected = [
            "tuple",
            "array",
            "boolean false",
            "boolean true",
            "list",
            "decimal 1_000",
            "hexadecimal 0xF_f",
            "binary 0b0_1",
            "parenthesised",
            "witness A",
            "parameter value B",
            "Left",
            "variable _",
            "Right",
            "None",
            "Some",
            "block",
        ];
        let draft = "([false,true],list![1_000,0xF_f,0b0_1],(witness::A),param::B,Left(_),Right(None),Some({}))";
        assert_eq!(of_expression(draft), expected);
    }

    #[test]
    fn calls() {
        let expected = |labels: &[&str], expression| assert_eq!(of_expression(expression), labels);
        expected(
            &["call jet add_32", "name jet::add_32", "variable a"],
            "jet::add_32(a)",
        );
        expected(&["call function g", "name g", "variable a"], "g(a)");
        expected(&["call function Left", "name Left"], "Left()");
        expected(&["call unwrap"], "unwrap()");
        expected(&["call unwrap", "variable a"], "unwrap(a)");
        expected(&["call unwrap_left", "alias T"], "unwrap_left::<T>()");
        expected(&["call unwrap_right", "alias T"], "unwrap_right::<T>()");
        expected(&["call is_none", "alias T"], "is_none::<T>()");
        expected(&["call raw_hash", "alias T"], "raw_hash::<T>()");
        expected(&["call into", "alias T"], "<T>::into()");
        expected(&["call assert!"], "assert!()");
        expected(&["call panic!"], "panic!()");
        expected(&["call dbg!"], "dbg!()");
        expected(&["call fold g", "name g", "number 0_4"], "fold::<g,0_4>()");
        expected(
            &["call array_fold g", "name g", "number 3"],
            "array_fold::<g, 3>()",
        );
        expected(&["call for_while g", "name g"], "for_while::<g>()");
    }

    #[test]
    fn calls_before_other_records() {
        let labels = labels("fn f(){unwrap()}fn g(){}");
        assert_eq!(
            labels[3..6],
            ["call unwrap", "function, 0 parameters", "name g"]
        );
        assert_eq!(
            of_expression("{unwrap();A::B}")[1..],
            ["call unwrap", "enum construction A::B", "name A", "name B"]
        );
    }

    #[test]
    fn arms() {
        let expected = [
            "match",
            "variable x",
            "arm None",
            "decimal 1",
            "arm Some",
            "identifier pattern a",
            "alias T",
            "decimal 2",
        ];
        assert_eq!(of_expression("match x{Some(a:T)=>2,None=>1,}"), expected);
        assert_eq!(
            of_expression("match x{true=>{}false=>{}}")[2..],
            ["arm false", "block", "arm true", "block"]
        );
        assert_eq!(
            of_expression("match x{Right(_:T)=>{}Left(_:T)=>{}}")[2],
            "arm Left"
        );
        assert_eq!(
            of_expression("match x{Right(_:T)=>{}Left(_:T)=>{}}")[6],
            "arm Right"
        );
    }

    #[test]
    fn enums() {
        assert_eq!(of_expression("A::B::C(x)")[0], "enum construction A::B::C");
        let arms = of_expression("match x{A :: B=>{}A::None=>{}A::C(a:T)=>{}A::D(a:T,_:T)=>{}}");
        assert_eq!(arms[0], "enum match");
        let arms: Vec<&String> = arms
            .iter()
            .filter(|label| label.starts_with("enum arm"))
            .collect();
        assert_eq!(
            arms,
            [
                "enum arm A::B",
                "enum arm A::None",
                "enum arm A::C, 1 pattern",
                "enum arm A::D, 2 patterns"
            ]
        );
    }

    #[test]
    fn what_comes_from_the_draft_is_the_detail() {
        let draft = b"fn f(){match x{A::B(a:T)=>jet::one(),}}";
        let tree = togmelic::read(draft).expect("an accepted draft");
        let parts = |at| {
            let Label {
                words,
                detail,
                behind,
            } = label(draft, &tree, at);
            [words.to_string(), detail.to_string(), behind]
        };
        assert_eq!(parts(1), ["function, 0 parameters", "", ""]);
        assert_eq!(parts(2), ["name", "f", ""]);
        assert_eq!(parts(6), ["enum arm", "A::B", ", 1 pattern"]);
        assert_eq!(parts(11), ["call", "jet one", ""]);
    }

    #[test]
    fn tokens_are_whole() {
        let draft = b"fn f(a:bool){let _:u8=(witness::A,None,jet::one());}";
        let tree = togmelic::read(draft).expect("an accepted draft");
        let tokens: Vec<_> = tree
            .iter()
            .filter_map(|record| token(draft, record))
            .collect();
        let expected = [
            "f",
            "a",
            "bool",
            "_",
            "u8",
            "witness::A",
            "None",
            "jet::one",
        ];
        assert_eq!(tokens, expected);
    }
}
