//! What to do about each refusal of a draft, in one sentence. Made by tools/advice.py from docs/REFUSALS.md.

/// What to do about refusal 8 where the draft ends too soon.
#[rustfmt::skip]
pub(crate) const AT_THE_END: &str = "finish what is open: a bracket has no partner, a function no block, or the last type no `;`";

/// What to do about a refusal; nothing where no draft is refused by that number.
#[rustfmt::skip]
pub(crate) fn advice(number: u32) -> &'static str {
    match number {
        1 => "shorten comments and indentation, or move some items into a file of their own; each file is a draft",
        2 => "write an ASCII character instead, take it out, or keep it in a comment",
        3 => "take the character out: there are no operators (call a jet, such as `jet::add_32`), and no texts in quotes",
        4 => "close the comment",
        5 => "take another name",
        6 => "move some items into a file of their own; each file is a draft",
        7 => "give inner values a name by `let`, and use the name",
        8 => "most often an arm lacks its comma, a `let` its type, or a statement its `;`",
        9 => "take a power of two, such as the next one; the largest is 9,223,372,036,854,775,808",
        10 => "write the number of the array's elements",
        11 => "write its arms, two that belong together, such as `None` and `Some`, or those of an enum",
        12 => "keep one sort of arms; where the value is of an enum, each arm is a path, such as `A::None`, not `None`",
        13 => "write two arms, `Left` and `Right`, `None` and `Some`, or `false` and `true`, each once",
        14 => "pair `Left` with `Right`, `None` with `Some`, and `false` with `true`",
        15 => "lend a tree buffer of 917,511 words, which is enough for every draft",
        19 => "look for a digit too many in the length, which is the number of the array's elements",
        21 => "save the file as UTF-8, or convert it by `iconv -f ENCODING -t UTF-8 FILE > NEW`",
        _ => "",
    }
}
