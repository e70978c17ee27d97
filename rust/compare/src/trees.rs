//! Trees of records that no draft needs to give: built of kinds, with sizes that add up, ways that lead to the parents and
//! all places alike.

use partner::kinds::{arm, call, record};
use partner::Record;

pub type Tree = Vec<Record>;

/// A record over its children.
pub fn over(kind: u32, (low, high): (u32, u32), children: &[Tree]) -> Tree {
    let mut tree = vec![[kind, 0, 9, low, high, 1, 0]];
    for child in children {
        let way = tree.len();
        tree.extend_from_slice(child);
        tree[way][6] = way as u32;
    }
    tree[0][5] = tree.len() as u32;
    tree
}

pub fn name() -> Tree {
    over(record::NAME, (0, 0), &[])
}

/// The smallest type.
pub fn alias() -> Tree {
    over(record::ALIAS, (0, 0), &[])
}

pub fn pattern() -> Tree {
    over(record::IDENTIFIER_PATTERN, (0, 0), &[])
}

/// The smallest expression that is no block.
pub fn value() -> Tree {
    over(record::DECIMAL, (0, 0), &[])
}

/// Of so many statements, the last of them an expression where low is 1.
pub fn block(low: u32, statements: &[Tree]) -> Tree {
    over(record::BLOCK, (low, 0), statements)
}

pub fn program(items: &[Tree]) -> Tree {
    over(record::PROGRAM, (0, 0), items)
}

/// The number of a call.
pub fn number(low: u32) -> Tree {
    over(record::NUMBER, (low, 0), &[])
}

/// A built-in arm.
pub fn built_in_arm(low: u32) -> Tree {
    let children = match low {
        arm::LEFT | arm::RIGHT | arm::SOME => vec![pattern(), alias(), value()],
        _ => vec![value()],
    };
    over(record::BUILTIN_ARM, (low, 0), &children)
}

/// The smallest tree with this kind on top; a record alone for kinds that there are not.
pub fn smallest(kind: u32) -> Tree {
    let (low, children) = match kind {
        record::FUNCTION => (0, vec![name(), block(0, &[])]),
        record::PARAMETER | record::TYPE_ITEM => (0, vec![name(), alias()]),
        record::UNSIGNED => (1, vec![]),
        record::EITHER => (0, vec![alias(), alias()]),
        record::OPTION | record::ARRAY_TYPE => (0, vec![alias()]),
        record::LIST_TYPE => (2, vec![alias()]),
        record::LET => (0, vec![pattern(), alias(), value()]),
        record::LEFT | record::RIGHT | record::SOME | record::PARENTHESISED => (0, vec![value()]),
        record::ENUM_CONSTRUCTION => (2, vec![name(), name()]),
        record::MATCH => {
            let arms = [arm::FALSE, arm::TRUE].map(built_in_arm);
            (0, [vec![value()], arms.to_vec()].concat())
        }
        record::ENUM_MATCH => (0, vec![value(), smallest(record::ENUM_ARM)]),
        record::BUILTIN_ARM => return built_in_arm(arm::FALSE),
        record::ENUM_ARM => (2, vec![name(), name(), value()]),
        record::CALL => (call::UNWRAP, vec![]),
        record::NUMBER => return number(2),
        _ => (0, vec![]),
    };
    over(kind, (low, 0), &children)
}

/// Functions and files in which the tree stands where one of its kind may stand.
pub fn in_tops(tree: Tree) -> Vec<Tree> {
    let [kind, _, _, low, ..] = tree[0];
    let function = |low, high, children: &[Tree]| {
        let children = [&[name()], children].concat();
        vec![over(record::FUNCTION, (low, high), &children)]
    };
    let in_match =
        |kind, arms: [Tree; 2]| in_tops(over(kind, (0, 0), &[&[value()], &arms[..]].concat()));
    let in_call = |low| in_tops(over(record::CALL, (low, 0), &[name(), tree.clone()]));
    match kind {
        record::FUNCTION | record::TYPE_ITEM => vec![program(std::slice::from_ref(&tree)), tree],
        record::PROGRAM => vec![tree],
        record::NAME => vec![over(record::FUNCTION, (0, 0), &[tree, block(0, &[])])],
        record::PARAMETER => function(0, 1, &[tree, block(0, &[])]),
        record::ALIAS..=record::LIST_TYPE => function(2, 0, &[tree, block(0, &[])]),
        record::IDENTIFIER_PATTERN..=record::ARRAY_PATTERN => {
            in_tops(over(record::LET, (0, 0), &[tree, alias(), value()]))
        }
        record::LET => function(0, 0, &[block(0, &[tree])]),
        // The other arm is the one that belongs to it.
        record::BUILTIN_ARM if low % 2 == 0 => {
            in_match(record::MATCH, [built_in_arm(low.max(1) - 1), tree])
        }
        record::BUILTIN_ARM => in_match(record::MATCH, [tree, built_in_arm(low.saturating_add(1))]),
        record::ENUM_ARM => in_match(record::ENUM_MATCH, [tree, smallest(record::ENUM_ARM)]),
        record::NUMBER => [in_call(call::FOLD), in_call(call::ARRAY_FOLD)].concat(),
        _ => function(0, 0, &[block(1, &[tree])]),
    }
}
