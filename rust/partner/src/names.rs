//! Names that the rules tell apart, and the numbers that they test.

use crate::kinds::{call, record};

#[rustfmt::skip]
const BUILTIN_ALIASES: [&[u8]; 24] = [
    b"Ctx8", b"Pubkey", b"Message", b"Message64", b"Signature", b"Scalar", b"Fe", b"Ge", b"Gej",
    b"Point", b"Height", b"Time", b"Distance", b"Duration", b"Lock", b"Outpoint",
    b"Confidential1", b"ExplicitAsset", b"Asset1", b"ExplicitAmount", b"Amount1",
    b"ExplicitNonce", b"Nonce", b"TokenAmount1",
];

#[rustfmt::skip]
const FUNCTION_RESERVED: [&[u8]; 13] = [
    b"unwrap_left", b"unwrap_right", b"array_fold", b"for_while", b"is_none", b"unwrap",
    b"assert", b"panic", b"match", b"into", b"fold", b"dbg", b"raw_hash",
];

pub fn is_reserved(name: &[u8]) -> bool {
    FUNCTION_RESERVED.contains(&name)
}

/// `ALIAS_RESERVED`: every name that is a type already, with types of its own in angles or without.
pub fn is_reserved_type(name: &[u8]) -> bool {
    matches!(name, b"Either" | b"Option" | b"List") || named_type(name).0 != record::ALIAS
}

/// The call that a name begins when `::<` follows.
pub fn generic_call(name: &[u8]) -> Option<u32> {
    match name {
        b"unwrap_left" => Some(call::UNWRAP_LEFT),
        b"unwrap_right" => Some(call::UNWRAP_RIGHT),
        b"is_none" => Some(call::IS_NONE),
        b"raw_hash" => Some(call::RAW_HASH),
        b"fold" => Some(call::FOLD),
        b"array_fold" => Some(call::ARRAY_FOLD),
        b"for_while" => Some(call::FOR_WHILE),
        _ => None,
    }
}

/// Kind and low word of a type that is one name.
pub fn named_type(name: &[u8]) -> (u32, u32) {
    match name {
        b"bool" => (record::BOOL_TYPE, 0),
        b"u1" => (record::UNSIGNED, 1),
        b"u2" => (record::UNSIGNED, 2),
        b"u4" => (record::UNSIGNED, 4),
        b"u8" => (record::UNSIGNED, 8),
        b"u16" => (record::UNSIGNED, 16),
        b"u32" => (record::UNSIGNED, 32),
        b"u64" => (record::UNSIGNED, 64),
        b"u128" => (record::UNSIGNED, 128),
        b"u256" => (record::UNSIGNED, 256),
        _ => match BUILTIN_ALIASES.iter().position(|alias| *alias == name) {
            Some(order) => (record::BUILTIN, order as u32),
            None => (record::ALIAS, 0),
        },
    }
}

/// The value of a decimal text, `None` when it is over the largest 64-bit number.
pub fn decimal_value(text: &[u8]) -> Option<u64> {
    let mut digits = text.iter().filter(|byte| **byte != b'_');
    digits.try_fold(0u64, |value, digit| {
        value.checked_mul(10)?.checked_add(u64::from(digit - b'0'))
    })
}

/// A bound is a power of two, and not 1.
pub fn is_bound(value: u64) -> bool {
    value.count_ones() == 1 && value > 1
}

/// The size of an array that is folded is not 0.
pub fn is_size(value: u64) -> bool {
    value > 0
}

pub fn halves(number: u64) -> (u32, u32) {
    (number as u32, (number >> 32) as u32)
}
