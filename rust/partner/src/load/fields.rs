//! What low and high may be: 0 unless the kind's row says otherwise.

use crate::kinds::{arm, call, record};
use crate::names::is_bound;
use crate::Record;

/// The last of the built-in aliases.
const LAST_BUILTIN: u32 = 23;
/// A path has two names or more.
const LEAST_NAMES: u32 = 2;

pub fn allowed(record: &Record) -> bool {
    let [kind, _, _, low, high, ..] = *record;
    match kind {
        // `pub` adds 1 and a result type 2; high counts the parameters.
        record::FUNCTION => low <= 3,
        record::BUILTIN => low <= LAST_BUILTIN && high == 0,
        record::UNSIGNED => low.is_power_of_two() && low <= 256 && high == 0,
        record::LIST_TYPE => is_bound(number(record)),
        // Of an array type and of a call's number any 64 bits; the call says which it takes.
        record::ARRAY_TYPE | record::NUMBER => true,
        record::BLOCK | record::BOOLEAN => low <= 1 && high == 0,
        record::ENUM_CONSTRUCTION => low >= LEAST_NAMES && high == 0,
        // High counts the patterns with their types.
        record::ENUM_ARM => low >= LEAST_NAMES,
        record::BUILTIN_ARM => (arm::LEFT..=arm::TRUE).contains(&low) && high == 0,
        record::CALL => (call::JET..=call::RAW_HASH).contains(&low) && high == 0,
        _ => low == 0 && high == 0,
    }
}

/// Low and high as one number.
pub fn number(record: &Record) -> u64 {
    u64::from(record[4]) << 32 | u64::from(record[3])
}
