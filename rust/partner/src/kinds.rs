//! The numbers of the papers' tables: refusals, tokens, records, calls and arms.

/// Gives each name of a module its number, counted up from the first.
macro_rules! numbered {
    ($module:ident from $first:literal: $($name:ident)*) => {
        pub mod $module {
            #[allow(non_camel_case_types, clippy::upper_case_acronyms)]
            enum Order { $($name),* }
            $(pub const $name: u32 = $first + Order::$name as u32;)*
        }
    };
}

// Refusals, in the order of their numbers. `TEXT_TOO_SMALL` is no answer of this reader.
numbered! {
    refusal from 1:
        DRAFT_TOO_LONG NOT_ASCII NO_LEXEME UNCLOSED_COMMENT RESERVED_SIMC TOO_MANY_TOKENS
        TOO_DEEP NOT_WELL_SHAPED BOUND_NOT_POW2 ARRAY_SIZE NO_ARMS MIXED_ARMS NOT_TWO_ARMS
        INCOMPATIBLE_ARMS TREE_TOO_SMALL BAD_LINE NOT_ONE_TREE RECORDS_TOO_SMALL ARRAY_LENGTH
        TEXT_TOO_SMALL NOT_UTF8
}

// Kinds of tokens, in the order of `Token`; `END` stands after the last token.
numbered! {
    token from 0:
        END PUB USE AS FN LET TYPE MOD CONST MATCH ENUM CRATE SIMC ARROW DOUBLE_COLON COLON SEMI
        COMMA EQ FAT_ARROW L_PAREN R_PAREN L_BRACKET R_BRACKET L_BRACE R_BRACE L_ANGLE R_ANGLE
        DEC_LITERAL HEX_LITERAL BIN_LITERAL BOOL IDENT JET WITNESS PARAM MACRO
}

// Kinds of records.
numbered! {
    record from 1:
        FUNCTION NAME PARAMETER ALIAS BUILTIN BOOL_TYPE UNSIGNED EITHER OPTION TUPLE_TYPE
        ARRAY_TYPE LIST_TYPE IDENTIFIER_PATTERN IGNORE_PATTERN TUPLE_PATTERN ARRAY_PATTERN LET
        BLOCK LEFT RIGHT SOME NONE BOOLEAN DECIMAL HEXADECIMAL BINARY WITNESS PARAMETER_VALUE
        VARIABLE PARENTHESISED TUPLE ARRAY LIST ENUM_CONSTRUCTION MATCH ENUM_MATCH BUILTIN_ARM
        ENUM_ARM CALL NUMBER PROGRAM TYPE_ITEM
}

// Calls, in the order of `CallName`.
numbered! {
    call from 1:
        JET UNWRAP_LEFT UNWRAP_RIGHT UNWRAP IS_NONE ASSERT PANIC DEBUG TYPE_CAST CUSTOM FOLD
        ARRAY_FOLD FOR_WHILE RAW_HASH
}

// Built-in arms; a pair that belongs together is an odd number and the one after it.
numbered! {
    arm from 1:
        LEFT RIGHT NONE SOME FALSE TRUE
}
