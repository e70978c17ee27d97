//! What the numbers of a listing stand for: kinds of records, calls, built-in arms and built-in types. docs/KINDS.md has
//! the tables. Made by tools/kinds.py.

use crate::numbered::numbered;

numbered! {
    /// What a record is: the first number of its line. Beside each stand its number there and its children, or its token
    /// where it has none. Import no cases by `*`: `Some` and `None` would hide those of `Option`.
    Kind {
        /// `01`: name, any number of parameters, type if any, block.
        /// `low`: 0 to 3: 1 for `pub`, plus 2 for a result type; `high`: how many parameters.
        Function = 1 => "function",
        /// `02`: a name, or a jet such as `jet::add_32`.
        Name = 2 => "name",
        /// `03`: name, type.
        Parameter = 3 => "parameter",
        /// `04`: a name but those of kinds 5 to 7.
        Alias = 4 => "alias",
        /// `05`: the name of a built-in type.
        /// `low`: 0 to 23: which type.
        Builtin = 5 => "builtin",
        /// `06`: `bool`.
        BoolType = 6 => "bool type",
        /// `07`: one of `u1` `u2` `u4` `u8` `u16` `u32` `u64` `u128` `u256`.
        /// `low`: 1, 2, 4, 8, 16, 32, 64, 128 or 256: how many bits.
        Unsigned = 7 => "unsigned",
        /// `08`: two types.
        EitherType = 8 => "Either type",
        /// `09`: type.
        OptionType = 9 => "Option type",
        /// `0A`: any number of types.
        TupleType = 10 => "tuple type",
        /// `0B`: type.
        /// `low`: the number: its lower 32 bits; `high`: its upper 32 bits.
        ArrayType = 11 => "array type",
        /// `0C`: type.
        /// `low`: the bound: its lower 32 bits; `high`: its upper 32 bits.
        ListType = 12 => "list type",
        /// `0D`: a name but `_`.
        IdentifierPattern = 13 => "identifier pattern",
        /// `0E`: `_`.
        IgnorePattern = 14 => "ignore pattern",
        /// `0F`: any number of patterns.
        TuplePattern = 15 => "tuple pattern",
        /// `10`: any number of patterns.
        ArrayPattern = 16 => "array pattern",
        /// `11`: pattern, type, expression.
        Let = 17 => "let",
        /// `12`: any number of elements, expression if any.
        /// `low`: 0 or 1: 1 where an expression without `;` ends it.
        Block = 18 => "block",
        /// `13`: expression.
        Left = 19 => "Left",
        /// `14`: expression.
        Right = 20 => "Right",
        /// `15`: expression.
        Some = 21 => "Some",
        /// `16`: `None`.
        None = 22 => "None",
        /// `17`: one of `false` `true`.
        /// `low`: 0 or 1: 0 is `false`, 1 `true`.
        Boolean = 23 => "boolean",
        /// `18`: a decimal number.
        Decimal = 24 => "decimal",
        /// `19`: a hexadecimal number such as `0x2A`.
        Hexadecimal = 25 => "hexadecimal",
        /// `1A`: a binary number such as `0b101`.
        Binary = 26 => "binary",
        /// `1B`: a witness such as `witness::W`.
        Witness = 27 => "witness",
        /// `1C`: a parameter such as `param::P`.
        ParameterValue = 28 => "parameter value",
        /// `1D`: a name but `None`.
        Variable = 29 => "variable",
        /// `1E`: expression.
        Parenthesised = 30 => "parenthesised",
        /// `1F`: any number of expressions.
        Tuple = 31 => "tuple",
        /// `20`: any number of expressions.
        Array = 32 => "array",
        /// `21`: any number of expressions.
        List = 33 => "list",
        /// `22`: two or more names, any number of expressions.
        /// `low`: how many names.
        EnumConstruction = 34 => "enum construction",
        /// `23`: expression, two built-in arms.
        Match = 35 => "match",
        /// `24`: expression, one or more enum arms.
        EnumMatch = 36 => "enum match",
        /// `25`: pattern and type if any, expression.
        /// `low`: 1 to 6: which arm.
        BuiltinArm = 37 => "built-in arm",
        /// `26`: two or more names, any number of patterns, each with its type, expression.
        /// `low`: how many names; `high`: how many patterns.
        EnumArm = 38 => "enum arm",
        /// `27`: children by its [`Call`].
        /// `low`: 1 to 14: which call.
        Call = 39 => "call",
        /// `28`: a decimal number.
        /// `low`: the number: its lower 32 bits; `high`: its upper 32 bits.
        Number = 40 => "number",
        /// `29`: any number of items.
        Program = 41 => "program",
        /// `2A`: name, type.
        TypeItem = 42 => "type item",
    }
}

numbered! {
    /// What is called: `low` of a [`Kind::Call`].
    Call {
        /// `jet::x(..)`.
        Jet = 1 => "jet",
        /// `unwrap_left::<T>(..)`.
        UnwrapLeft = 2 => "unwrap_left",
        /// `unwrap_right::<T>(..)`.
        UnwrapRight = 3 => "unwrap_right",
        /// `unwrap(..)`.
        Unwrap = 4 => "unwrap",
        /// `is_none::<T>(..)`.
        IsNone = 5 => "is_none",
        /// `assert!(..)`.
        Assert = 6 => "assert!",
        /// `panic!(..)`.
        Panic = 7 => "panic!",
        /// `dbg!(..)`.
        Debug = 8 => "dbg!",
        /// `<T>::into(..)`.
        TypeCast = 9 => "into",
        /// `f(..)`.
        Custom = 10 => "function",
        /// `fold::<f, n>(..)`.
        Fold = 11 => "fold",
        /// `array_fold::<f, n>(..)`.
        ArrayFold = 12 => "array_fold",
        /// `for_while::<f>(..)`.
        ForWhile = 13 => "for_while",
        /// `raw_hash::<T>(..)`.
        RawHash = 14 => "raw_hash",
    }
}

numbered! {
    /// Which built-in arm: `low` of a [`Kind::BuiltinArm`].
    Arm {
        /// `Left(p: T) => e,`.
        Left = 1 => "Left",
        /// `Right(p: T) => e,`.
        Right = 2 => "Right",
        /// `None => e,`.
        None = 3 => "None",
        /// `Some(p: T) => e,`.
        Some = 4 => "Some",
        /// `false => e,`.
        False = 5 => "false",
        /// `true => e,`.
        True = 6 => "true",
    }
}

numbered! {
    /// Which built-in type: `low` of a [`Kind::Builtin`]. A record of [`Kind::Alias`], a type by another name, has none.
    Alias {
        Ctx8 = 0 => "Ctx8",
        Pubkey = 1 => "Pubkey",
        Message = 2 => "Message",
        Message64 = 3 => "Message64",
        Signature = 4 => "Signature",
        Scalar = 5 => "Scalar",
        Fe = 6 => "Fe",
        Ge = 7 => "Ge",
        Gej = 8 => "Gej",
        Point = 9 => "Point",
        Height = 10 => "Height",
        Time = 11 => "Time",
        Distance = 12 => "Distance",
        Duration = 13 => "Duration",
        Lock = 14 => "Lock",
        Outpoint = 15 => "Outpoint",
        Confidential1 = 16 => "Confidential1",
        ExplicitAsset = 17 => "ExplicitAsset",
        Asset1 = 18 => "Asset1",
        ExplicitAmount = 19 => "ExplicitAmount",
        Amount1 = 20 => "Amount1",
        ExplicitNonce = 21 => "ExplicitNonce",
        Nonce = 22 => "Nonce",
        TokenAmount1 = 23 => "TokenAmount1",
    }
}
