//! All strings of a few lexemes, each placed where it tells most. The lexemes of a place stand apart by spaces,
//! so that they are read as written; a piece may be several lexemes that mostly stand together.

use crate::comparison::Comparison;
use crate::strings;

struct Place {
    before: &'static str,
    pieces: &'static str,
    /// All strings of so many pieces or fewer are compared.
    all: usize,
    /// And so many are, where what comes before the last piece is not refused for its shape already.
    most: usize,
    after: &'static str,
}

const GENERAL: &str =
    "fn f ( ) { } match x , ; : :: = => < > let Left None 1 fold true list! jet::j";

const WHOLE: Place = Place {
    before: "",
    pieces: GENERAL,
    all: 4,
    most: 9,
    after: "",
};

const BODY: Place = Place {
    before: "fn f(){",
    pieces: GENERAL,
    all: 4,
    most: 7,
    after: "}",
};

/// Parameters and the result.
const HEAD: Place = Place {
    before: "pub fn Left(",
    pieces: "a:u8 _:() x : u8 , ) -> ( fold match",
    all: 4,
    most: 8,
    after: "{}",
};

const TYPES: &str =
    "Either< Option< List< [ ( u8 u7 Point _ , ,2> ,1> > ;0] ;18446744073709551616] )";

const TYPE: Place = Place {
    before: "fn f(a:",
    pieces: TYPES,
    all: 4,
    most: 7,
    after: "){}",
};

const PATTERN: Place = Place {
    before: "fn f(){let ",
    pieces: "x _ None ( ) [ ] , :u8 = 1 ; let",
    all: 4,
    most: 8,
    after: ":u8=1;}",
};

const CALL: Place = Place {
    before: "fn f(){",
    pieces: "fold array_fold for_while unwrap unwrap_left unwrap_right is_none raw_hash <u8 > :: ::<g ::<u8 ,2 ,0 into \
             assert! jet::j list! Some A ( , ) [ ]",
    all: 3,
    most: 7,
    after: "(x)}",
};

const ARMS: Place = Place {
    before: "fn f(){match x{",
    pieces: "true=> false=> None=> Left(x:u8)=> Right(_:())=> Some(x:u8)=> A::B=> A::B(x:u8,)=> \
             1, {} , 1",
    all: 4,
    most: 7,
    after: "}}",
};

/// What files are made of, whole functions among it; the tab is the gap inside one.
const ITEMS: Place = Place {
    before: "",
    pieces: "type pub fn\tf(){} A u8 = ; [A;2]",
    all: 6,
    most: 14,
    after: "",
};

const TYPE_ITEM: Place = Place {
    before: "fn f(){}type A=",
    pieces: TYPES,
    all: 3,
    most: 6,
    after: ";fn f(){}",
};

pub fn all(comparison: &mut Comparison) {
    for place in [
        WHOLE, BODY, HEAD, TYPE, PATTERN, CALL, ARMS, ITEMS, TYPE_ITEM,
    ] {
        compare(&place, comparison);
    }
}

fn compare(place: &Place, comparison: &mut Comparison) {
    let pieces: Vec<&[u8]> = place.pieces.split(' ').map(str::as_bytes).collect();
    let mut draft = Vec::new();
    strings::each(&pieces, &mut |string| {
        draft.clear();
        draft.extend_from_slice(place.before.as_bytes());
        draft.extend_from_slice(&string.join(&b' '));
        let shared = draft.len();
        draft.extend_from_slice(place.after.as_bytes());
        comparison.check_short(&draft);
        // A longer string has the same bytes up to `shared`, and so the same refusal if that lies before.
        let goes_on = comparison.cut().is_none_or(|at| at >= shared);
        string.len() < if goes_on { place.most } else { place.all }
    });
}
