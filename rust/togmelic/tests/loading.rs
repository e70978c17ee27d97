//! Listings come back: round trips, each refusal, and word buffers of every telling length.
//! Buffers are filled with garbage before each call, so that a word that is not written shows.

use togmelic::{
    listing, load, load_into, read, LoadRefusal, Record, LINE, RECORD_WORDS, SHORT_LINE,
};

const GARBAGE: u32 = 0xAAAA_AAAA;

/// As document 01 prints it, "The listing program", with the way up: one function alone.
const LINES: &[u8] = b"\
01 0000 0022 00000000 00000000 0009 0000
02 0003 0004 00000000 00000000 0001 0001
12 0006 0022 00000001 00000000 0007 0002
23 0007 0021 00000000 00000000 0006 0001
1D 000D 000E 00000000 00000000 0001 0001
25 0017 0020 00000005 00000000 0002 0002
18 001E 001F 00000000 00000000 0001 0001
25 000F 0017 00000006 00000000 0002 0004
18 0015 0016 00000000 00000000 0001 0001
";
#[rustfmt::skip]
const WORDS: [u32; 63] = [
    1, 0, 34, 0, 0, 9, 0,
    2, 3, 4, 0, 0, 1, 1,
    18, 6, 34, 1, 0, 7, 2,
    35, 7, 33, 0, 0, 6, 1,
    29, 13, 14, 0, 0, 1, 1,
    37, 23, 32, 5, 0, 2, 2,
    24, 30, 31, 0, 0, 1, 1,
    37, 15, 23, 6, 0, 2, 4,
    24, 21, 22, 0, 0, 1, 1,
];

/// One function for each group of kinds, and one with the largest lengths.
const DRAFTS: [&str; 8] = [
    "fn f(){}",
    "pub fn f(a:u8,b:Point)->Either<Option<bool>,List<([_;0],),9223372036854775808>>{}",
    "fn f(a:[u8;18446744073709551615])->[u8;18446744073709551614]{}",
    "fn f(){let (a,[_]):(u1,x)=Left(Right(Some(None)));((),(1,),(1),[0x1],list![0b1,],true)}",
    "fn f(){match A::B(1){Right(x:u8)=>witness::w,Left(x:u8)=>{param::p;}}}",
    "fn f(){match x{A::B=>1,A::B::C(x:u8,_:u8)=>{}}}",
    "fn f(){jet::j(1);unwrap(1);<u8>::into(1);is_none::<u8>(1);Left(1,);assert!(x);}",
    "fn f(){fold::<g,2>(x);array_fold::<g,18446744073709551615>();for_while::<g>(x)}",
];

/// Files of other than one function.
const FILES: [&str; 5] = [
    "",
    " // no item",
    "type A = Either<u8, [A; 18446744073709551615]>;",
    "fn f(){}fn f(){}",
    "type A=u8; pub fn f(a:A)->A{match a{true=>1,false=>2,}} type B=List<(A,),2>;",
];
/// A line of an empty file.
const EMPTY: &[u8] = b"29 0000 0000 00000000 00000000 0001 0000\n";

/// Loads with a buffer of that many words: the answer, and the whole buffer afterwards.
fn loaded(listing: &[u8], length: usize) -> (Result<usize, LoadRefusal>, Vec<u32>) {
    let mut words = vec![GARBAGE; length];
    let answer = load_into(listing, &mut words);
    (answer, words)
}

/// Sees that the listing is refused, with every word zero.
fn assert_refused(listing: &[u8], length: usize, number: usize, line: usize) {
    let refusal = LoadRefusal { number, line };
    assert_eq!(loaded(listing, length), (Err(refusal), vec![0; length]));
}

/// The lines as they were before the way up.
fn shortened(lines: &[u8]) -> Vec<u8> {
    let short = |line: &[u8]| [&line[..SHORT_LINE - 1], b"\n"].concat();
    lines.chunks(LINE).flat_map(short).collect()
}

/// The example with some bytes of a line, from 1, replaced.
fn changed(line: usize, at: usize, text: &[u8]) -> Vec<u8> {
    let mut listing = LINES.to_vec();
    let from = LINE * (line - 1) + at;
    listing[from..from + text.len()].copy_from_slice(text);
    listing
}

fn written(record: &Record) -> String {
    format!(
        "{:02X} {:04X} {:04X} {:08X} {:08X} {:04X} {:04X}\n",
        record.kind.number(),
        record.start,
        record.end,
        record.low,
        record.high,
        record.size,
        record.up
    )
}

#[test]
fn example_word_for_word() {
    assert_eq!(loaded(LINES, 63), (Ok(9), WORDS.to_vec()));
    assert_eq!(loaded(&shortened(LINES), 63), (Ok(9), WORDS.to_vec()));
    let records: Vec<Record> = WORDS
        .chunks_exact(RECORD_WORDS)
        .filter_map(|words| Record::from_words(words.try_into().ok()?))
        .collect();
    assert_eq!(load(LINES), Ok(records));
}

#[test]
fn written_and_loaded() {
    for draft in DRAFTS.iter().chain(&FILES) {
        let lines = listing(draft.as_bytes());
        let tree = load(&lines).expect(draft);
        assert_eq!(read(draft.as_bytes()), Ok(tree.clone()), "{draft}");
        let again: String = tree.iter().map(written).collect();
        assert_eq!(again.as_bytes(), lines, "{draft}");
        let short = shortened(&lines);
        assert_eq!(load(&short), Ok(tree.clone()), "{draft}");
        // Without the program's line it is a listing only where the draft is one function, and the way up of that one
        // is then worked out anew; where the lines say it, it is wrong.
        let refused = Err(LoadRefusal {
            number: 17,
            line: 0,
        });
        let function = load(&short[SHORT_LINE..]);
        if DRAFTS.contains(draft) {
            let mut alone = tree[1..].to_vec();
            alone[0].up = 0;
            assert_eq!(function, Ok(alone), "{draft}");
        } else {
            assert_eq!(function, refused, "{draft}");
        }
        assert_eq!(load(&lines[LINE..]), refused, "{draft}");
    }
}

/// Every other line of another form than the first, and lines of none.
#[test]
fn lines_of_another_form() {
    let short = shortened(LINES);
    for line in 1..9 {
        let (long, shorter) = (LINE * line, SHORT_LINE * line);
        assert_refused(
            &[&LINES[..long], &short[shorter..]].concat(),
            63,
            16,
            line + 1,
        );
        assert_refused(
            &[&short[..shorter], &LINES[long..]].concat(),
            63,
            16,
            line + 1,
        );
    }
    assert_refused(&short[..short.len() - 1], 63, 16, 9);
    for first in ["0 ", "000\n", "00000\n", "0000\r\n", "000g\n"] {
        let line = [b"01 0000 0022 00000000 00000000 0009 ", first.as_bytes()].concat();
        assert_refused(&[&line, &LINES[LINE..]].concat(), 63, 16, 1);
        assert_refused(&[&line, &short[SHORT_LINE..]].concat(), 63, 16, 1);
    }
}

#[test]
fn wrong_ways() {
    for (line, right) in WORDS.chunks(RECORD_WORDS).map(|words| words[6]).enumerate() {
        for way in (0..20).chain([0xFF, 0x100 + right, 0xFFFF]) {
            let listing = changed(line + 1, 36, format!("{way:04X}").as_bytes());
            match way == right {
                true => assert_eq!(loaded(&listing, 63), (Ok(9), WORDS.to_vec())),
                false => assert_refused(&listing, 63, 17, 0),
            }
        }
    }
    // As the arms were written.
    let mut written = changed(6, 36, b"0004");
    written[LINE * 8 - 5..LINE * 8 - 1].copy_from_slice(b"0002");
    assert_refused(&written, 62, 17, 0);
}

#[test]
fn lines_not_in_form() {
    for length in (0..LINES.len()).filter(|length| length % LINE > 0) {
        assert_refused(&LINES[..length], 63, 16, length / LINE + 1);
    }
    for (at, text) in [
        (0, "1d"),
        (0, "1G"),
        (2, "-"),
        (12, "0"),
        (35, "0"),
        (36, "g"),
        (39, " "),
        (40, " "),
    ] {
        for line in 1..=9 {
            assert_refused(&changed(line, at, text.as_bytes()), 63, 16, line);
        }
    }
    // The first bad line, and before 17 and 18.
    let mut twice = changed(4, 0, b"x");
    twice[LINE * 7] = b'x';
    assert_refused(&twice, 0, 16, 4);
    assert_refused(b"\n", 0, 16, 1);
    assert_eq!(
        load(b"x"),
        Err(LoadRefusal {
            number: 16,
            line: 1
        })
    );
}

#[test]
fn lines_of_no_function() {
    assert_refused(b"", 0, 17, 0);
    assert_refused(&listing(b"fn f("), 63, 17, 0);
    assert_refused(&[LINES, LINES].concat(), 126, 17, 0);
    for lines in 1..9 {
        assert_refused(&LINES[..LINE * lines], 63, 17, 0);
    }
    // Size, place, low of the arms, kind; and before 18.
    assert_refused(&changed(1, 31, b"000A"), 63, 17, 0);
    assert_refused(&changed(2, 8, b"0003"), 63, 17, 0);
    assert_refused(&changed(5, 8, b"0022"), 63, 17, 0);
    assert_refused(&changed(6, 20, b"6"), 63, 17, 0);
    assert_refused(&changed(5, 0, b"02"), 62, 17, 0);
}

#[test]
fn files() {
    for empty in [EMPTY, &shortened(EMPTY)] {
        let (count, words) = loaded(empty, 9);
        assert_eq!((count, words), (Ok(1), vec![41, 0, 0, 0, 0, 1, 0, 0, 0]));
        assert_refused(empty, 6, 18, 0);
    }
    // The function's way up is 1 below a program.
    let below = changed(1, 36, b"0001");
    let program = |start: &str, end: &str, low: &str, size: &str| {
        let line = format!("29 {start} {end} {low} 00000000 {size} 0000\n");
        [line.as_bytes(), &below].concat()
    };
    let file = program("0000", "0022", "00000000", "000A");
    let mut expected = [&[41, 0, 34, 0, 0, 10, 0], &WORDS[..]].concat();
    expected[13] = 1;
    assert_eq!(loaded(&file, 70), (Ok(10), expected));
    assert_refused(&[&file[..LINE], LINES].concat(), 70, 17, 0);
    assert!(load(&program("0000", "FFFF", "00000000", "000A")).is_ok());
    // A program starts at 0, ends behind its items, has no low and counts all lines.
    assert_refused(&program("0001", "0022", "00000000", "000A"), 70, 17, 0);
    assert_refused(&program("0000", "0021", "00000000", "000A"), 70, 17, 0);
    assert_refused(&program("0000", "0000", "00000000", "000A"), 70, 17, 0);
    assert_refused(&program("0000", "0022", "00000001", "000A"), 70, 17, 0);
    assert_refused(&program("0000", "0022", "00000000", "0001"), 70, 17, 0);
    assert_refused(b"29 0001 0002 00000000 00000000 0001 0000\n", 7, 17, 0);
    // It is first, and once; a type item stands below it alone.
    assert_refused(&[LINES, EMPTY].concat(), 70, 17, 0);
    assert_refused(&[EMPTY, EMPTY].concat(), 70, 17, 0);
    assert_refused(&changed(5, 0, b"29"), 63, 17, 0);
    assert_refused(&changed(5, 0, b"2A"), 63, 17, 0);
    assert_refused(&changed(1, 0, b"2A"), 63, 17, 0);
    assert_refused(&changed(1, 0, b"29"), 63, 17, 0);
}

#[test]
fn buffers() {
    for listing in [LINES, &shortened(LINES)] {
        for length in 0..63 {
            assert_refused(listing, length, 18, 0);
        }
        for length in 63..80 {
            let mut words = WORDS.to_vec();
            words.resize(length, 0);
            assert_eq!(loaded(listing, length), (Ok(9), words));
        }
    }
}

/// The longest chain that four digits count, loaded by a thread with 16 KiB of stack, of which its start takes some.
#[test]
fn deepest() {
    let blocks = (1..0xFFFE).rev().map(|size| {
        let (low, up) = (u32::from(size > 1), if size == 0xFFFD { 2 } else { 1 });
        format!("12 0000 0001 {low:08X} 00000000 {size:04X} {up:04X}\n")
    });
    let lines = "01 0000 0001 00000000 00000000 FFFF 0000\n\
                 02 0000 0001 00000000 00000000 0001 0001\n"
        .to_string()
        + &blocks.collect::<String>();
    for lines in [shortened(lines.as_bytes()), lines.into_bytes()] {
        let mut words = vec![GARBAGE; 0xFFFF * RECORD_WORDS];
        let thread = std::thread::Builder::new().stack_size(16 << 10);
        let loader = thread.spawn(move || load_into(&lines, &mut words));
        assert_eq!(
            loader.expect("a thread").join().expect("an answer"),
            Ok(0xFFFF)
        );
    }
}

#[test]
fn refusals_in_words() {
    let refusal = |number, line| LoadRefusal { number, line }.to_string();
    assert_eq!(
        refusal(16, 3),
        "refusal 16 at line 3: the line is in none of the three forms, or in another than the first line, or longer than need be"
    );
    assert_eq!(
        refusal(16, 1),
        "refusal 16 at line 1: the line is in none of the three forms, or in another than the first line, or longer than need be"
    );
    assert_eq!(
        refusal(17, 0),
        "refusal 17: the lines form neither one file nor one function, or a way up does not lead to the parent"
    );
    assert_eq!(refusal(18, 0), "refusal 18: the record buffer is too short");
}
