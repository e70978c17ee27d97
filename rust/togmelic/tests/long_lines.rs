//! Lines of 49 bytes: the records that they give, and the listings of them that are loaded, or refused with 16 where lines of
//! 41 bytes would do.

use togmelic::{
    listing, listing_within, load, load_into, read_within, records, Kind, Limits, LoadRefusal,
    NoRecord, Record, Refusal, LINE, LONG_LINE, RECORD_WORDS, SHORT_LINE,
};

/// The listing of `fn f(){}` behind a comment of 65,536 bytes.
const LINES: &[u8; 4 * LONG_LINE] = b"\
29 000000 010008 00000000 00000000 000004 000000
01 010000 010008 00000000 00000000 000003 000001
02 010003 010004 00000000 00000000 000001 000001
12 010006 010008 00000000 00000000 000001 000002
";
#[rustfmt::skip]
const WORDS: [u32; 28] = [
    41, 0, 65_544, 0, 0, 4, 0,
    1, 65_536, 65_544, 0, 0, 3, 1,
    2, 65_539, 65_540, 0, 0, 1, 1,
    18, 65_542, 65_544, 0, 0, 1, 2,
];

/// The bytes of a line: where `d` stands, any digit, else the byte itself.
const FORM: &[u8; LONG_LINE] = b"dd dddddd dddddd dddddddd dddddddd dddddd dddddd\n";

fn draft() -> Vec<u8> {
    let mut draft = vec![b'a'; 65_536];
    draft[..2].copy_from_slice(b"//");
    draft[65_535] = b'\n';
    draft.extend(b"fn f(){}");
    draft
}

fn four() -> Vec<Record> {
    WORDS
        .chunks_exact(RECORD_WORDS)
        .filter_map(|words| Record::from_words(words.try_into().ok()?))
        .collect()
}

type Answers = Vec<Result<Record, NoRecord>>;

fn answers(lines: &[u8]) -> Answers {
    records(lines).collect()
}

/// Loads with a buffer of that many words, filled before: the answer, and the whole buffer afterwards.
fn loaded(listing: &[u8], length: usize) -> (Result<usize, LoadRefusal>, Vec<u32>) {
    let mut words = vec![0xAAAA_AAAA; length];
    let answer = load_into(listing, &mut words);
    (answer, words)
}

/// Sees that the listing is refused, with every word zero.
fn assert_refused(listing: &[u8], length: usize, number: usize, line: usize) {
    let refusal = LoadRefusal { number, line };
    let text = String::from_utf8_lossy(listing);
    assert_eq!(
        loaded(listing, length),
        (Err(refusal), vec![0; length]),
        "{text}"
    );
}

/// The listing with one byte changed.
fn changed(at: usize, byte: u8) -> Vec<u8> {
    let mut lines = LINES.to_vec();
    lines[at] = byte;
    lines
}

fn written(record: &Record) -> String {
    format!(
        "{:02X} {:06X} {:06X} {:08X} {:08X} {:06X} {:06X}\n",
        record.kind.number(),
        record.start,
        record.end,
        record.low,
        record.high,
        record.size,
        record.up
    )
}

/// The lines of 41 or of 36 bytes with six digits for each place, and a way up where they have none.
fn lengthened(lines: &[u8], bytes: usize) -> Vec<u8> {
    let long = |line: &[u8]| {
        let text = std::str::from_utf8(line).expect("ASCII");
        let fields: Vec<&str> = text.split_whitespace().collect();
        let up = fields.get(6).unwrap_or(&"0000");
        let [kind, start, end, low, high, size] = fields[..6] else {
            panic!("six fields: {text}");
        };
        format!("{kind} 00{start} 00{end} {low} {high} 00{size} 00{up}\n").into_bytes()
    };
    lines.chunks(bytes).flat_map(long).collect()
}

fn shortened(lines: &[u8]) -> Vec<u8> {
    let short = |line: &[u8]| [&line[..SHORT_LINE - 1], b"\n"].concat();
    lines.chunks(LINE).flat_map(short).collect()
}

#[test]
fn written_and_loaded() {
    let draft = draft();
    let lines = listing_within(&draft, Limits::Large);
    assert_eq!(lines, LINES);
    assert_eq!(read_within(&draft, Limits::Large), Ok(four()));
    assert_eq!(
        answers(&lines),
        four().into_iter().map(Ok).collect::<Answers>()
    );
    assert_eq!(load(&lines), Ok(four()));
    let again: String = four().iter().map(written).collect();
    assert_eq!(again.as_bytes(), lines);
    for length in 0..WORDS.len() {
        assert_refused(&lines, length, 18, 0);
    }
    for length in WORDS.len()..WORDS.len() + 20 {
        let mut words = WORDS.to_vec();
        words.resize(length, 0);
        assert_eq!(loaded(&lines, length), (Ok(4), words));
    }
}

/// What a line of 49 bytes gives, by the rule of its form.
fn by_rule(line: &[u8], at: usize) -> Result<Record, NoRecord> {
    let is_so = |(byte, form): (&u8, &u8)| match form {
        b'd' => b"0123456789ABCDEF".contains(byte),
        _ => byte == form,
    };
    if line.len() != LONG_LINE || !line.iter().zip(FORM).all(is_so) {
        return Err(NoRecord::BadLine(at));
    }
    let text = std::str::from_utf8(line).expect("ASCII").trim_end();
    let numbers = text.split(' ').map(|field| u32::from_str_radix(field, 16));
    let words: Result<Vec<u32>, _> = numbers.collect();
    let words: [u32; RECORD_WORDS] = words.expect("numbers").try_into().expect("seven");
    match words {
        [0, place, _, number, ..] => Err(NoRecord::Refused(Refusal {
            number,
            place: place as usize,
        })),
        words => Record::from_words(words).ok_or(NoRecord::BadLine(at)),
    }
}

/// Each byte as each other byte: `records` gives what the rule says, and what is not in form is refused at its line.
#[test]
fn every_byte_changed() {
    for at in 0..LINES.len() {
        for byte in (0..=255).filter(|byte| *byte != LINES[at]) {
            let lines = changed(at, byte);
            let line = at / LONG_LINE;
            let mut expected: Answers = four().into_iter().map(Ok).collect();
            expected[line] = by_rule(&lines[LONG_LINE * line..][..LONG_LINE], line + 1);
            if expected[line].is_err() {
                expected.truncate(line + 1);
            }
            assert_eq!(answers(&lines), expected, "{at} {byte}");
            let in_form = match FORM[at % LONG_LINE] {
                b'd' => b"0123456789ABCDEF".contains(&byte),
                form => byte == form,
            };
            let refusal = load(&lines).err();
            let bad = (!in_form).then_some(LoadRefusal {
                number: 16,
                line: line + 1,
            });
            let is_bad = refusal.filter(|refusal| refusal.number == 16);
            assert_eq!(is_bad, bad, "{at} {byte}");
        }
    }
}

#[test]
fn cut_off() {
    for length in 0..LINES.len() {
        let (whole, over) = (length / LONG_LINE, length % LONG_LINE);
        let mut expected: Answers = four().into_iter().take(whole).map(Ok).collect();
        if over > 0 {
            expected.push(Err(NoRecord::BadLine(whole + 1)));
        }
        assert_eq!(answers(&LINES[..length]), expected, "{length}");
        match over {
            0 => assert_refused(&LINES[..length], 28, 17, 0),
            _ => assert_refused(&LINES[..length], 28, 16, whole + 1),
        }
    }
    for behind in [&[0; LONG_LINE][..], b"\n", b"01"] {
        let lines = [LINES, behind].concat();
        assert_refused(&lines, 28, 16, 5);
        assert_eq!(answers(&lines)[4], Err(NoRecord::BadLine(5)));
    }
}

/// Lines of one form in front, and of another behind.
#[test]
fn lines_of_another_form() {
    let usual = listing(b"fn f(){match b{true=>1,false=>2,}}");
    let short = shortened(&usual);
    let long = lengthened(&usual, LINE);
    let forms = [(&usual, LINE), (&short, SHORT_LINE), (&long, LONG_LINE)];
    for (first, first_bytes) in forms {
        for (second, second_bytes) in forms.into_iter().filter(|form| form.1 != first_bytes) {
            for line in 1..10 {
                let lines = [&first[..first_bytes * line], &second[second_bytes * line..]].concat();
                assert_refused(&lines, 70, 16, line + 1);
            }
        }
    }
    let mixed = [&LINES[..LONG_LINE], &usual[LINE..]].concat();
    assert_eq!(answers(&mixed), [Ok(four()[0]), Err(NoRecord::BadLine(2))]);
    let mixed = [&usual[..LINE], &LINES[LONG_LINE..]].concat();
    assert_eq!(answers(&mixed)[1..], [Err(NoRecord::BadLine(2))]);
}

/// Six digits where four would do: 16 at line 1, once every line is in form, and before 17 and 18.
#[test]
fn needless() {
    for draft in ["", "fn f(){}", "fn f(){match b{true=>1,false=>2,}}"] {
        let usual = listing(draft.as_bytes());
        let long = lengthened(&usual, LINE);
        for length in [0, 7, 700] {
            assert_refused(&long, length, 16, 1);
        }
        // What is no file is so too, and a line that is not in form goes before it.
        assert_refused(&[&long[..], &long].concat(), 700, 16, 1);
        assert_refused(
            &[&long[..], b"\n"].concat(),
            700,
            16,
            1 + long.len() / LONG_LINE,
        );
        // `records` looks at each line alone.
        let same: Answers = answers(&usual);
        assert_eq!(answers(&long), same);
    }
    // A refusal's line is of no file; where its place needs no six digits it is 16.
    assert_refused(
        b"00 010000 010000 00000015 00000000 000001 000000\n",
        7,
        17,
        0,
    );
    assert_refused(
        b"00 00FFFF 00FFFF 00000015 00000000 000001 000000\n",
        7,
        16,
        1,
    );
}

/// Each of the four numbers alone asks for six digits from 65,536 on; low and high never do.
#[test]
fn each_number() {
    let line = |start: u32, end: u32, low: u32, size: u32, up: u32| {
        format!("29 {start:06X} {end:06X} {low:08X} {low:08X} {size:06X} {up:06X}\n").into_bytes()
    };
    // No file: it begins behind 0, its size is not the number of its lines, or its way up is not 0.
    for (start, size, up) in [(1, 0, 0), (0, 1, 0), (0, 0, 1)] {
        let [few, many] = [0xFFFF, 0x1_0000]
            .map(|most: u32| line(start * most, 1, 0, (size * most).max(1), up * most));
        assert_refused(&few, 7, 16, 1);
        assert_refused(&many, 7, 17, 0);
    }
    assert_refused(&line(0, 0xFFFF, 0, 1, 0), 7, 16, 1);
    assert_refused(&line(0, 0xFFFF, u32::MAX, 1, 0), 7, 16, 1);
    for end in [0x1_0000, 0x10_0000, 0xFF_FFFF] {
        assert_eq!(
            loaded(&line(0, end, 0, 1, 0), 7),
            (Ok(1), vec![41, 0, end, 0, 0, 1, 0])
        );
        assert_refused(&line(0, end, 0, 1, 0), 6, 18, 0);
        assert_refused(&line(0, end, 1, 1, 0), 7, 17, 0);
    }
    // One line of all is enough.
    let mut lines = lengthened(&listing(b"fn f(){}"), LINE);
    assert_refused(&lines, 28, 16, 1);
    lines[10..16].copy_from_slice(b"010000");
    assert_eq!(load(&lines).map(|tree| tree[0].end), Ok(0x1_0000));
}

#[test]
fn largest_fields() {
    let line = b"2A FFFFFF FFFFFF FFFFFFFF FFFFFFFF FFFFFF FFFFFF\n";
    let most = 16_777_215;
    let largest = Record {
        kind: Kind::TypeItem,
        start: most,
        end: most,
        low: u32::MAX,
        high: u32::MAX,
        size: most,
        up: most,
    };
    assert_eq!(answers(line), [Ok(largest)]);
}

/// A wrong way up in lines of 49 bytes.
#[test]
fn wrong_ways() {
    for (line, right) in [0, 1, 1, 2].into_iter().enumerate() {
        for way in [0, 1, 2, 3, 4, 0xFFFF, 0x1_0000 + right, 0xFF_FFFF] {
            let mut lines = LINES.to_vec();
            lines[LONG_LINE * line + 42..][..6].copy_from_slice(format!("{way:06X}").as_bytes());
            match way == right {
                true => assert_eq!(loaded(&lines, 28), (Ok(4), WORDS.to_vec())),
                false => assert_refused(&lines, 28, 17, 0),
            }
        }
    }
}

/// A function alone: the way up of its line is 0 then.
#[test]
fn functions_alone() {
    assert_refused(&LINES[LONG_LINE..], 28, 17, 0);
    let alone = &changed(2 * LONG_LINE - 2, b'0')[LONG_LINE..];
    let mut words = WORDS[RECORD_WORDS..].to_vec();
    words[6] = 0;
    assert_eq!(loaded(alone, 21), (Ok(3), words));
}

/// Blocks in blocks, more than four digits count, loaded by a thread with 16 KiB of stack, of which its start takes some.
#[test]
fn deepest() {
    let blocks = (1..70_000).rev().map(|size| {
        let (low, up) = (u32::from(size > 1), if size == 69_999 { 2 } else { 1 });
        format!("12 000000 000001 {low:08X} 00000000 {size:06X} {up:06X}\n")
    });
    let lines = "01 000000 000001 00000000 00000000 011171 000000\n\
                 02 000000 000001 00000000 00000000 000001 000001\n"
        .to_string()
        + &blocks.collect::<String>();
    let mut words = vec![0xAAAA_AAAA; 70_001 * RECORD_WORDS];
    let thread = std::thread::Builder::new().stack_size(16 << 10);
    let loader = thread.spawn(move || load_into(lines.as_bytes(), &mut words));
    assert_eq!(
        loader.expect("a thread").join().expect("an answer"),
        Ok(70_001)
    );
}
