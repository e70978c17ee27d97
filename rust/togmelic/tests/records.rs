//! `records` over lines that are damaged in every way: what it answers is told by the form of a line, written down here
//! once more, and no bytes make it panic.

use togmelic::{
    list, listing, load, read, records, Kind, NoRecord, Record, Refusal, LINE, MOST_BYTES,
};

/// The listing of `fn f(){}` without its last line: a program, a function and a name.
const LINES: &[u8; 123] = b"\
29 0000 0008 00000000 00000000 0004 0000
01 0000 0008 00000000 00000000 0003 0001
02 0003 0004 00000000 00000000 0001 0001
";

type Answers = Vec<Result<Record, NoRecord>>;

fn answers(lines: &[u8]) -> Answers {
    records(lines).collect()
}

fn record(kind: Kind, [start, end]: [usize; 2], size: usize, up: usize) -> Record {
    Record {
        kind,
        start,
        end,
        low: 0,
        high: 0,
        size,
        up,
    }
}

/// The records of `LINES`, by hand.
fn three() -> [Record; 3] {
    [
        record(Kind::Program, [0, 8], 4, 0),
        record(Kind::Function, [0, 8], 3, 1),
        record(Kind::Name, [3, 4], 1, 1),
    ]
}

/// The bytes of a line: where `d` stands, any digit, else the byte itself.
const FORM: &[u8; LINE] = b"dd dddd dddd dddddddd dddddddd dddd dddd\n";

/// Whether a line of 41 bytes is in the form of a listing, kinds aside.
fn is_in_form(line: &[u8]) -> bool {
    let is_so = |(byte, form): (&u8, &u8)| match form {
        b'd' => b"0123456789ABCDEF".contains(byte),
        _ => byte == form,
    };
    line.len() == LINE && line.iter().zip(FORM).all(is_so)
}

/// The number that some bytes of a line in form say.
fn number(line: &[u8], from: usize, to: usize) -> u32 {
    let digits = std::str::from_utf8(&line[from..to]).expect("digits");
    u32::from_str_radix(digits, 16).expect("digits")
}

/// What a line gives, by the rule of its form: a record, a refusal or none of both.
fn by_rule(line: &[u8], at: usize) -> Result<Record, NoRecord> {
    if !is_in_form(line) {
        return Err(NoRecord::BadLine(at));
    }
    let place = number(line, 3, 7) as usize;
    let low = number(line, 13, 21);
    match number(line, 0, 2) {
        0 => Err(NoRecord::Refused(Refusal { number: low, place })),
        kind @ 1..=42 => Ok(Record {
            kind: Kind::ALL[kind as usize - 1],
            start: place,
            end: number(line, 8, 12) as usize,
            low,
            high: number(line, 22, 30),
            size: number(line, 31, 35) as usize,
            up: number(line, 36, 40) as usize,
        }),
        _ => Err(NoRecord::BadLine(at)),
    }
}

/// What all lines give, to the first that gives no record.
fn all_by_rule(lines: &[u8]) -> Answers {
    let mut answers = Vec::new();
    for (at, line) in lines.chunks(LINE).enumerate() {
        answers.push(by_rule(line, at + 1));
        if answers[at].is_err() {
            break;
        }
    }
    answers
}

#[test]
fn whole() {
    assert_eq!(answers(LINES), three().map(Ok));
    assert_eq!(answers(b""), []);
}

/// Each byte of the three lines as each other byte: 31,365 listings. All in front of the changed line is as it was.
#[test]
fn every_byte_changed() {
    let mut refusals = 0;
    for at in 0..LINES.len() {
        for byte in (0..=255).filter(|byte| *byte != LINES[at]) {
            let mut lines = LINES.to_vec();
            lines[at] = byte;
            let answers = answers(&lines);
            let line = at / LINE;
            let before = three().map(Ok);
            assert_eq!(answers[..line], before[..line], "{at} {byte}");
            let changed = by_rule(&lines[LINE * line..][..LINE], line + 1);
            assert_eq!(answers[line], changed, "{at} {byte}");
            match changed {
                Ok(_) => assert_eq!(answers[line + 1..], before[line + 1..], "{at} {byte}"),
                Err(_) => assert_eq!(answers.len(), line + 1, "{at} {byte}"),
            }
            refusals += u32::from(matches!(changed, Err(NoRecord::Refused(_))));
        }
    }
    // 01 and 02 become 00.
    assert_eq!(refusals, 2);
}

#[test]
fn cut_off() {
    for length in 0..=LINES.len() {
        let mut expected: Answers = three()[..length / LINE].iter().copied().map(Ok).collect();
        if length % LINE > 0 {
            expected.push(Err(NoRecord::BadLine(length / LINE + 1)));
        }
        assert_eq!(answers(&LINES[..length]), expected, "{length}");
    }
    // Bytes too many: the zeros of a buffer, an empty line.
    for behind in [&[0; 1][..], &[0; LINE], b"\n", b"01"] {
        let mut expected = three().map(Ok).to_vec();
        expected.push(Err(NoRecord::BadLine(4)));
        assert_eq!(answers(&[LINES, behind].concat()), expected);
    }
}

/// Lines of 36 bytes, without the way up: one is shorter than a line, and of several the first 41 bytes are no line.
#[test]
fn older_lines() {
    let short: Vec<u8> = LINES
        .chunks(LINE)
        .flat_map(|line| [&line[..35], b"\n"].concat())
        .collect();
    for lines in 1..=3 {
        assert_eq!(answers(&short[..36 * lines]), [Err(NoRecord::BadLine(1))]);
    }
    let mixed = [&LINES[..LINE], &short[36..]].concat();
    let expected = [Ok(three()[0]), Err(NoRecord::BadLine(2))];
    assert_eq!(answers(&mixed), expected);
}

/// Other ways to write digits and line ends, in the second line.
#[test]
fn other_writings() {
    for (at, text) in [
        (0, "0a"),
        (0, "+1"),
        (0, " 1"),
        (3, "0x00"),
        (8, "000g"),
        (8, "00:8"),
        (8, "00@8"),
        (8, "00G8"),
        (13, "0000000a"),
        (2, "\t"),
        (2, "-"),
        (35, "0"),
        (39, "\r"),
        (40, "\r"),
        (40, " "),
    ] {
        let mut lines = LINES.to_vec();
        lines[LINE + at..][..text.len()].copy_from_slice(text.as_bytes());
        let expected = [Ok(three()[0]), Err(NoRecord::BadLine(2))];
        assert_eq!(answers(&lines), expected, "{text:?}");
    }
}

/// Each kind that two digits can say, in the second line.
#[test]
fn every_kind() {
    for kind in 0..=255 {
        let mut lines = LINES.to_vec();
        lines[LINE..LINE + 2].copy_from_slice(format!("{kind:02X}").as_bytes());
        let [first, mut second, third] = three();
        let expected = match kind {
            0 => vec![Ok(first), Err(refused(0, 0))],
            1..=42 => {
                second.kind = Kind::from_number(kind).expect("a kind");
                assert_eq!(second.kind.number(), kind);
                vec![Ok(first), Ok(second), Ok(third)]
            }
            _ => vec![Ok(first), Err(NoRecord::BadLine(2))],
        };
        assert_eq!(answers(&lines), expected, "{kind:02X}");
    }
}

fn refused(number: u32, place: usize) -> NoRecord {
    NoRecord::Refused(Refusal { number, place })
}

#[test]
fn line_of_a_refusal() {
    let line = b"00 001F 001F 00000008 00000000 0001 0000\n";
    assert_eq!(answers(line), [Err(refused(8, 0x1F))]);
    assert_eq!(answers(&[line, &LINES[..]].concat()), [Err(refused(8, 31))]);
    // Refused with 8 at its end.
    let lines = listing(b"fn f(");
    assert_eq!(answers(&lines), [Err(refused(8, 5))]);
    let mut cut = lines.clone();
    cut.pop();
    assert_eq!(answers(&cut), [Err(NoRecord::BadLine(1))]);
}

#[test]
fn largest_fields() {
    let line = b"2A FFFF FFFF FFFFFFFF FFFFFFFF FFFF FFFF\n";
    let largest = Record {
        low: u32::MAX,
        high: u32::MAX,
        ..record(Kind::TypeItem, [65_535; 2], 65_535, 65_535)
    };
    assert_eq!(answers(line), [Ok(largest)]);
    let fields = b"01 0001 0002 00000003 00000004 0005 0006\n";
    let each = Record {
        low: 3,
        high: 4,
        ..record(Kind::Function, [1, 2], 5, 6)
    };
    assert_eq!(answers(fields), [Ok(each)]);
}

#[test]
fn reasons_in_words() {
    assert_eq!(
        refused(8, 31).to_string(),
        "refusal 8 at byte 31: the draft cannot go on with this token"
    );
    assert_eq!(
        NoRecord::BadLine(3).to_string(),
        "line 3 is not that of a record"
    );
}

/// Numbers that look random, the same at each run: xorshift of 64 bits.
struct Numbers(u64);

impl Numbers {
    fn below(&mut self, bound: usize) -> usize {
        self.0 ^= self.0 << 13;
        self.0 ^= self.0 >> 7;
        self.0 ^= self.0 << 17;
        (self.0 % bound as u64) as usize
    }

    /// One of some bytes.
    fn one_of(&mut self, bytes: &[u8]) -> u8 {
        bytes[self.below(bytes.len())]
    }
}

/// Any bytes; then such as lines have, in the places where lines have them but for a few, so that many lines are in form.
#[test]
fn random_bytes() {
    let mut numbers = Numbers(0x1234_5678_9ABC_DEF0);
    for _ in 0..20_000 {
        let length = numbers.below(5 * LINE);
        let lines: Vec<u8> = (0..length).map(|_| numbers.below(256) as u8).collect();
        assert_eq!(answers(&lines), all_by_rule(&lines));
    }
    let mut given = 0;
    for _ in 0..20_000 {
        let length = 1 + numbers.below(5 * LINE);
        let mut lines: Vec<u8> = FORM.iter().copied().cycle().take(length).collect();
        for byte in lines.iter_mut().filter(|byte| **byte == b'd') {
            *byte = numbers.one_of(b"00001234ABCDEF");
        }
        for _ in 0..numbers.below(3) {
            let at = numbers.below(length);
            lines[at] = numbers.one_of(b"0Fag \n\0\xFF");
        }
        let answers = answers(&lines);
        assert_eq!(answers, all_by_rule(&lines));
        given += answers.iter().filter(|answer| answer.is_ok()).count();
    }
    // So that the rule's records are not left out by chance.
    assert!(given > 1_000, "{given} records");
}

/// The drafts of examples/: from their lines the same as from their bytes, and as from the words that are loaded.
#[test]
fn examples() {
    let folder = concat!(env!("CARGO_MANIFEST_DIR"), "/../../examples");
    let mut drafts = 0;
    for entry in std::fs::read_dir(folder).expect("a folder") {
        let path = entry.expect("an entry").path();
        if path.extension().is_none_or(|extension| extension != "simf") {
            continue;
        }
        let (name, draft) = (path.display(), std::fs::read(&path).expect("a draft"));
        let lines = listing(&draft);
        let tree: Result<Vec<Record>, NoRecord> = records(&lines).collect();
        assert_eq!(tree, read(&draft).map_err(NoRecord::Refused), "{name}");
        assert_eq!(load(&lines).ok(), tree.ok(), "{name}");
        drafts += 1;
    }
    assert!(drafts >= 5, "{drafts} drafts");
    // As docs/REFUSALS.md says of it: refusal 8 at byte 640.
    let broken = include_bytes!("../../../examples/broken.simf");
    assert_eq!(answers(&listing(broken)), [Err(refused(8, 640))]);
}

/// What `list` answers of a lent buffer is all lines and no more.
#[test]
fn lent_buffer() {
    let mut out = vec![0xAA; MOST_BYTES];
    let lines = list(b"fn f(){}", &mut out).expect("room for every draft");
    assert_eq!(lines[..LINES.len()], LINES[..]);
    let block = record(Kind::Block, [6, 8], 1, 2);
    let [program, function, name] = three();
    assert_eq!(answers(lines), [program, function, name, block].map(Ok));
}
