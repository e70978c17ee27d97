// The same lexer in plain Rust, for comparison: the loop, the buffer and the limits of crate lexer, written with the standard library's
// usual means. Lexes the draft on its standard input a thousand times and writes each answer.
use std::io::{Read, Write};

enum Step {
    Token(u32, usize),
    Trivia(usize),
    Refused(u32, usize),
}

fn is_name_start(b: u8) -> bool {
    b.is_ascii_alphabetic() || b == b'_'
}

fn run(s: &[u8], mut i: usize, f: impl Fn(u8) -> bool) -> usize {
    while i < s.len() && f(s[i]) {
        i += 1;
    }
    i
}

fn name_end(s: &[u8], i: usize) -> usize {
    run(s, i, |b| b.is_ascii_alphanumeric() || b == b'_')
}

fn comment(s: &[u8], i: usize, e: usize) -> Step {
    match std::str::from_utf8(&s[i..e]) {
        Err(bad) => Step::Refused(21, i + bad.valid_up_to()),
        Ok(_) => Step::Trivia(e),
    }
}

fn block_end(s: &[u8], mut j: usize) -> Option<usize> {
    let mut depth = 0usize;
    while j + 1 < s.len() {
        match (s[j], s[j + 1]) {
            (b'/', b'*') => {
                depth += 1;
                j += 2;
            }
            (b'*', b'/') => {
                j += 2;
                if depth == 0 {
                    return Some(j);
                }
                depth -= 1;
            }
            _ => j += 1,
        }
    }
    None
}

fn word(s: &[u8], i: usize) -> Step {
    let e = name_end(s, i);
    let text = &s[i..e];
    if s[e..].starts_with(b"::") && e + 2 < s.len() && is_name_start(s[e + 2]) {
        let kind = match text {
            b"jet" => 33,
            b"witness" => 34,
            b"param" => 35,
            _ => 0,
        };
        if kind != 0 {
            return Step::Token(kind, name_end(s, e + 2));
        }
    }
    if e < s.len() && s[e] == b'!' && matches!(text, b"assert" | b"panic" | b"dbg" | b"list") {
        return Step::Token(36, e + 1);
    }
    let kind = match text {
        b"pub" => 1,
        b"use" => 2,
        b"as" => 3,
        b"fn" => 4,
        b"let" => 5,
        b"type" => 6,
        b"mod" => 7,
        b"const" => 8,
        b"match" => 9,
        b"enum" => 10,
        b"crate" => 11,
        b"simc" => return Step::Refused(5, i),
        b"true" | b"false" => 31,
        _ => 32,
    };
    Step::Token(kind, e)
}

fn number(s: &[u8], i: usize) -> Step {
    let digit = |k: usize, f: fn(u8) -> bool| i + k < s.len() && f(s[i + k]);
    if s[i..].starts_with(b"0x") && digit(2, |b| b.is_ascii_hexdigit()) {
        return Step::Token(29, run(s, i + 2, |b| b.is_ascii_hexdigit() || b == b'_'));
    }
    if s[i..].starts_with(b"0b") && digit(2, |b| b == b'0' || b == b'1') {
        return Step::Token(30, run(s, i + 2, |b| b == b'0' || b == b'1' || b == b'_'));
    }
    Step::Token(28, run(s, i, |b| b.is_ascii_digit() || b == b'_'))
}

fn mark(s: &[u8], i: usize) -> Step {
    let next = s.get(i + 1).copied().unwrap_or(0);
    match (s[i], next) {
        (b'-', b'>') => Step::Token(13, i + 2),
        (b'=', b'>') => Step::Token(19, i + 2),
        (b':', b':') => Step::Token(14, i + 2),
        (b'=', _) => Step::Token(18, i + 1),
        (b':', _) => Step::Token(15, i + 1),
        (b';', _) => Step::Token(16, i + 1),
        (b',', _) => Step::Token(17, i + 1),
        (b'(', _) => Step::Token(20, i + 1),
        (b')', _) => Step::Token(21, i + 1),
        (b'[', _) => Step::Token(22, i + 1),
        (b']', _) => Step::Token(23, i + 1),
        (b'{', _) => Step::Token(24, i + 1),
        (b'}', _) => Step::Token(25, i + 1),
        (b'<', _) => Step::Token(26, i + 1),
        (b'>', _) => Step::Token(27, i + 1),
        (b, _) if b > 127 => Step::Refused(2, i),
        _ => Step::Refused(3, i),
    }
}

fn step(s: &[u8], i: usize) -> Step {
    match s[i] {
        9..=13 | 32 => Step::Trivia(run(s, i, |b| matches!(b, 9..=13 | 32))),
        b'/' if s[i..].starts_with(b"//") => comment(s, i, run(s, i, |b| b != b'\n' && b != b'\r')),
        b'/' if s[i..].starts_with(b"/*") => match block_end(s, i + 2) {
            Some(e) => comment(s, i, e),
            None => Step::Refused(4, i),
        },
        b if is_name_start(b) => word(s, i),
        b'0'..=b'9' => number(s, i),
        _ => mark(s, i),
    }
}

fn too_deep(out: &[u32], n: usize) -> Option<usize> {
    let (mut depth, mut row) = (0usize, 0usize);
    for t in out[..3 * n].chunks(3) {
        match t[0] {
            20 | 22 | 24 | 26 => depth += 1,
            21 | 23 | 25 | 27 => depth = depth.saturating_sub(1),
            _ => {}
        }
        row = if t[0] == 9 { row + 1 } else { 0 };
        if depth > 48 || row > 8 {
            return Some(t[1] as usize);
        }
    }
    None
}

#[inline(never)]
fn lex(s: &[u8], out: &mut [u32]) -> Result<usize, (u32, usize)> {
    let refuse = |out: &mut [u32], number: u32, place: usize| {
        out.fill(0);
        Err((number, place))
    };
    if s.len() > 16384 {
        return refuse(out, 1, 16384);
    }
    let room = 2048.min(out.len() / 3);
    let (mut i, mut n, mut over) = (0, 0, 0);
    while i < s.len() {
        match step(s, i) {
            Step::Token(kind, e) => {
                if n < room {
                    out[3 * n] = kind;
                    out[3 * n + 1] = i as u32;
                    out[3 * n + 2] = e as u32;
                } else if n == room {
                    over = i;
                }
                n += 1;
                i = e;
            }
            Step::Trivia(e) => i = e,
            Step::Refused(number, place) => return refuse(out, number, place),
        }
    }
    if n > room {
        return refuse(out, 6, over);
    }
    if let Some(place) = too_deep(out, n) {
        return refuse(out, 7, place);
    }
    out[3 * n..].fill(0);
    Ok(n)
}

fn main() {
    let mut draft = Vec::new();
    std::io::stdin().read_to_end(&mut draft).unwrap();
    let mut out = [0u32; 6144];
    let mut w = std::io::stdout().lock();
    for _ in 0..1000 {
        match lex(&draft, &mut out) {
            Ok(n) => writeln!(w, "{n} tokens").unwrap(),
            Err((number, place)) => writeln!(w, "{number} at {place}").unwrap(),
        }
    }
}
