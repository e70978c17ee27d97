//! Lexemes: from the bytes of a draft to its tokens, or to the earliest of the refusals 2 to 5 and 21.

use crate::kinds::{refusal, token};
use crate::{Step, Token};

/// Room for so many tokens is made at first, where the draft may have as many.
const MOST_AT_FIRST: usize = 2_048;

/// All tokens of the draft, or the earliest of the refusals 2 to 5 and 21. The draft is read from its
/// start, so the first one met is the earliest.
pub fn lex(draft: &[u8]) -> Step<Vec<Token>> {
    let mut tokens = Vec::with_capacity(MOST_AT_FIRST.min(draft.len()));
    let mut at = 0;
    while at < draft.len() {
        let end = trivia_end(draft, at)?;
        if end > at {
            at = end;
            continue;
        }
        let (kind, end) = lexeme(draft, at).ok_or((no_lexeme(draft[at]), at))?;
        if kind == token::SIMC {
            return Err((refusal::RESERVED_SIMC, at));
        }
        tokens.push([kind, at as u32, end as u32]);
        at = end;
    }
    Ok(tokens)
}

/// The refusal of a byte that starts no lexeme.
fn no_lexeme(byte: u8) -> u32 {
    if byte.is_ascii() {
        refusal::NO_LEXEME
    } else {
        refusal::NOT_ASCII
    }
}

/// The byte after the white space or the comment at this place; the place itself if none is there.
fn trivia_end(draft: &[u8], at: usize) -> Step<usize> {
    match (draft[at], draft.get(at + 1)) {
        (9..=13 | 32, _) => Ok(run_end(draft, at, |byte| matches!(byte, 9..=13 | 32))),
        (b'/', Some(b'/')) => {
            let end = run_end(draft, at, |byte| byte != b'\r' && byte != b'\n');
            utf8_end(draft, at, end)
        }
        (b'/', Some(b'*')) => utf8_end(draft, at, block_comment_end(draft, at)?),
        _ => Ok(at),
    }
}

/// The end of a comment, whose bytes must be well-formed UTF-8. `valid_up_to` is the first place at
/// which no well-formed sequence stands, also where the comment's end cuts one off.
fn utf8_end(draft: &[u8], start: usize, end: usize) -> Step<usize> {
    match std::str::from_utf8(&draft[start..end]) {
        Ok(_) => Ok(end),
        Err(bad) => Err((refusal::NOT_UTF8, start + bad.valid_up_to())),
    }
}

/// Block comments nest; the outermost one counts as unclosed.
fn block_comment_end(draft: &[u8], start: usize) -> Step<usize> {
    let mut at = start + 2;
    let mut depth = 1;
    while at + 1 < draft.len() {
        match (draft[at], draft[at + 1]) {
            (b'/', b'*') => depth += 1,
            (b'*', b'/') => depth -= 1,
            _ => {
                at += 1;
                continue;
            }
        }
        at += 2;
        if depth == 0 {
            return Ok(at);
        }
    }
    Err((refusal::UNCLOSED_COMMENT, start))
}

/// Kind and end of the token at this place.
fn lexeme(draft: &[u8], at: usize) -> Option<(u32, usize)> {
    match draft[at] {
        b'0'..=b'9' => Some(digits(draft, at)),
        byte if starts_name(byte) => Some(word(draft, at)),
        _ => mark(draft, at),
    }
}

fn digits(draft: &[u8], at: usize) -> (u32, usize) {
    let (kind, base) = match (draft[at], draft.get(at + 1)) {
        (b'0', Some(b'x')) => (token::HEX_LITERAL, 16),
        (b'0', Some(b'b')) => (token::BIN_LITERAL, 2),
        _ => return (token::DEC_LITERAL, digits_end(draft, at, 10)),
    };
    // Without a digit of its base, the `0` stands alone and a name follows.
    match digits_end(draft, at + 2, base) {
        end if end > at + 2 => (kind, end),
        _ => (token::DEC_LITERAL, at + 1),
    }
}

/// The end of a run that begins with a digit of its base; the place itself if none is there.
fn digits_end(draft: &[u8], at: usize, base: u32) -> usize {
    if draft.get(at) == Some(&b'_') {
        return at;
    }
    run_end(draft, at, |byte| {
        char::from(byte).is_digit(base) || byte == b'_'
    })
}

fn word(draft: &[u8], at: usize) -> (u32, usize) {
    let end = name_end(draft, at);
    let text = &draft[at..end];
    let prefix = match text {
        b"jet" => Some(token::JET),
        b"witness" => Some(token::WITNESS),
        b"param" => Some(token::PARAM),
        _ => None,
    };
    if let Some(kind) = prefix {
        let name = draft[end..]
            .strip_prefix(b"::")
            .and_then(|rest| rest.first());
        if name.is_some_and(|byte| starts_name(*byte)) {
            return (kind, name_end(draft, end + 2));
        }
    }
    if draft.get(end) == Some(&b'!') && matches!(text, b"assert" | b"panic" | b"dbg" | b"list") {
        return (token::MACRO, end + 1);
    }
    (keyword(text), end)
}

fn keyword(text: &[u8]) -> u32 {
    match text {
        b"pub" => token::PUB,
        b"use" => token::USE,
        b"as" => token::AS,
        b"fn" => token::FN,
        b"let" => token::LET,
        b"type" => token::TYPE,
        b"mod" => token::MOD,
        b"const" => token::CONST,
        b"match" => token::MATCH,
        b"enum" => token::ENUM,
        b"crate" => token::CRATE,
        b"simc" => token::SIMC,
        b"true" | b"false" => token::BOOL,
        _ => token::IDENT,
    }
}

fn mark(draft: &[u8], at: usize) -> Option<(u32, usize)> {
    let (kind, length) = match (draft[at], draft.get(at + 1)) {
        (b'-', Some(b'>')) => (token::ARROW, 2),
        (b'=', Some(b'>')) => (token::FAT_ARROW, 2),
        (b':', Some(b':')) => (token::DOUBLE_COLON, 2),
        (b'=', _) => (token::EQ, 1),
        (b':', _) => (token::COLON, 1),
        (b';', _) => (token::SEMI, 1),
        (b',', _) => (token::COMMA, 1),
        (b'(', _) => (token::L_PAREN, 1),
        (b')', _) => (token::R_PAREN, 1),
        (b'[', _) => (token::L_BRACKET, 1),
        (b']', _) => (token::R_BRACKET, 1),
        (b'{', _) => (token::L_BRACE, 1),
        (b'}', _) => (token::R_BRACE, 1),
        (b'<', _) => (token::L_ANGLE, 1),
        (b'>', _) => (token::R_ANGLE, 1),
        _ => return None,
    };
    Some((kind, at + length))
}

fn starts_name(byte: u8) -> bool {
    byte.is_ascii_alphabetic() || byte == b'_'
}

fn name_end(draft: &[u8], at: usize) -> usize {
    run_end(draft, at, |byte| starts_name(byte) || byte.is_ascii_digit())
}

/// The first place from here on whose byte is not one of the run.
fn run_end(draft: &[u8], at: usize, in_run: impl Fn(u8) -> bool) -> usize {
    let rest = &draft[at..];
    at + rest
        .iter()
        .position(|byte| !in_run(*byte))
        .unwrap_or(rest.len())
}
