"""The lexer of the papers: what a draft's tokens are, or its refusal, by each set of limits.

Written from document 01, "Lexemes" and rows 1 to 7, document 02, orders 6 and 9, and src/lexer.rs; which bytes are well-formed UTF-8 is asked of Python's
decoder.
"""
import functools, re

SMALL, LARGE = "small", "large"
LIMITS = {SMALL: (16384, 2048), LARGE: (1048576, 131072)}  # how many bytes and how many tokens
BRACKETS, MATCHES = 48, 8
WORDS = 3  # of a token in the buffer
# The refusals by number, rows 1 to 7, and 21 of document 02.
TOO_LONG, NOT_ASCII, NO_LEXEME, UNCLOSED, SIMC, TOO_MANY, TOO_DEEP = range(1, 8)
NOT_UTF8 = 21
KEYWORDS = "pub use as fn let type mod const match enum crate simc".split()
MARKS = "-> :: : ; , = => ( ) [ ] { } < >".split()
KINDS = dict(zip(KEYWORDS + MARKS, range(1, 28)))
OPENING, CLOSING = {KINDS[m] for m in "([{<"}, {KINDS[m] for m in ")]}>"}
DEC_LITERAL, HEX_LITERAL, BIN_LITERAL, BOOL, IDENT, JET, WITNESS, PARAM, MACRO, FIRST_WORD = range(28, 38)
NAME = "[A-Za-z_][A-Za-z0-9_]*"
# The tokens of `Token` that are more than one text, in the order of trial: a pattern and the kind.
PATTERNS = [
    (f"jet::{NAME}", JET), (f"witness::{NAME}", WITNESS), (f"param::{NAME}", PARAM), ("assert!|panic!|dbg!|list!", MACRO),
    ("0x[0-9a-fA-F][0-9a-fA-F_]*", HEX_LITERAL), ("0b[01][01_]*", BIN_LITERAL), ("[0-9][0-9_]*", DEC_LITERAL), (NAME, IDENT),
]
# All of them in that order, a group each, and then the marks, the longer before the shorter.
LEXEME = re.compile("|".join(f"({pattern})" for pattern, _ in PATTERNS + [("|".join(map(re.escape, sorted(MARKS, key=len, reverse=True))), None)]))
WHITESPACE = re.compile(r"[\t\n\v\f\r ]+")
LINE_END = re.compile(r"[\r\n]|\Z")
COMMENT_MARK = re.compile(r"/\*|\*/")
# The words that the rules tell apart, as classes from FIRST_WORD on: names, reserved function names, macros, booleans.
RULE_WORDS = (
    "Left Right Some None Either Option List unwrap_left unwrap_right array_fold for_while is_none unwrap assert panic match into fold dbg raw_hash "
    "assert! panic! dbg! list! false true"
).split()


class Refusal(Exception):
    """A refusal by its number and place."""


def comment_end(text, i):
    """The byte behind the block comment at i, or None if it is never closed."""
    deep = 0
    for mark in COMMENT_MARK.finditer(text, i):
        deep += 1 if mark.group() == "/*" else -1
        if deep == 0:
            return mark.end()
    return None


def trivia_end(text, i):
    """The byte behind the trivia at i; i if there is none."""
    blank = WHITESPACE.match(text, i)
    if blank:
        return blank.end()
    if text.startswith("//", i):
        end = LINE_END.search(text, i).start()
    elif text.startswith("/*", i):
        end = comment_end(text, i)
        if end is None:
            raise Refusal(UNCLOSED, i)
    else:
        return i
    bad = bad_sequence(text[i:end].encode("latin-1"))
    if bad is not None:
        raise Refusal(NOT_UTF8, i + bad)
    return end


def bad_sequence(comment):
    """The first place at which no well-formed sequence stands, or None if there is none: Python's decoder refuses what RFC 3629 does."""
    try:
        comment.decode("utf-8")
    except UnicodeDecodeError as error:
        return error.start
    return None


def token(text, i):
    """The kind and the end of the token at i."""
    found = LEXEME.match(text, i)
    if not found:
        raise Refusal(NOT_ASCII if ord(text[i]) > 127 else NO_LEXEME, i)
    word, order = found.group(), found.lastindex - 1
    if word == "simc":
        raise Refusal(SIMC, i)
    kind = PATTERNS[order][1] if order < len(PATTERNS) else KINDS[word]
    if kind == IDENT:
        kind = BOOL if word in ("true", "false") else KINDS.get(word, kind)
    return kind, found.end()


@functools.lru_cache(maxsize=1)
def lexemes(text):
    tokens, i = [], 0
    while i < len(text):
        end = trivia_end(text, i)
        if end == i:
            kind, end = token(text, i)
            tokens.append((kind, i, end))
        i = end
    return tokens


def lex(draft, words, limits):
    """The tokens of a draft by these limits, for a token buffer of so many words."""
    most_bytes, most_tokens = LIMITS[limits]
    if len(draft) > most_bytes:
        raise Refusal(TOO_LONG, most_bytes)
    tokens = lexemes(draft.decode("latin-1"))
    room = min(most_tokens, words // WORDS)
    if len(tokens) > room:
        raise Refusal(TOO_MANY, tokens[room][1])
    depth = row = 0
    for kind, start, _ in tokens:
        if kind in OPENING:
            depth += 1
        if kind in CLOSING:
            depth = max(depth - 1, 0)
        row = row + 1 if kind == KINDS["match"] else 0
        if depth > BRACKETS or row > MATCHES:
            raise Refusal(TOO_DEEP, start)
    return tokens


def shown(draft, kind, start, end):
    word = draft[start:end].decode()
    tell = f"/{FIRST_WORD + RULE_WORDS.index(word)}" if kind in (BOOL, IDENT, MACRO) and word in RULE_WORDS else ""
    return f" {kind}{tell}:{start}-{end}"


def answer(draft, words, limits):
    try:
        tokens = lex(draft, words, limits)
    except Refusal as r:
        return f"refused {r.args[0]} at {r.args[1]} zeros"
    return f"tokens {len(tokens)}" + ("".join(shown(draft, *t) for t in tokens) if len(tokens) <= 24 else "") + " zeros"
