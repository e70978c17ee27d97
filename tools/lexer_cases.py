#!/usr/bin/env python3
"""Writes crates/lexer_cases/stdin and stdout: drafts that show the order of trial, the traps and every limit, with the answers that documents 01 and 02
ask for.

The answers are those of paper_lexer.py. The results in TRAPS and AT_LIMITS are worked out by hand.
A case: the limits, small or large, the words of the token buffer, then pairs of how many times and a text, in which \\ and two hexadecimal digits are a
byte.
--check: exit 1 if a file differs.
"""
import functools, itertools, pathlib, re, sys

from paper_lexer import BRACKETS, KEYWORDS, LARGE, LIMITS, MARKS, MATCHES, RULE_WORDS, SMALL, WORDS, answer

INPUT = 65536  # bytes that the program reads


def bytes_of(text):
    return re.sub(rb"\\([0-9a-f]{2})", lambda m: bytes([int(m[1], 16)]), text.encode())


def escaped(draft):
    return "".join(chr(b) if 32 < b < 127 and b != 92 else f"\\{b:02x}" for b in draft)


class Cases:
    def __init__(self):
        self.lines, self.answers = [], []

    def add(self, words, *pairs, limits=SMALL):
        """A case by its pairs; a text alone stands once."""
        pairs = [p if isinstance(p, tuple) else (1, p) for p in pairs]
        texts = [(n, escaped(t if isinstance(t, bytes) else t.encode())) for n, t in pairs]
        line = " ".join([limits, str(words)] + [f"{n} {t}" for n, t in texts if t])
        draft = b"".join(bytes_of(t) * n for n, t in texts)
        self.lines.append(line)
        self.answers.append(f"{line}: {answer(draft, words, limits)}")
        return self.answers[-1].split(": ", 1)[1]


# Worked out by hand from document 01, and document 02, order 6.
TRAPS = {
    "": "tokens 0",
    "0x_1": "tokens 2 28:0-1 32:1-4",
    "0xg": "tokens 2 28:0-1 32:1-3",
    "0x": "tokens 2 28:0-1 32:1-2",
    "0xF_f": "tokens 1 29:0-5",
    "0X1": "tokens 2 28:0-1 32:1-3",
    "0b12": "tokens 2 30:0-3 28:3-4",
    "0b2": "tokens 2 28:0-1 32:1-3",
    "0b_1": "tokens 2 28:0-1 32:1-4",
    "1_000_": "tokens 1 28:0-6",
    "_1": "tokens 1 32:0-2",
    "1a": "tokens 2 28:0-1 32:1-2",
    "jet::a": "tokens 1 33:0-6",
    "witness::_": "tokens 1 34:0-10",
    "param::A9 ": "tokens 1 35:0-9",
    "jet :: a": "tokens 3 32:0-3 14:4-6 32:7-8",
    "jet:: a": "tokens 3 32:0-3 14:3-5 32:6-7",
    "jet::1": "tokens 3 32:0-3 14:3-5 28:5-6",
    "jets::a": "tokens 3 32:0-4 14:4-6 32:6-7",
    "jet:a": "tokens 3 32:0-3 15:3-4 32:4-5",
    "jet::a::b": "tokens 3 33:0-6 14:6-8 32:8-9",
    "jet::fn": "tokens 1 33:0-7",
    "jet::simc": "tokens 1 33:0-9",
    "assert!": "tokens 1 36/57:0-7",
    "list!": "tokens 1 36/60:0-5",
    "assert !": "refused 3 at 7",
    "xassert!": "refused 3 at 7",
    "assert!!": "refused 3 at 7",
    "jet::assert!": "refused 3 at 11",
    "simc": "refused 5 at 0",
    "a simc b": "refused 5 at 2",
    "simcx": "tokens 1 32:0-5",
    "->": "tokens 1 13:0-2",
    "-": "refused 3 at 0",
    "- >": "refused 3 at 0",
    "=>": "tokens 1 19:0-2",
    "==>": "tokens 2 18:0-1 19:1-3",
    ":::": "tokens 2 14:0-2 15:2-3",
    "/": "refused 3 at 0",
    "*/": "refused 3 at 0",
    "/*/**/": "refused 4 at 0",
    "/*/": "refused 4 at 0",
    "/*/*/": "refused 4 at 0",
    "/**/": "tokens 0",
    "/***/": "tokens 0",
    "/*/**/*/a": "tokens 1 32:8-9",
    "/*//**/*/": "tokens 0",
    "a/*": "refused 4 at 1",
    "/**/ /* */ /*": "refused 4 at 11",
    "//a\rb": "tokens 1 32:4-5",
    "//a\nb": "tokens 1 32:4-5",
    "//a\r\nb": "tokens 1 32:5-6",
    "//a\vb": "tokens 0",
    "///*": "tokens 0",
    "/*//*/a": "refused 4 at 0",
    "a\vb": "tokens 2 32:0-1 32:2-3",
    "\t\n\v\f\r ": "tokens 0",
    "a\x7f": "refused 3 at 1",
    b"a\x80": "refused 2 at 1",
    b"//\x80": "refused 21 at 2",
    b"/*a\x80*/": "refused 21 at 3",
    b"/*\x80": "refused 4 at 0",
    b"/*/*\x80*/": "refused 4 at 0",
    b"/*\x80/*\x81*/*/": "refused 21 at 2",
    b"/*/**/\x80*/": "refused 21 at 6",
    b"/*\x80*//*": "refused 21 at 2",
    # Greek, Polish, a byte order mark; NEL, LS and PS, which end no comment here.
    "//αβ\n;": "tokens 1 16:7-8",
    "/*żółw*/a": "tokens 1 32:11-12",
    "//\ufeff": "tokens 0",
    "//\u0085a": "tokens 0",
    "/*\u2028*/a//\u2028a": "tokens 1 32:7-8",
    "//\u2029a": "tokens 0",
    "\u2028//": "refused 2 at 0",
    # A sequence cut off by the end, a line end, `*/` or another sequence; and a whole one, with bytes behind it that are none.
    b"//\xce": "refused 21 at 2",
    b"//\xce\n\xb1": "refused 21 at 2",
    b"//\xe2\x82\r\xac": "refused 21 at 2",
    b"/*\xce*/\xb1": "refused 21 at 2",
    b"/*\xf0\x9f\x98*/": "refused 21 at 2",
    b"/*\xf0\x9f\x98": "refused 4 at 0",
    b"//\xce\xce\xb1": "refused 21 at 2",
    b"//\xce\xb1\xb1": "refused 21 at 4",
    b"//\xce\xb1\n\xce\xb1": "refused 2 at 5",
    b"/*\xce\xb1*/\xce\xb1": "refused 2 at 6",
    # Marks between the bytes of a sequence are marks, and close a comment.
    b"/*\xe2*/\x82\xac*/": "refused 21 at 2",
    b"/*\xe2/*\x82*/\xac*/": "refused 21 at 2",
    b"/*\xe2*\x82/\xac": "refused 4 at 0",
    # Overlong forms, surrogates, U+10FFFF and one above, bytes that begin nothing.
    b"//a\xc0\x80": "refused 21 at 3",
    b"//a\xc1\xbf": "refused 21 at 3",
    b"//a\xe0\x9f\xbf": "refused 21 at 3",
    b"//a\xf0\x8f\xbf\xbf": "refused 21 at 3",
    b"//\xed\x9f\xbf\xed\xa0\x80": "refused 21 at 5",
    b"//\xee\x80\x80\xed\xbf\xbf": "refused 21 at 5",
    b"//\xf4\x8f\xbf\xbf\xf4\x90\x80\x80": "refused 21 at 6",
    b"//\xf4\x8f\xbf\xbf\xf5\x80\x80\x80": "refused 21 at 6",
    b"//\xfe": "refused 21 at 2",
    b"/*\xff*/": "refused 21 at 2",
    b"simc//\xff": "refused 5 at 0",
    b"//\xff\nsimc": "refused 21 at 2",
    b"#//\xff": "refused 3 at 0",
    b"simc\x80": "refused 5 at 0",
    b"\x80simc": "refused 2 at 0",
    b"jet::\xc3\xa9": "refused 2 at 5",
    "match true": "tokens 2 9:0-5 31/62:6-10",
    "Left None unwrap": "tokens 3 32/37:0-4 32/40:5-9 32/49:10-16",
}


# RFC 3629, section 4: the first and the last byte that begin a sequence, then those that may be its second, then how many more there are.
SEQUENCES = [
    (0xC2, 0xDF, 0x80, 0xBF, 0), (0xE0, 0xE0, 0xA0, 0xBF, 1), (0xE1, 0xEC, 0x80, 0xBF, 1), (0xED, 0xED, 0x80, 0x9F, 1),
    (0xEE, 0xEF, 0x80, 0xBF, 1), (0xF0, 0xF0, 0x90, 0xBF, 2), (0xF1, 0xF3, 0x80, 0xBF, 2), (0xF4, 0xF4, 0x80, 0x8F, 2),
]
TAILS = 0x80, 0xBF


def edges(first, last):
    """The ends of a range and the bytes beside it."""
    return {first - 1, first, last, last + 1}


def near_sequences():
    """Sequences at the edges of each row, beside them in one byte or two, and cut off at each byte."""
    for first, last, low, high, more in SEQUENCES:
        for lead in edges(first, last):
            for second in edges(low, high):
                yield from (bytes([lead, second] + more * [tail]) for tail in TAILS)
        for lead, second, tail in itertools.product({first, last}, {low, high}, TAILS):
            whole = [lead, second] + more * [tail]
            yield from (bytes(whole[:length]) for length in range(1, len(whole)))
            yield from (bytes(whole[:at] + [wrong] + whole[at + 1:]) for at in range(2, len(whole)) for wrong in (TAILS[0] - 1, TAILS[1] + 1))


# At the limits, and between the two sets of them: the limits, the words of the buffer, the draft, and the answer, worked out by hand.
AT_LIMITS = [
    (SMALL, 9, [(16384, " ")], "tokens 0"),
    (SMALL, 9, [(16385, " ")], "refused 1 at 16384"),
    (LARGE, 9, [(16385, " ")], "tokens 0"),
    (LARGE, 9, [(1048576, " ")], "tokens 0"),
    (LARGE, 9, [(1048577, " ")], "refused 1 at 1048576"),
    (SMALL, 9, ["//", (16382, "a")], "tokens 0"),
    (SMALL, 9, ["//", (16383, "a")], "refused 1 at 16384"),
    (LARGE, 9, ["//", (16383, "a")], "tokens 0"),
    (LARGE, 9, ["//", (1048574, "a")], "tokens 0"),
    (LARGE, 9, ["//", (1048575, "a")], "refused 1 at 1048576"),
    (LARGE, 9, ["/*", (1048572, "a"), "*/"], "tokens 0"),
    (LARGE, 9, ["/*", (1048573, "a"), "*/"], "refused 1 at 1048576"),
    (SMALL, 8192, [(2048, ";")], "tokens 2048"),
    (SMALL, 8192, [(2049, ";")], "refused 6 at 2048"),
    (LARGE, 8192, [(2049, ";")], "tokens 2049"),
    (LARGE, 524288, [(131072, ";")], "tokens 131072"),
    (LARGE, 524288, [(131073, ";")], "refused 6 at 131072"),
    (SMALL, 524288, [(131072, ";")], "refused 1 at 16384"),
    (LARGE, 524288, [(131072, "1234567 ")], "tokens 131072"),
    (LARGE, 524288, [(131072, "1234567 "), "a"], "refused 1 at 1048576"),
    (LARGE, 524288, [(131072, "123456 "), "a"], "refused 6 at 917504"),
    (SMALL, 524288, [(2048, "1234567 ")], "tokens 2048"),
    (SMALL, 524288, [(2048, "1234567 "), "a"], "refused 1 at 16384"),
    (LARGE, 524288, [(2048, "1234567 "), "a"], "tokens 2049"),
    (SMALL, 6143, [(2048, ";")], "refused 6 at 2047"),
    (SMALL, 6144, [(2048, ";")], "tokens 2048"),
    (LARGE, 393215, [(131072, ";")], "refused 6 at 131071"),
    (LARGE, 393216, [(131072, ";")], "tokens 131072"),
    (LARGE, 393216, [(131072, ";"), "#"], "refused 3 at 131072"),
]


def add_comments(cases):
    """What is nearly well-formed, in both kinds of comment."""
    for text in sorted(set(near_sequences())):
        cases.add(9, b"//" + text)
        cases.add(9, b"/*" + text + b"*/a")


def add_bytes(cases, limits):
    """The last bytes that a draft may have, and one more: of a token, of trivia, of sequences in comments, and refused."""
    most = LIMITS[limits][0]
    add = functools.partial(cases.add, limits=limits)
    for n in range(most - 1, most + 2):
        for text in ("a", "1", " ", "/"):
            add(9, (n, text))
        add(9, "a", (n - 2, " "), "b")
        add(9, b"\x80", (n - 1, "a"))
        add(9, (n - 1, " "), b"\x80")
        add(9, (n - 2, " "), "/*")
        add(roomy(limits), (n, ";"))
        for text in (b"\xce", b"\xce\xb1", b"\xe2\x82", b"\xf4\x8f\xbf\xbf"):
            add(9, "//", (n - 2 - len(text), "a"), text)
            add(9, "/*", (n - 4 - len(text), "a"), text, "*/")
    # as many sequences, and as many comments in one another, as a draft has bytes for
    half, quarter = most // 2, most // 4
    add(9, "//", (half - 1, b"\xce\xb1"))
    add(9, "//", (quarter - 1, b"\xf0\x9f\x98\x80"), b"\xf0")
    add(9, (quarter - 1, "/*"), b"\xe2\x82\xac", (quarter - 1, "*/"))
    add(9, (quarter - 1, "/*"), b"\xe2\x82", (quarter - 1, "*/"))
    add(9, (quarter, "/*"), (quarter, "*/"))
    add(9, (quarter, "/*"), (quarter - 1, "*/"), "**")


def roomy(limits):
    """Words for more tokens than the limits let pass."""
    return (WORDS + 1) * LIMITS[limits][1]


def add_tokens(cases, limits):
    """The last tokens that a draft may have, and one more, and a refusal of 2 to 5 or 21 behind them; and buffers for one less, almost and just as many."""
    most = LIMITS[limits][1]
    add = functools.partial(cases.add, limits=limits)
    for n in range(most - 1, most + 2):
        add(roomy(limits), (n, ";"))
        add(roomy(limits), (n, "ab "))
        add(roomy(limits), (n, "; "), "/**/")
        for text in (b"\x80", b"//\x80", "#", "/*", "simc", "//", "simc_"):
            add(roomy(limits), (n, ";"), text)
    for words in range(WORDS * most - 4, WORDS * most + 5):
        add(words, (most, ";"))
    add(roomy(limits), (most + 1, "("))


def add_brackets(cases, limits):
    """48 and 49 brackets of each kind, also behind unmatched closing ones."""
    add = functools.partial(cases.add, limits=limits)
    for up, down in ("()", "[]", "{}", "<>"):
        for n in (BRACKETS, BRACKETS + 1):
            add(900, (n, up))
            add(900, (3, down), (n, up))
            add(900, (n, up), (n, down), (n, up))
            add(900, (n - 1, up), (2, down), (2, up))
            add(900, (n - 1, up), (2, down), (3, up))
            add(900, (60, up + down), (n, up))
        add(900, (12, "([{<"), up)
        add(900, (12, "([{<"), down, up)
        add(900, (12, "([{<"), down, (2, up))
        add(900, (100, down), (49, up))
    add(900, (48, "<"), "->", "<")
    add(900, (48, "<"), "=>", "<")
    add(900, (48, "("), "/*)*/", "(")
    add(146, (49, "("))
    add(147, (49, "("))


def add_matches(cases, limits):
    """8 and 9 `match` in a row."""
    add = functools.partial(cases.add, limits=limits)
    for n in (MATCHES, MATCHES + 1):
        add(900, (n, "match "))
        add(900, "a ", (n, "match/**/"))
        add(900, (n - 1, "match "), "matchx ", "match")
        add(900, (8, "match "), "a ", (n, "match "))
        add(900, (n, "match "), (49, "("))
        add(900, (49, "("), (n, "match "))
        add(900, (n, "match("))
    add(0, (9, "match "))


def add_deep(cases, limits):
    """Too deep, and what stands behind: a refusal of the bytes and too many tokens win, closing brackets change nothing."""
    add = functools.partial(cases.add, limits=limits)
    for deep in ((49, "("), (9, "match ")):
        add(900, deep, (60, ")"))
        for text in (b"\x80", b"//\x80", "#", "/*", "simc"):
            add(900, deep, text)
        add(300, deep, (51, ")"))
        add(300, deep, (92, ")"))
        add(roomy(limits), deep, (LIMITS[limits][1] - 8, ";"))


def add_by_hand(cases):
    """What is worked out by hand: the traps, which are short, by both sets of limits."""
    short = [(limits, 72, [text], right) for limits in LIMITS for text, right in TRAPS.items()]
    for limits, words, pairs, right in short + AT_LIMITS:
        got = cases.add(words, *pairs, limits=limits)
        assert got == right + " zeros", (limits, words, pairs, got, right)


def write_cases():
    cases = Cases()
    add_by_hand(cases)
    # every word, mark and kind
    for word in KEYWORDS[:-1] + MARKS + "true false".split() + RULE_WORDS + "jet witness param Bool TRUE".split():
        cases.add(3, word)
    cases.add(72, "pub fn f(a: u8, b: [u8; 0x1_0]) -> Option<u8> { match a { true => list![1], false => jet::b(0b1_), } }")
    # every byte alone, behind a name and behind digits, and in comments
    for b in range(256):
        byte = bytes([b])
        for text in (byte, b"a" + byte, b"0x1" + byte, b"0b1" + byte, b"//" + byte, b"/*" + byte + b"*/"):
            cases.add(9, text)
    add_comments(cases)
    # token buffers of 0 to 9 words, and around three times the tokens
    for words in range(10):
        cases.add(words, "")
        cases.add(words, "a;b")
        cases.add(words, "/*a*/")
        cases.add(words, "a b c d")
    for words in range(71, 77):
        cases.add(words, (24, "a "))
        cases.add(words, (25, "a "))
    for limits in LIMITS:
        for add in (add_bytes, add_tokens, add_brackets, add_matches, add_deep):
            add(cases, limits)
    return cases


def main():
    cases = write_cases()
    assert sum(len(line) + 1 for line in cases.lines) <= INPUT, "more cases than the program reads"
    folder = pathlib.Path(__file__).resolve().parent.parent / "crates/lexer_cases"
    bad = False
    for name, lines in (("stdin", cases.lines), ("stdout", cases.answers)):
        text = "".join(line + "\n" for line in lines)
        if "--check" not in sys.argv:
            (folder / name).write_text(text)
        elif (folder / name).read_text() != text:
            bad = True
            print(f"crates/lexer_cases/{name} is not what tools/lexer_cases.py writes")
    print(f"{len(cases.lines)} cases")
    sys.exit(bad)


if __name__ == "__main__":
    main()
