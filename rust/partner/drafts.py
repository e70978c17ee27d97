#!/usr/bin/env python3
"""Random escrow drafts as a stream of cases: a decimal length, a line end, that many bytes.

Use: drafts.py SEED COUNT KIND, where KIND is
  shaped         functions written from the grammar, some with numbers, arms or limits that are refused
  damaged        shaped drafts with a token dropped, doubled, swapped or replaced, or a byte changed
  tokens         strings of lexemes, each one that may follow the last, now and then any other
  files          files of 0 to 30 functions and types, some with numbers or arms that are refused
  damaged-files  such files, damaged in the same ways
  comments       functions and files with comments in any language, most with a byte of a comment
                 changed, dropped or doubled
"""

import random
import sys

BUILTINS = """Ctx8 Pubkey Message Message64 Signature Scalar Fe Ge Gej Point Height Time Distance
Duration Lock Outpoint Confidential1 ExplicitAsset Asset1 ExplicitAmount Amount1 ExplicitNonce
Nonce TokenAmount1""".split()
UNSIGNED = "u1 u2 u4 u8 u16 u32 u64 u128 u256".split()
RESERVED = """unwrap_left unwrap_right array_fold for_while is_none unwrap assert panic into fold
dbg raw_hash""".split()
KEYWORDS = "pub use as fn let type mod const match enum crate true false".split()
PLAIN = "a b x y foo bar_1 _ _z Z9 f g main list jet witness param u3 u512 Action".split()
TELLING = "Left Right Some None Either Option List bool".split() + UNSIGNED[:4] + BUILTINS[:5]
TYPE_NAMES = "Either Option List bool".split() + UNSIGNED + BUILTINS
BOUNDS = ["2", "4", "1_6", "0256", "2_", "9223372036854775808", "1024"]
WRONG_BOUNDS = ["0", "1", "3", "6", "9223372036854775807", "9223372036854775809",
                "18446744073709551615", "18446744073709551616", "99999999999999999999999"]
SIZES = ["1", "2", "3", "0_5", "18446744073709551615"]
WRONG_SIZES = ["0", "0_0", "18446744073709551616", "99999999999999999999999"]
LENGTHS = ["0", "00", "0_0", "1", "2", "0_5", "4294967296", "18446744073709551614",
           "18446744073709551615", "00018_446_744_073_709_551_615_"]
WRONG_LENGTHS = ["18446744073709551616", "18446744073709551619", "18446744073709551620",
                 "36893488147419103232", "99999999999999999999", "100000000000000000000",
                 "184467440737095516160", "018446744073709551616", "1844674407370955161_6_",
                 60 * "9"]
MARKS = "-> :: : ; , = => ( ) [ ] { } < >".split()
LITERALS = ["0", "7", "1_000", "0x1F", "0xa_b", "0b1", "0b1_0", "true", "false",
            "jet::add", "jet::match", "witness::w", "param::p", "assert!", "panic!", "dbg!",
            "list!"]
ODD = ["simc", "-", "/", "!", "/*", "*/", "//", "é", "\x00", "0x_1", "0b2", "jet::", "\r", "\n",
       "/**/", "/*/**/*/", "~", "\x7f"]
# Characters of one to four bytes; CR, LF and surrogates are left out.
CHARACTERS = [(0x20, 0x7E), (0x80, 0x7FF), (0x800, 0xD7FF), (0xE000, 0xFFFF), (0x10000, 0x10FFFF)]
# Bytes at the edges of the ranges in RFC 3629's table.
EDGES = bytes.fromhex("00 7F 80 8F 90 9F A0 BF C0 C1 C2 DF E0 EC ED EF F0 F4 F5 FF")


class Shaped:
    """Writes the lexemes of a well-shaped draft; `wrong` is the chance of 9 to 14 and 19."""

    def __init__(self, rng, size, wrong):
        self.rng, self.left, self.wrong = rng, size, wrong
        self.out = []

    def put(self, *lexemes):
        self.out.extend(lexemes)
        self.left -= len(lexemes)

    def chance(self, share):
        return self.rng.random() < share

    def name(self):
        share = self.rng.random()
        if share < 0.7:
            return self.rng.choice(PLAIN)
        return self.rng.choice(TELLING if share < 0.9 else RESERVED)

    def name_but(self, *others):
        """A name that is none of the others."""
        while True:
            name = self.name()
            if name not in others:
                return name

    def function_name(self):
        return self.rng.choice(TELLING if self.chance(0.2) else PLAIN)

    def some(self, most=3):
        """How many elements a list gets: fewer when the draft is long enough."""
        return self.rng.randint(0, most) if self.left > 0 else self.rng.randint(0, 1)

    def listed(self, element, count, closing=True):
        for number in range(count):
            element()
            if number + 1 < count or (closing and self.chance(0.25)):
                self.put(",")

    def function(self):
        if self.chance(0.3):
            self.put("pub")
        self.put("fn", self.function_name(), "(")
        self.listed(self.parameter, self.some())
        self.put(")")
        if self.chance(0.4):
            self.put("->")
            self.type()
        self.block(most=6)

    def item(self):
        if self.chance(0.5):
            return self.function()
        self.put("type", self.name_but(*TYPE_NAMES), "=")
        self.type()
        self.put(";")

    def parameter(self):
        self.put(self.name(), ":")
        self.type()

    def type(self):
        shape = self.rng.randint(0, 11) if self.left > 0 else 0
        if shape < 6:
            group = self.rng.choice([PLAIN, UNSIGNED, BUILTINS, TELLING, ["bool"]])
            self.put(self.rng.choice(group))
        elif shape == 6:
            self.put("Either", "<")
            self.type()
            self.put(",")
            self.type()
            self.put(">")
        elif shape == 7:
            self.put("Option", "<")
            self.type()
            self.put(">")
        elif shape == 8:
            self.put("List", "<")
            self.type()
            self.put(",", self.bound(), ">")
        elif shape == 9:
            self.put("[")
            self.type()
            self.put(";", self.length(), "]")
        else:
            self.put("(")
            self.listed(self.type, self.some())
            self.put(")")

    def bound(self):
        return self.rng.choice(WRONG_BOUNDS if self.chance(self.wrong) else BOUNDS)

    def size(self):
        return self.rng.choice(WRONG_SIZES if self.chance(self.wrong) else SIZES)

    def length(self):
        return self.rng.choice(WRONG_LENGTHS if self.chance(self.wrong) else LENGTHS)

    def pattern(self):
        shape = self.rng.randint(0, 7) if self.left > 0 else 0
        if shape < 6:
            self.put("_" if shape == 5 else self.name())
        else:
            start, end = ("(", ")") if shape == 6 else ("[", "]")
            self.put(start)
            self.listed(self.pattern, self.some())
            self.put(end)

    def typed_pattern(self):
        self.pattern()
        self.put(":")
        self.type()

    def block(self, most=3):
        self.put("{")
        for _ in range(self.some(most)):
            if self.chance(0.45):
                self.put("let")
                self.typed_pattern()
                self.put("=")
            self.expression()
            self.put(";")
        if self.chance(0.6):
            self.expression()
        self.put("}")

    def expression(self):
        if self.left <= 0:
            return self.put(self.rng.choice([self.variable(), "None", "1", "0x2", "true"]))
        self.rng.choice([self.atom, self.atom, self.path, self.wrapper, self.bracketed, self.call,
                         self.call, self.match, self.block])()

    def variable(self):
        return self.name_but("None")

    def atom(self):
        values = ["None", self.variable(), "false", "true"] + LITERALS[:7]
        self.put(self.rng.choice(values + ["witness::w", "param::_p1", "witness::match"]))

    def path(self):
        self.put(self.name(), "::", self.name())
        while self.chance(0.25):
            self.put("::", self.name())
        if self.chance(0.6):
            self.arguments()

    def names_only(self):
        self.put(self.name(), "::", self.name())
        while self.chance(0.2):
            self.put("::", self.name())

    def wrapper(self):
        self.put(self.rng.choice(["Left", "Right", "Some"]))
        if self.chance(0.7):
            self.put("(")
            self.expression()
            self.put(")")
        else:
            self.arguments()

    def bracketed(self):
        start, end = self.rng.choice(["()", "()", "[]"])
        if start == "[" and self.chance(0.5):
            self.put("list!")
        self.put(start)
        self.listed(self.expression, self.some())
        self.put(end)

    def arguments(self):
        self.put("(")
        self.listed(self.expression, self.some())
        self.put(")")

    def call(self):
        shape = self.rng.randint(0, 7)
        if shape == 0:
            self.put("<")
            self.type()
            self.put(">", "::", "into")
        elif shape == 1:
            word = self.rng.choice(["unwrap_left", "unwrap_right", "is_none", "raw_hash"])
            self.put(word, "::", "<")
            self.type()
            self.put(">")
        elif shape == 2:
            self.put("fold", "::", "<", self.function_name(), ",", self.bound(), ">")
        elif shape == 3:
            self.put("array_fold", "::", "<", self.function_name(), ",", self.size(), ">")
        elif shape == 4:
            self.put("for_while", "::", "<", self.function_name(), ">")
        elif shape == 5:
            self.put(self.rng.choice(["unwrap", "assert!", "panic!", "dbg!"]))
        elif shape == 6:
            self.put(self.rng.choice(["jet::add", "jet::_", "jet::simc"]))
        else:
            name = self.function_name()
            self.put("g" if name == "None" else name)
        self.arguments()

    def match(self):
        self.put("match")
        self.expression()
        self.put("{")
        if self.chance(self.wrong):
            for _ in range(self.some(3)):
                self.arm(self.rng.choice(["Left", "Right", "Some", "None", "true", "false", ""]))
        elif self.chance(0.4):
            for _ in range(max(1, self.some(4))):
                self.arm("")
        else:
            pairs = [("Left", "Right"), ("None", "Some"), ("false", "true")]
            first, second = self.rng.choice(pairs)
            for head in self.rng.sample([first, second], 2):
                self.arm(head)
        self.put("}")

    def arm(self, head):
        """One arm; an empty head stands for an enum path."""
        if head in ("Left", "Right", "Some"):
            self.put(head, "(")
            self.typed_pattern()
            self.put(")")
        elif head:
            self.put(head)
        else:
            self.names_only()
            if self.chance(0.5):
                self.put("(")
                self.listed(self.typed_pattern, max(1, self.some()))
                self.put(")")
        self.put("=>")
        if self.chance(0.3):
            self.block()
            if self.chance(0.5):
                self.put(",")
        else:
            self.expression()
            self.put(",")


def near_limits(rng):
    """Lexemes of a draft at a limit or just over it."""
    shape, step = rng.randint(0, 3), rng.randint(-1, 1)
    if shape == 0:
        count = 48 + step - 1
        body = ["("] * count + ["1"] + [")"] * count
    elif shape == 1:
        count = 8 + step
        body = ["match"] * count + ["x"] + ["{", "A", "::", "B", "=>", "{", "}", "}"] * count
    elif shape == 2:
        body = ["1", ";"] * 1021 + ["x"] * step
    else:
        body = ["/*" + "." * (16384 - 12 + step) + "*/"]
    return ["fn", "f", "(", ")", "{"] + body + ["}"]


def shaped(rng):
    if rng.random() < 0.01:
        return near_limits(rng)
    size = rng.choice([5, 15, 40, 40, 80, 80, 160, 300])
    draft = Shaped(rng, size, rng.choice([0, 0, 0, 0, 0.15, 0.5]))
    draft.function()
    return draft.out


def filed(rng):
    """Lexemes of a file; where there are many items, they are short."""
    count = rng.choice([0, 1, 1, 2, 2, 3, 4, 6, rng.randint(7, 30)])
    file = Shaped(rng, 0, rng.choice([0, 0, 0, 0, 0.15, 0.5]))
    for _ in range(count):
        file.left = rng.choice([2, 5, 10, 15, 120 // count])
        file.item()
    return file.out


def is_wordy(text):
    return text.isalnum() or text in "_!"


def gap_needed(before, after):
    """Whether two lexemes would be read otherwise without a gap between them."""
    if is_wordy(before[-1:]) and is_wordy(after[:1]):
        return not before.endswith("!")
    glued = before[-1:] + after[:1]
    return glued in ("::", "=>", "->", "//", "/*") or (before in ("jet", "witness", "param"))


def spaced(rng, lexemes):
    """Joins lexemes with the gaps they need and some that they do not."""
    style = rng.choice([0.0, 0.1, 0.5, 0.9])
    gaps = [" ", "  ", "\n", "\t", "\r\n", "\r", "\x0b", "\x0c", "// a /* b\n", "// }\r",
            "/* c */", "/*/* d **/ */", "/***/", " // fn\r\n "]
    parts, before = [], ""
    for lexeme in lexemes:
        if rng.random() < style:
            parts.append(rng.choice(gaps) if rng.random() < 0.3 else " ")
        elif before and gap_needed(before, lexeme):
            parts.append(" ")
        parts.append(lexeme)
        before = lexeme
    if rng.random() < 0.1:
        parts.append(rng.choice(gaps + ["// end", "/* end */"]))
    return "".join(parts).encode()


def any_lexeme(rng):
    group = rng.choice([MARKS, MARKS, MARKS, PLAIN, TELLING, RESERVED, KEYWORDS, LITERALS])
    return rng.choice(group)


def damaged(rng, lexemes):
    for _ in range(rng.choice([1, 1, 1, 2])):
        place = rng.randrange(max(1, len(lexemes)))
        damage = rng.randint(0, 4)
        if damage == 0:
            del lexemes[place:place + 1]
        elif damage == 1:
            lexemes[place:place] = lexemes[place:place + 1]
        elif damage == 2:
            lexemes[place:place + 2] = lexemes[place:place + 2][::-1]
        elif damage == 3:
            lexemes[place:place + 1] = [any_lexeme(rng)]
        else:
            return changed_byte(rng, bytearray(spaced(rng, lexemes)))
    return spaced(rng, lexemes)


def changed_byte(rng, draft):
    if draft:
        anything = rng.randrange(256)
        telling = rng.choice(b"(){}[]<>,;:=-_/*! 019axLu\n\r")
        draft[rng.randrange(len(draft))] = rng.choice([anything, telling, telling, telling])
    return bytes(draft)


def comment(rng, line_ends):
    """A comment of any characters, those of one byte as often as those of four."""
    length = rng.choice([0, 1, 1, 2, 3, 8, 20])
    text = "".join(chr(rng.randint(*rng.choice(CHARACTERS))) for _ in range(length))
    return f"/*{text}*/" if rng.random() < 0.5 else f"//{text}{rng.choice(line_ends)}"


def commented(rng):
    """A function or a file with such comments among its lexemes, the last up to its end or not."""
    lexemes = shaped(rng) if rng.random() < 0.5 else filed(rng)
    for _ in range(rng.choice([0, 1, 2, 5])):
        lexemes.insert(rng.randint(0, len(lexemes)), comment(rng, ["\n", "\r", "\r\n"]))
    return spaced(rng, lexemes + [comment(rng, ["", "\n"])])


def damaged_comment(rng, draft):
    """Most drafts get a byte over 127, which stands in a comment, changed, dropped or doubled."""
    places = [place for place, byte in enumerate(draft) if byte > 127]
    if not places or rng.random() < 0.2:
        return draft
    place = rng.choice(places)
    byte, anything, edge = draft[place:place + 1], rng.randrange(256), rng.choice(EDGES)
    other = rng.choice([b"", 2 * byte, bytes([anything]), bytes([edge])])
    return draft[:place] + other + draft[place + 1:]


def followers():
    """For each lexeme the lexemes that came after it in some shaped drafts."""
    rng, after = random.Random(0), {}
    for _ in range(300):
        lexemes = shaped(rng)
        for one, other in zip(lexemes[:300], lexemes[1:300]):
            after.setdefault(one, []).append(other)
    return after


def token_string(rng, after):
    head = ["fn", "f", "(", ")", "{"]
    starts = [[], ["pub"], head, head, head, head + ["match", "x", "{"],
              head + ["let", "x", ":"], ["fn", "f", "("], head + ["let"], head + ["Left", "("]]
    lexemes = list(rng.choice(starts))
    astray = rng.choice([0, 0.02, 0.1, 0.5])
    for _ in range(rng.choice([0, 1, 2, 3, 4, 6, 8, 12, 20, 40])):
        if rng.random() < astray:
            lexemes.append(rng.choice(ODD) if rng.random() < 0.03 else any_lexeme(rng))
        else:
            lexemes.append(rng.choice(after.get(lexemes[-1] if lexemes else "", ["fn"])))
    if rng.random() < 0.6:
        lexemes.extend(closing(lexemes))
    return spaced(rng, lexemes)


def closing(lexemes):
    """The brackets that close those still open."""
    pairs, still_open = {"(": ")", "[": "]", "{": "}", "<": ">"}, []
    for lexeme in lexemes:
        if lexeme in pairs:
            still_open.append(pairs[lexeme])
        elif still_open and lexeme == still_open[-1]:
            still_open.pop()
    return still_open[::-1]


def main():
    seed, count, kind = int(sys.argv[1]), int(sys.argv[2]), sys.argv[3]
    rng, after = random.Random(f"{seed} {kind}"), followers()
    kinds = {"shaped": lambda: spaced(rng, shaped(rng)),
             "damaged": lambda: damaged(rng, shaped(rng)),
             "tokens": lambda: token_string(rng, after),
             "files": lambda: spaced(rng, filed(rng)),
             "damaged-files": lambda: damaged(rng, filed(rng)),
             "comments": lambda: damaged_comment(rng, commented(rng))}
    for _ in range(count):
        draft = kinds[kind]()
        sys.stdout.buffer.write(b"%d\n%s" % (len(draft), draft))


if __name__ == "__main__":
    main()
