#!/usr/bin/env python3
"""Writes crates/reader_cases/stdin: drafts with the lengths of the buffers that are lent for them.

A case: a line with the words of the token buffer, the words of the tree buffer, the bytes of the byte buffer and the bytes of the
draft; then the draft and a line end.
Answered are the draft read as one function and as a file, both within the large limits, its listing within the small ones, and its listing within the
large ones by the entry that is lent all three buffers, whose lines stand only where they are others. Where both readings accept, `same` says that the records
behind the file's first are the function's, but for the way up of the function itself: 0 where it stands alone, 1 in the file. Behind the large listing's
line nothing is said where every word of tokens and tree is as the reading as a file leaves it. The lines that begin with `lean` are those of the entries that
keep the starts of tokens alone, in a buffer of as many words as the token buffer; they stand only where these entries leave something else.
--partner PATH: also writes stdout, the answers of the partner's program, and sees that every record kind, call and refusal is there, and that the
partner says what is written here from the papers, where that is.
--check: exit 1 if a file differs.
"""
import argparse, pathlib, random, re, subprocess, sys

import file_cases, large_cases, lean_cases, way_cases
from draft_cases import HEAD, LINE, OVER, PARTNER, TOKENS, TREE, Cases, body, escaped, random_drafts

ROOT = pathlib.Path(__file__).resolve().parent.parent
# Small drafts: one that is accepted, one with a refusal 9, one with a refusal 8, one with a refusal 19. And one whose arms are exchanged.
SMALL, WRONG_BOUND, WRONG_SHAPE, WRONG_LENGTH = body(""), body("fold::<g,3>(x)"), body("1 2"), f"{HEAD}->[b;{OVER}]{{}}"
EXCHANGED = body("match x{Some(a:u1)~{1},None~{2}}")


def known_drafts():
    """The drafts of the partner's cases.txt, whose head tells the form."""
    for line in (PARTNER / "cases.txt").read_text(encoding="utf-8").splitlines():
        _, found, text = line.partition(" = ")
        if not found or line.startswith("#"):
            continue
        pieces = re.findall(r'(?:(\d+)\*)?"([^"]*)"', text)
        draft = "".join(piece * int(times or 1) for times, piece in pieces).replace("\\r", "\r").replace("\\n", "\n")
        draft = re.sub(r"\\x(..)", lambda byte: escaped(bytes.fromhex(byte[1])), draft)
        yield body(draft) if text.startswith("body") else draft


def add_bytes_of_drafts(cases):
    """16,384 bytes and one more, the small limit; a refusal at the length; refusal 1 before those of the bytes. One line is enough for each."""
    cases.add("fn " + 16377 * "a" + "(){}", out=4 * LINE)
    for draft in ("fn " + 16378 * "a" + "(){}", HEAD + "{" + 16376 * " " + "}\n", HEAD + 16378 * " "):
        cases.add(draft, out=LINE)
    cases.add(b"\x80" + 16383 * b" ", out=LINE)
    cases.add(b"\x80" + 16384 * b" ", out=LINE)


def add_tokens(cases):
    """2,047 to 2,049 tokens, around the small limit, with buffers for one less, almost and just as many, and for more."""
    for words in (6141, 6143, 6144, 6147, 8192):
        cases.add_bodies(*(1020 * "1;" + "1" + last for last in ("", ";", ";1")), tokens=words, out=LINE)
        cases.add_bodies(*("[" + 1019 * "a," + "a" + last + "]" for last in ("", ",", ",a")), tokens=words, out=0)
    # The draft with most records for its tokens, three for each four.
    most = "fn f(" + 510 * "a:b," + "){}"
    cases.add(most, tokens=6138, tree=10731, out=62853)
    cases.add(most, tree=10730, out=62852)
    cases.add("fn f(" + 510 * "a:b," + "a:b){}", out=LINE)
    cases.add_bodies("A" + 1020 * "::A", "A" + 1021 * "::A", out=LINE)


def add_brackets(cases):
    """48 and 49 brackets of each kind open, the function's own among them; closing ones count no further down than 0."""
    for count in (47, 48):
        cases.add_bodies(count * "(" + "1" + count * ")", count * "[" + "1" + count * "]", count * "{" + count * "}")
        cases.add_bodies("let " + count * "[" + "a" + count * "]" + ":u8=1;", count * "<")
        cases.add("fn f(a:" + count * "Option<" + "u8" + count * ">" + "){}")
        cases.add("fn f(a:" + count * "(" + "u8" + count * ")" + "){}")
        mixed = count - 44
        cases.add_bodies(mixed * "(" + 11 * "([{f(" + "1" + 11 * ")}])" + mixed * ")")
    for count in (48, 49):
        cases.add(HEAD + "->" + count * "Either<u1," + "u1" + count * ">" + "{}")
        cases.add(count * "(" + "simc")
        for bracket in "([{<":
            cases.add(3 * ")" + count * bracket)


def add_matches(cases):
    """8 and 9 `match` in a row, with built-in and enum arms; as many that are not in a row; 7 before 8."""
    for count in (8, 9):
        cases.add_bodies(count * "match " + "x" + count * "{true~1,false~2,}", count * "match " + "x" + count * "{A::B(a:u1)~{}}")
        cases.add_bodies(count * "match ", count * "match(" + "x" + count * "){None~1,Some(a:u1)~2,}")


def add_words_lent(cases):
    """Token and tree buffers of every length up to a few over what is needed, so that 6, 8, then 9 or 19, then 15 are seen in their order."""
    # The words of the tokens, and those that the records take or would take.
    for draft, tokens, tree in ((SMALL, 18, 21), (WRONG_BOUND, 48, 49), (WRONG_SHAPE, 24, 35), (WRONG_LENGTH, 36, 35)):
        for words in range(tokens + 5):
            cases.add(draft, words, tree, 0)
        for words in range(tree + 5):
            cases.add(draft, tokens, words, 0)
        # Both too short, by a word or wholly, for whole tokens and for their starts alone.
        for words in (0, tokens // 3 - 1, tokens // 3, tokens - 1, tokens):
            for records in (0, tree - 1, tree):
                cases.add(draft, words, records, LINE)
    # Arms that are exchanged in a tree buffer with no room to spare.
    for words in range(77, 103):
        cases.add(EXCHANGED, TOKENS, words, 0)
    # Buffers over every limit.
    cases.add(SMALL, 8192, 16384, 90000)


def add_bytes_lent(cases):
    """Byte buffers of no bytes, around each line, and of more than any draft needs."""
    for draft, lines in ((SMALL, 4), (EXCHANGED, 14), (WRONG_BOUND, 1), (WRONG_SHAPE, 1), (WRONG_LENGTH, 1)):
        for out in [0, 1, 90000] + [LINE * line + step for line in range(1, lines + 2) for step in (-1, 0, 1)]:
            cases.add(draft, out=out)


def add_functions(cases):
    """Kinds 1 to 3, with and without each part; `_` and reserved words where any name token is taken."""
    for head in ("fn f", "pub fn f", "fn Left", "fn u8", "fn main"):
        cases.add(head + "(){}")
        cases.add(head + "()->(){}")
    for draft in ("fn f(a:u8){}", "pub fn f(a:u8,b:bool,)->_{a}", "fn f(match_:a,unwrap:b,None:c,_:d){}"):
        cases.add(draft)


def add_types(cases):
    """Kinds 4 to 12: every builtin alias, names that are nearly unsigned types, with and without closing commas, numbers at 64 bits."""
    aliases = "Ctx8 Pubkey Message Message64 Signature Scalar Fe Ge Gej Point Height Time Distance Duration Lock Outpoint " \
        "Confidential1 ExplicitAsset Asset1 ExplicitAmount Amount1 ExplicitNonce Nonce TokenAmount1"
    unsigned = "u1 u2 u4 u8 u16 u32 u64 u128 u256 u0 u3 u12 u512 u u1_ U8"
    cases.add("fn f(" + ",".join(f"a:{name}" for name in f"{aliases} {unsigned}".split()) + "){}")
    types = """bool Bool Either Option List _ unwrap Left Either<u1,u2> Option<u1> List<u1,2> List<u1,1_024> () (u1) (u1,) (u1,u2)
        (u1,u2,) [u1;0] [u1;4294967296] [u1;18446744073709551615] [u1;18446744073709551616]
        List<u1,4294967296> List<Option<(Either<[u1;2],List<u2,4>>,)>,8>"""
    for name in types.split():
        cases.add(f"{HEAD}->{name}{{}}")


def add_statements(cases):
    """Kinds 13 to 18: patterns, `let`, blocks with and without a last expression."""
    for pattern in "a _ None unwrap () (a) (a,) (a,_) [] [a] [a,] [a,(b,[_])]".split():
        cases.add_bodies(f"let {pattern}:u1=1;")
    cases.add_bodies("1", "1;", "1;2", "1;2;", "{}", "{};", "{};{}", "{1};2", "{{{1}}}", "let a:u1={1};a", "let a:u1=1;let b:u1=a;")


def add_expressions(cases):
    """Kinds 19 to 34: every expression with nothing beneath it, wrappers and what is nearly one, brackets, paths."""
    cases.add_bodies(*"None true false 1 1_0 0x1F 0b1_0 witness::w param::p a Left Right Some unwrap into _".split())
    for word in ("Left", "Right", "Some"):
        cases.add_bodies(f"{word}(1)", f"{word}({word}(1))", f"{word}()", f"{word}(1,)", f"{word}(1,2)", f"{word}::a", f"{word}::a(1)")
    cases.add_bodies("(1)", "()", "(1,)", "(1,2)", "(1,2,)", "((1))", "[]", "[1]", "[1,]", "[1,2]", "list![]", "list![1,2,]")
    cases.add_bodies("A::B", "A::B()", "A::B(1)", "A::B::C(1,2,)", "None::None", "None::A(None)", "fold::x::unwrap(1)")


def add_calls(cases):
    """Kind 39, each call by itself, with an argument and within itself; kind 40 in its two places."""
    calls = """jet::j unwrap_left::<u1> unwrap_right::<u1> unwrap is_none::<u1> assert! panic! dbg! <u1>::into g fold::<g,2>
        array_fold::<g,1> for_while::<g> raw_hash::<u1>"""
    for call in calls.split():
        cases.add_bodies(call + "()", call + "(1)", f"{call}({call}(),)")
    cases.add_bodies("fold::<g,9223372036854775808>()", "array_fold::<g,18446744073709551615>()", "array_fold::<g,4294967296>()",
                     "<Either<Option<u1>,(u1,)>>::into(1)", "match_(match_)", "witness(1)", "Either(1)", "List(List())")


def add_arms(cases):
    """Kinds 35 and 37. Each pair of arms both ways round, alone, within the first or the second arm and within what is matched."""
    pairs = (("Left(a:u1)~{},", "Right((b,_):u2)~2,"), ("None~{}", "Some([]:[u1;0])~{3}"), ("false~4,", "true~{5;6},"))
    inners = [f"match x{{{first}{second}}}" for one, other in pairs for first, second in ((one, other), (other, one))]
    for inner in inners:
        cases.add_bodies(inner, inner + ";" + inner, f"({inner},{inner},)")
        for low, high in pairs:
            head, tail = low.split("~")[0], high.split("~")[0]
            cases.add_bodies(f"match {inner}{{{high}{low}}}", f"match y{{{head}~{inner},{high}}}", f"match y{{{high}{head}~{{{inner}}}}}",
                             f"match y{{{tail}~{inner},{low}}}")
    # Exchanged parts of sizes that are far apart, and three deep.
    cases.add_bodies("match x{true~[1,2,3,4,5,6,7,8,9],false~0,}", "match x{true~0,false~[1,2,3,4,5,6,7,8,9],}")
    cases.add_bodies("match x{true~match y{Some(a:u1)~match z{Right(b:u1)~1,Left(c:u1)~(2,),},None~(3),},false~{},}")


def add_enum_arms(cases):
    """Kinds 36 and 38: names, pairs, commas. One arm is enough, and the built-in words may begin a path."""
    for arms in ("A::B~1,", "A::B~{}", "A::B(a:u1)~1,", "A::B(a:u1,)~1,", "A::B(a:u1,(b,):u2)~{},C::D::E~2,", "A::B~{}A::C~{}A::D~{}",
                 "None::A~1,", "Left::A(a:u1)~1,Right::B~2,", "A::B~match x{C::D~1,},"):
        cases.add_bodies("match x{" + arms + "}")


def add_smallest(cases):
    """The smallest draft of each refusal 2 to 15, 19 and 21, and of 1 within the small limits: of one function, and below of a file where that is another."""
    cases.add(16385 * " ", out=LINE)
    for draft in (b"\x80", b"-", b"/*", b"simc"):
        cases.add(draft)
    cases.add("a", tokens=2)
    cases.add(2049 * ";")
    for draft in (49 * "(", "", "fn f()->List<b,0>{}"):
        cases.add(draft)
    cases.add_bodies("array_fold::<f,0>()", "match a{}", "match a{None~{}A::B~{}}", "match a{None~{}}", "match a{None~{}None~{}}")
    cases.add(SMALL, tree=20)
    cases.add(WRONG_LENGTH)
    cases.add_refused(21, "//^\udc80")
    cases.add_refused(8, "^;")
    cases.add_refused(9, "type a=List<b,^0>;", ["file"])
    cases.add("", tree=6, said=["function refused 8 0 zeros\n", "file refused 15 0 zeros\n"])
    cases.add_refused(19, f"type a=[b;^{OVER}];", ["file"])


def add_differences(cases):
    """The smallest inputs of docs/DIFFERENCES.md."""
    for draft in ("^é", "^\u00a0", "^\udc80", "^\ufefffn f(){}"):
        cases.add_refused(2, draft)
    # Characters that end no `//`, and what starts no lexeme behind them.
    for character in "\v\f\u0085\u2028\u2029\ufeff":
        cases.add(f"//{character}#", said=["file accepted 0 1 owned zeros\n"])
    for draft in ("# #", "/*/*", 9 * "match ", "fn fold(){}", "fn f()->[b;4294967296]{}"):
        cases.add(draft)
    cases.add(";", tokens=2)
    cases.add_bodies("fold(x)", "assert(x)")
    for draft in ("pub ^type a=b;", "type ^List=b;", "^use a::b;", "^mod a{}", "^enum a{}"):
        cases.add_refused(8, draft, ["file"])
    cases.add_refused(5, '^simc"*";')


def add_built_in_arms(cases):
    """Every two of the six built-in arms: three pairs are accepted, each both ways. One, three and none; with an enum arm."""
    heads = ("Left(a:b)", "Right(a:b)", "None", "Some(a:b)", "false", "true")
    for one in heads:
        cases.add_bodies(f"match x{{{one}~1,}}", f"match x{{{one}~1,A::B~2,}}", f"match x{{A::B~2,{one}~1,}}")
        cases.add_bodies(*(f"match x{{{one}~1,{other}~2,}}" for other in heads))
    cases.add_bodies("match x{true~1,false~2,true~3,}", "match x{A::B~0,true~1,false~2,}", "match x{true~1,false~2,A::B~0,}")


def add_orders(cases):
    """Drafts with two refusals or more, either one first."""
    # 2 to 5 and 21: the earliest place.
    for number, draft in ((5, "^simc \udc80 - /*"), (2, "^\udc80 simc"), (3, "^- simc"), (4, "^/* simc \udc80"), (21, "/*^\udc80*/ simc"),
                          (21, "//^\udc80\nsimc"), (3, "//simc\r^-"), (5, "^simc//\udc80"), (3, "^-//\udc80"), (2, "^\udc80//\udc80"),
                          (21, "//^\udc80\n\udc80"), (21, "/*^\udc80*//*"), (4, "/*α*/^/*\udc80"), (21, 49 * "(" + "//^\udc80")):
        cases.add_refused(number, draft)
    # 6 before 7 before 8.
    for draft, tokens in ((49 * "(", 144), (49 * "(", 147), ("1" + 49 * "(", 150)):
        cases.add(draft, tokens)
    # 8 before 9 to 14, which go by place, an outer `match` before what is in it. `add_faults` has those with 19.
    cases.add_bodies("fold::<g,3>(x) 1", "match x{} 1", "match match x{}{true~1,}", "match fold::<g,3>(x){}", "fold::<g,3>(match x{})",
                     "array_fold::<g,0>();fold::<g,0>()", "match x{None~match y{},true~1,}", "match x{true~match y{},false~2,}",
                     "match x{A::B~fold::<g,5>(),None~1,}", "let a:List<List<u1,3>,5>=1;", "let a:List<u1,0>=match x{};")


# The first and the last characters of each number of bytes, surrogates left out.
EDGES = "\0\x7f\u0080\u07ff\u0800\ud7ff\ue000\uffff\U00010000\U0010ffff"
# Bytes that begin no sequence, overlong forms, surrogates, and what is over the last character.
BAD = [bytes.fromhex(text) for text in ("80", "BF", "C0 80", "C1 BF", "E0 80 80", "E0 9F BF", "ED A0 80", "ED BF BF", "F0 80 80 80", "F0 8F BF BF",
                                        "F4 90 80 80", "F5 80 80 80", "FE", "FF")]


def add_comments(cases):
    """Order 6: "Let comments hold any well-formed UTF-8 as RFC 3629 defines it. Places still count bytes"."""
    for text in ("Η πληρωμή", "Zażółć gęślą jaźń", EDGES):
        for gap in (f"//{text}\n", f"/*{text}*/", f"/*{text}/*{text}*/*/\r//{text}\r"):
            file_cases.add_file(cases, file_cases.ITEMS, (gap,))
            file_cases.add_file(cases, file_cases.ITEMS, ("", gap))
    cases.add("//é", said=["function refused 8 4 zeros\n", "file accepted 0 1 owned zeros\n"])
    # The comment has 11 bytes, four characters in seven of them; the variable stands behind it.
    cases.add_bodies("/*żółw*/a", said=["function accepted ", "file accepted ", "1D 0012 0013 00000000 00000000 0001 0001\n"])


def add_bad_comments(cases):
    """Order 6: "21 when bytes inside a comment are not well-formed UTF-8, at the first byte of the bad sequence"; "Refusal 4 still gives the outermost
    opening"; "Refusal 2 now speaks only of bytes outside comments"."""
    characters = map(str.encode, EDGES)
    cut = [character[:length] for character in characters for length in range(1, len(character))]
    for bad in map(escaped, BAD + cut):
        for comment in (f"//^{bad}", f"//α^{bad}\n", f"//^{bad}\r\udcbf", f"/*€a^{bad}*/", f"/*/*^{bad}*/*/", f"/*^{bad}ż*//*"):
            cases.add_refused(21, body("") + comment)
        for number, comment in ((4, f"^/*{bad}"), (4, f"^/*/*{bad}*/"), (2, f"//α\n^{bad}"), (2, f"/*α*/^{bad}//{bad}")):
            cases.add_refused(number, body("") + comment)


def spellings(number):
    """A number with zeros before it, and with `_` between its digits and behind."""
    return str(number), f"0{number}", f"{30 * '0'}{number}", f"{number:_}_", f"0_{number}__"


def add_lengths(cases):
    """Lengths of array types: "19 when an array type's length is over the largest 64-bit number, at the number"; any other is read as it is."""
    for number in (0, 1, 2 ** 32 - 1, 2 ** 32, 2 ** 63, OVER - 2, OVER - 1):
        for length in spellings(number):
            cases.add_array(f"{HEAD}->^[b;{length}]^{{}}", number)
    for number in (OVER, OVER + 1, OVER + 3, OVER + 4, 2 * OVER, 10 ** 20 - 1, 10 ** 20, 10 * OVER, OVER ** 2, 10 ** 60 - 1):
        for length in spellings(number):
            cases.add_refused(19, f"{HEAD}->[b;^{length}]{{}}")
    for length in ("00", "0_0", 300 * "0"):
        cases.add_array(f"{HEAD}->^[b;{length}]^{{}}", 0)
    cases.add_refused(19, f"{HEAD}->[b;^{9000 * '9'}]{{}}")
    # Wherever a type stands; and in each type that holds one, as a result and in a `let`.
    places = ["fn f(a:#){}", "fn f(a:u1,b:#,){}", "pub fn f()->#{}"]
    places += map(body, ("let a:#=1;", "let (a,_):#={1};", "match x{Left(a:#)~1,Right(b:u1)~2,}", "match x{Right(a:#)~1,Left(b:u1)~2,}",
                         "match x{None~1,Some([]:#)~{}}", "match x{A::B(a:#)~1,}", "match x{A::B~{}A::C(a:u1,b:#,)~{}}", "<#>::into(1)",
                         "unwrap_left::<#>(1)", "unwrap_right::<#>()", "is_none::<#>(1)", "raw_hash::<#>(1)", "g(match {<#>::into()}{A::B~1,})"))
    around = ("#", "Either<#,u1>", "Either<u1,#>", "Option<#>", "List<#,2>", "(#)", "(u1,#,)", "[#;2]")
    for place in places:
        for outer in around if place in places[2:4] else around[:1]:
            draft = place.replace("#", outer)
            cases.add_array(draft.replace("#", f"^[u1;{OVER - 1}]^"), OVER - 1)
            cases.add_refused(19, draft.replace("#", f"[u1;^{OVER}]"))


def add_faults(cases):
    """9 to 14 with 19 before it, behind it and around it: the earliest place, the number for 9, 10 and 19 and the `match` for the others."""
    long = f"<[u1;{OVER}]>::into"
    marked = long.replace(";", ";^")
    numbers = ((9, "fold::<g,^3>({})"), (9, f"fold::<g,^{OVER}>({{}})"), (9, "is_none::<List<u1,^0>>({})"), (10, "array_fold::<g,^0>({})"),
               (10, f"array_fold::<g,^{OVER}>({{}})"), (11, "^match {}{}"), (12, "^match {}{A::B~1,true~2,}"), (13, "^match {}{true~1,}"),
               (13, "^match {}{true~1,false~2,true~3,}"), (14, "^match {}{None~1,true~2,}"), (19, f"is_none::<[u1;^{OVER + 3}]>({{}})"))
    for number, fault in numbers:
        alone = fault.replace("{}", "x", 1)
        other = alone.replace("^", "")
        cases.add_refused(number, body(f"{alone};{long}(x)"))
        cases.add_refused(number, body(fault.replace("{}", f"{long}(x)", 1)))
        cases.add_refused(19, body(f"{marked}(x);{other}"))
        cases.add_refused(19, body(f"{marked}({other})"))
        # A draft that is not well-shaped gets 8, before its other faults and behind them.
        cases.add_refused(8, body(f"{long}({other}) ^1"))
        cases.add_refused(8, body(f"1 ^1;{long}({other})"))
    # In the arms of a match that is refused itself, and in one type.
    cases.add_refused(12, body(f"^match x{{A::B(a:[u1;{OVER}])~1,true~2,}}"))
    cases.add_refused(13, body(f"^match x{{Left(a:[u1;{OVER}])~1,}}"))
    cases.add_refused(14, body(f"^match x{{Left(a:[u1;{OVER}])~1,Some(b:[u1;{OVER}])~2,}}"))
    for number, name in ((19, "List<[u1;^@],3>"), (19, "List<[u1;^@],@>"), (9, "[List<u1,^3>;@]"), (9, "[List<u1,^@>;@]"), (19, "[[u1;^@];@]"),
                         (19, "[[u1;0];^@]"), (19, "Either<[u1;^@],List<u1,1>>"), (9, "Either<List<u1,^1>,[u1;@]>"), (19, "([u1;^@],[u1;@])")):
        cases.add_refused(number, body(f"let a:{name.replace('@', str(OVER))}=1;"))
    # Refusal 8 in the array type itself.
    for name in "[u1;@^,] [u1^,@] [u1;@^;@] [u1;@^ [u1;^0x@] [u1;^] [^@;@] u1^[u1;@]".split():
        cases.add_refused(8, f"{HEAD}->{name.replace('@', str(OVER))}{{}}")


def add_wrong_shapes(cases):
    """Refusal 8 in every rule: a draft cut off, a mark too many or too few, a comma where none may close."""
    for draft in ("fn", "fn f", "fn f(", "fn f()", "fn f(){", "pub", "f", "fn unwrap(){}", "fn f(a){}", "fn f(,){}", "fn f(){}}", "fn f(){}1"):
        cases.add(draft)
    for name in "Either<u1> Either<u1,u2,> Option<u1,> Option<> List<u1> List<u1,2,> List<u1,0x2> [u1,2] [u1;x] [u1;] (u1;) (,) u1<u2> 1".split():
        cases.add(f"{HEAD}->{name}{{}}")
    cases.add_bodies("let a=1;", "let a:u1=1", "let a:u1;", "let 1:u1=1;", "let (a:u1=1;", "let (,):u1=1;", "a b", ",", ";", "{1} 2", "1;;")
    cases.add_bodies("(,)", "(1,,)", "[1;2]", "list!()", "list!", "None()", "A::", "A::B::", "A::1", "jet::j", "witness::w()", "true()")
    cases.add_bodies("fold()", "fold::<g>()", "fold::<g,0x2>()", "fold::<unwrap,2>()", "for_while::<fold>()", "for_while::<g,2>()",
                     "unwrap::<u1>()", "is_none()", "is_none::<u1>", "<u1>()", "<u1>::g()", "assert!", "g(1", "g(,)", "into()")
    for arm in ("A~1,", "A::B~1", "A::B()~1,", "A::B(a)~1,", "Left~1,", "Left()~1,", "Left(a:u1,)~1,", "None(a:u1)~1,", "true(a:u1)~1,", "1~1,",
                "A::B 1,", "A::B~,", "A::B~{},,", ","):
        cases.add_bodies("match x{" + arm + "}")


def add_random(cases):
    """A sample of random drafts of each kind, and some with buffers that may be too short."""
    for kind, count in (("shaped", 150), ("damaged", 80), ("tokens", 80), ("files", 40), ("damaged-files", 40), ("comments", 60)):
        for draft in random_drafts(11, count, kind, 2000):
            cases.add(draft)
    rng = random.Random(12)
    for draft in random_drafts(12, 80, "shaped", 300):
        cases.add(draft, rng.randrange(3 * len(draft)), rng.randrange(3 * len(draft)), rng.randrange(4 * LINE))


SECTIONS = (
    add_bytes_of_drafts, add_tokens, add_brackets, add_matches, add_words_lent, add_bytes_lent, add_functions, add_types, add_statements,
    add_expressions, add_calls, add_arms, add_enum_arms, add_smallest, add_differences, add_built_in_arms, add_orders, add_comments, add_bad_comments,
    add_lengths, add_faults, add_wrong_shapes, add_random, *file_cases.SECTIONS, *way_cases.SECTIONS,
    *large_cases.SECTIONS, *lean_cases.SECTIONS,
)


def all_cases():
    """The drafts of document 01, then the sections in their order."""
    cases = Cases()
    for draft in known_drafts():
        cases.add(draft)
    for add in SECTIONS:
        add(cases)
    return cases


def missing(answers):
    """The record kinds, calls and refusals of each entry that no answer has. A draft over the large limits would be too long to be one of the cases."""
    records = {tuple(int(word, 16) for word in line.split()) for line in answers.splitlines() if re.match(r"[0-9A-F]{2} ", line)}
    kinds = {record[0] for record in records}
    calls, listed = ({record[3] for record in records if record[0] == kind} for kind in (39, 0))
    refusals_of_drafts = [*range(2, 16), 19, 21]
    wanted = [("kind", kinds, range(1, 43)), ("call", calls, range(1, 15)), ("listing with refusal", listed, [1, *refusals_of_drafts])]
    for entry in ("function", "file"):
        refusals = {int(number) for number in re.findall(rf"^{entry} refused (\d+)", answers, re.M)}
        wanted.append((f"{entry} with refusal", refusals, refusals_of_drafts))
    return [f"{name} {number}" for name, found, numbers in wanted for number in numbers if number not in found]


def differing(cases, answers):
    """The cases whose answer is not what the papers say; and those where the records of one function are not those of its file behind the first."""
    each = re.split(r"^(?=function )", answers, flags=re.M)[1:]
    wrong = [f"{part} is not answered with {text!r}" for part, answer, said in zip(cases.parts, each, cases.said, strict=True) for text in said
             if "\n" + text not in "\n" + answer]
    return wrong + [f"{part} is not the same at both entries" for part, answer in zip(cases.parts, each) if "NOT" in answer]


def main():
    parser = argparse.ArgumentParser(description=__doc__, formatter_class=argparse.RawDescriptionHelpFormatter)
    parser.add_argument("--check", action="store_true")
    parser.add_argument("--partner", metavar="PATH")
    options = parser.parse_args()
    cases = all_cases()
    files = {"stdin": b"".join(cases.parts)}
    bad = []
    if options.partner:
        files["stdout"] = subprocess.run([options.partner, "--cases"], input=files["stdin"], check=True, capture_output=True).stdout
        answers = files["stdout"].decode()
        bad += [f"no case has {name}" for name in missing(answers)] + differing(cases, answers)
    for name, content in files.items():
        path = ROOT / "crates/reader_cases" / name
        if not options.check:
            path.write_bytes(content)
        elif path.read_bytes() != content:
            bad.append(f"crates/reader_cases/{name} is not what tools/reader_cases.py writes")
    print(*bad, f"{len(cases.parts)} cases", sep="\n")
    sys.exit(bool(bad))


if __name__ == "__main__":
    main()
