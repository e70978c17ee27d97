"""Cases of whole files, for tools/reader_cases.py: what document 02, order 3, says of them."""
import itertools, re

from draft_cases import LINE, OVER, body, encoded
from record_trees import WORDS, lines

# Items with what the papers give for them: the text, the number of tokens, and the records, places counted from the item's start. The way up of an item
# itself depends on what stands before it.
LEAST = "fn f(){}", 6, ((1, 0, 8, 0, 0, 3, 0), (2, 3, 4, 0, 0, 1, 1), (18, 6, 8, 0, 0, 1, 2))
PUBLIC = "pub fn g(a:A)->B{a}", 13, ((1, 0, 19, 3, 1, 8, 0), (2, 7, 8, 0, 0, 1, 1), (3, 9, 12, 0, 0, 3, 2), (2, 9, 10, 0, 0, 1, 1),
                                    (4, 11, 12, 0, 0, 1, 2), (4, 15, 16, 0, 0, 1, 5), (18, 16, 19, 1, 0, 2, 6), (29, 17, 18, 0, 0, 1, 1))
EXAMPLE = body("match b{true=>1,false=>2,}"), 18, ((1, 0, 34, 0, 0, 9, 0), (2, 3, 4, 0, 0, 1, 1), (18, 6, 34, 1, 0, 7, 2), (35, 7, 33, 0, 0, 6, 1),
                                                   (29, 13, 14, 0, 0, 1, 1), (37, 23, 32, 5, 0, 2, 2), (24, 30, 31, 0, 0, 1, 1),
                                                   (37, 15, 23, 6, 0, 2, 4), (24, 21, 22, 0, 0, 1, 1))
PAIR = "type P=(u1,[bool;3]);", 13, ((42, 0, 21, 0, 0, 6, 0), (2, 5, 6, 0, 0, 1, 1), (10, 7, 20, 0, 0, 4, 2), (7, 8, 10, 1, 0, 1, 1),
                                     (11, 11, 19, 3, 0, 2, 2), (6, 12, 16, 0, 0, 1, 1))


def type_item(name):
    """The item that gives the name to `u8`."""
    behind = len("type ") + len(name)
    return f"type {name}=u8;", 5, ((42, 0, behind + 4, 0, 0, 3, 0), (2, 5, behind, 0, 0, 1, 1), (7, behind + 1, behind + 3, 8, 0, 1, 2))


ITEMS = LEAST, type_item("A"), PUBLIC, PAIR, EXAMPLE


def filed(items, gaps):
    """A file of these items with gaps before, between and behind them, in turn: its bytes, the number of tokens, the records."""
    gap, draft, tokens, records = itertools.cycle(gaps), b"", 0, []
    for item, more, below in items:
        draft += encoded(next(gap))
        way = 1 + len(records)  # of the item: the program's record stands before those of the other items
        records += [[kind, len(draft) + start, len(draft) + end, *rest, up or way] for kind, start, end, *rest, up in below]
        draft, tokens = draft + encoded(item), tokens + more
    draft += encoded(next(gap))
    # "The top record is kind 41, a program, with place from 0 to the draft's length and the items as children."
    return draft, tokens, [[41, 0, len(draft), 0, 0, 1 + len(records), 0], *records]


def add_file(cases, items, gaps=("",), more=()):
    """A file of these items, accepted, with its whole listing."""
    draft, tokens, records = filed(items, gaps)
    cases.add(draft, said=[f"file accepted {tokens} {len(records)} owned zeros", lines(records).decode(), *more])


def add_entries(cases):
    """Order 3: "Read any number of functions and of `type` items", "an empty file is now accepted by this entry"; "the single-function entry
    answers as before"."""
    for draft in ("", " ", "\t\r\n", "// a", "/* a\n */ // b\r"):
        cases.add(draft, said=[f"function refused 8 {len(draft)} zeros\n", "file accepted 0 1 owned zeros\n",
                               f"listed {LINE} zeros\n29 0000 {len(draft):04X} 00000000 00000000 0001 0000\n"])
    for item in (LEAST, PUBLIC, EXAMPLE):
        for gaps in (("",), (" ",), ("", "//a\n/*b*/")):
            _, tokens, records = item
            add_file(cases, [item], gaps, [f"function accepted {tokens} {len(records)} owned zeros\n",
                                           f"file accepted {tokens} {len(records) + 1} owned zeros same\n"])
    for items in itertools.product(ITEMS, repeat=2):
        # One function ends before the second item, and a type does not begin one.
        place = len(items[0][0]) if items[0][2][0][0] == 1 else 0
        add_file(cases, items, more=[f"function refused 8 {place} zeros\n"])


def add_files(cases):
    """Order 3: files of 0 to 30 items, with and without gaps; a file of as many tokens as its buffer has words for, and of more."""
    for count in range(31):
        # Squares mix the five items.
        items = [ITEMS[(count + at * at) % len(ITEMS)] for at in range(count)]
        add_file(cases, items, (("",), ("\n", " ", "/*;*/", "//fn\n"))[count % 2])
    full = 406 * [type_item("A")] + 3 * [LEAST]
    for items, said in ((full, "accepted 2048 1228 owned zeros\n"), (full + [LEAST], "refused 6 4084 zeros\n")):
        cases.add(filed(items, ("",))[0], out=0, said=["file " + said])


def add_words_for_files(cases):
    """15 for a file, whose first record takes seven words more than its items do: tree buffers of none, and around both numbers. 6 goes first."""
    for items in ([], [LEAST], [type_item("A")], [type_item("A"), LEAST]):
        draft, tokens, records = filed(items, ("",))
        below, enough = WORDS * len(records) - WORDS, WORDS * len(records)
        for words in [0] * (below > 2) + [*range(max(below - 2, 0), enough + 2)]:
            file = f"accepted {tokens} {len(records)}" if words >= enough else "refused 15 0"
            function = f"accepted {tokens} {len(records) - 1}" if words >= below else "refused 15 0"
            # Only one of the four is one function.
            cases.add(draft, 3 * tokens, words, 0, said=["file " + file, "function " + (function if items == [LEAST] else "refused 8 0")])
        # One token too few; the last is a byte.
        for words in (3 * tokens - 3, 3 * tokens - 1) if items else ():
            cases.add(draft, words, 0, LINE, said=[f"file refused 6 {len(draft) - 1} zeros\n"])
    # The file with most records for its tokens: the words of its tree, and one fewer.
    most = "fn f(" + 510 * "a:b," + "){}"
    cases.add(most, 6138, 10738, 62894, said=["file accepted 2046 1534 owned zeros same\n", "listed 62894 zeros\n"])
    cases.add(most, 6138, 10737, 62893, said=["function accepted 2046 1533 owned zeros\n", "file refused 15 0 zeros\n", "listed 0 zeros\n"])


# "A type's own name may not be in `ALIAS_RESERVED`" (src/str.rs).
RESERVED = """Either Option bool List u128 u256 u16 u32 u64 u1 u2 u4 u8 Ctx8 Pubkey Message64 Message Signature Scalar Fe Gej Ge Point Height Time
    Distance Duration Lock Outpoint Confidential1 ExplicitAsset Asset1 ExplicitAmount Amount1 ExplicitNonce Nonce TokenAmount1""".split()


def near(word):
    """Words that are nearly this one: another case, a byte fewer at either end, a byte more, `_` before, behind and inside."""
    return [word.swapcase(), word[0].swapcase() + word[1:], word.upper(), word.lower(), word[:-1], word[1:], word + word[-1], word + "a", word + "1",
            "_" + word, word + "_", word[:1] + "_" + word[1:]]


def add_type_names(cases):
    """Order 3: every reserved name as a type's own, behind another item (cases.txt has each in a file of its own); names that are nearly one; all of
    them behind `=`. Words that a rule singles out are names."""
    for name in RESERVED:
        cases.add_refused(8, f"fn {name}(){{}}type ^{name}=A;", ["file"])
        words = dict.fromkeys(word for word in near(name) if word not in RESERVED)
        # A word without its first letter may be a number, which is no name.
        add_file(cases, [type_item(word) for word in words if not word[0].isdigit()])
        for word in filter(lambda word: word[0].isdigit(), words):
            cases.add_refused(8, f"type ^{word}=A;", ["file"])
    cases.add(f"type A=({','.join(RESERVED)});", said=["file accepted 79 41 owned zeros\n"])
    free = """Left Right Some None into unwrap unwrap_left unwrap_right is_none raw_hash fold array_fold for_while assert panic dbg list jet witness
        param main pubs typed fns matchs true_ False crates simc_ _ __ a"""
    add_file(cases, [type_item(name) for name in free.split()], ("\n",))
    add_file(cases, [type_item("A"), type_item("A"), LEAST, LEAST])


def add_wrong_files(cases):
    """Order 3: "8 now speaks of well-shaped files at the new entry": each piece of an item missing, doubled or another, among other items;
    cases.txt has such files of one item."""
    for text in ("^A=u8;", "type ^=u8;", "type A ^u8;", "type A=^;", "type ^;", "type A^;", "type A=u8;^;", "type A=u8^,", "type A=u8^=u8;",
                 "type A=u8^}", "type A^:u8;", "type A=^=u8;", "type A^=>u8;", "type A^::B=u8;", "type A=u8^::u8;", "type A^<B>=u8;",
                 "type A^(B)=u8;", "type A=^1;", "type A=^jet::a;", "type A=(u8^;", "type A=u8^);", "type A=Option<u8^,>;", "type A=[u8^];",
                 "type A=List<u8^>;", "type ^1=u8;", "type ^true=u8;", "type ^type A=u8;", "type ^fn f(){}", "type A=^fn f(){}",
                 "type A=u8 ^fn f(){}", "pub ^type A=u8;", "pub ^pub fn f(){}", "pub ^;", "fn f(){}^;", "fn f(){}^,", "fn f(){}^}", "fn f(){}^{}",
                 "fn ^fold(){}", "fn f(){^type A=u8;}", "fn f(){^fn g(){}}", "^let a:u8=1;", "^const a:u8=1;", "^crate", "^match", "^{}", "^1"):
        cases.add_refused(8, f"type B=(A,);fn g(){{}}/**/{text}\nfn h(){{}}", ["file"])
    # The end comes too soon: after each token but the last of an item.
    for item in ("type A=[u8;2];", "pub fn f(){}"):
        tokens = re.findall(r"\w+|[^\w ]", item)
        for count in range(1, len(tokens)):
            cases.add_refused(8, "fn f(){}" + " ".join(tokens[:count]) + "^", ["file"])


def add_faults_of_files(cases):
    """9 to 14 and 19 over all items, by earliest place; 8 before them and 15 behind."""
    faults = ((9, "type A=List<u8,^3>;"), (19, f"type A=[u8;^{OVER}];"), (19, f"type A=List<[u8;^{OVER}],3>;"), (9, "fn f()->List<u8,^1>{}"),
              (11, "fn f(){^match x{}}"), (14, "fn f(){^match x{None~1,true~2,}}"), (19, f"fn f(a:(u8,[u8;^{OVER}])){{}}"))
    for number, one in faults:
        for before in ("", "type B=[u8;0];fn g(){match x{false~1,true~2,}}"):
            cases.add_refused(number, before + one, ["file"])
            cases.add_refused(8, before + one.replace("^", "") + "^;", ["file"])
        for _, other in faults:
            cases.add_refused(number, one + other.replace("^", ""), ["file"])
        cases.add(one.replace("^", ""), tree=0, said=[f"file refused {number} "])


SECTIONS = add_entries, add_files, add_words_for_files, add_type_names, add_wrong_files, add_faults_of_files
