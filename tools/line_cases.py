"""Cases of lines, of the way up and of buffers, for tools/load_cases.py: what document 02, orders 1, 7 and 9, says of them."""
import itertools

from listing_cases import BAD_LINE, FORMS, LONG, NO_ROOM, NOT_ONE_TREE, PAPER, PAPER_RECORDS, SHORT_PAPER
from record_trees import *

THREE = function().records()  # the smallest function: itself, its name, its block


def add_lines(cases):
    """16: "when a line is not of the stated [..] form", which "covers all three line forms"; "the first bad line, counted from 1". It goes before digits that
    four would do for, which all of these listings have in the form of six."""
    for write, length in (*FORMS, LONG):
        first, second, third = write(THREE).splitlines(keepends=True)
        # Another digit, another mark; a byte too few or too many; another line end; no line at all.
        wrong = [second.lower().replace(b"0", b"a", 1), b" " + second[1:], b"0x" + second[2:], *(bytes([byte]) + second[1:] for byte in b"+/:@G`g\0\xb2")]
        wrong += [second.replace(b" ", mark, 1) for mark in (b"", b"  ", b"\t", b"0", b"_")]
        wrong += [second[:-1] + end for end in (b"", b" ", b"\r\n", b"\r", b"\n\n", b" 00000\n", b"0\n")]
        wrong += [second[:-2] + b"\r\n", second[:-2] + b"\n", b"\0" + second, b"\n", b"fn f(){}\n"]
        for line in wrong:
            behind = line.startswith(second)  # the line itself is whole then
            cases.refuse(BAD_LINE, 3 if behind else 2, first + line + third)
            cases.refuse(BAD_LINE, 2 if behind else 1, line + second)
        whole = write(THREE)
        for cut in range(1, len(whole)):
            if cut % length and (cut < 4 or cut % length in (1, 2, 3, 34, 35, 36, 37, 39, 40, 41, 42, 46, 47, 48)):
                cases.refuse(BAD_LINE, cut // length + 1, whole[:cut])
        cases.refuse(BAD_LINE, 4, whole + b"\n")
        cases.refuse(BAD_LINE, 4, whole + length * b"\0")
        for at in range(len(whole)):
            cases.refuse(BAD_LINE, at // length + 1, whole[:at] + b"x" + whole[at + 1:])
        # The first of two.
        cases.refuse(BAD_LINE, 2, first + second.replace(b" ", b"x") + third.replace(b" ", b"x"))


def add_forms(cases):
    """16: "a line of another form than the first": it decides, and every other must have its form."""
    longer, shorter = PAPER.splitlines(keepends=True), SHORT_PAPER.splitlines(keepends=True)
    longest = long_lines(PAPER_RECORDS).splitlines(keepends=True)
    for one, other in itertools.permutations((longer, shorter, longest), 2):
        # The first line is of the other form, and so the second is bad; then one other line, and all lines from there on.
        cases.refuse(BAD_LINE, 2, other[0] + b"".join(one[1:]))
        cases.refuse(BAD_LINE, 2, one[0] + other[0])
        for at in range(1, 9):
            cases.refuse(BAD_LINE, at + 1, b"".join(one[:at] + other[at:at + 1] + one[at + 1:]))
            cases.refuse(BAD_LINE, at + 1, b"".join(one[:at] + other[at:]))
        # The first is of no form, the others are of one.
        start = one[0][:-1]
        for line in (start, start[:-1] + b"\n", start + b"0\n", start + b" \n", start + b"\r\n", one[0].replace(b"0009", b"000a"), b"\n"):
            cases.refuse(BAD_LINE, 1, line + b"".join(one[1:]))
            cases.refuse(BAD_LINE, 1, line + b"".join(other[1:]))
    # The last line is cut at each byte.
    for one in (longer, shorter, longest):
        for cut in range(1, len(one[8])):
            cases.refuse(BAD_LINE, 9, b"".join(one[:8]) + one[8][:cut])
    # Four digits on a line of their own: the line before them is one of the shorter form.
    cases.refuse(BAD_LINE, 2, shorter[0] + b"0000\n" + b"".join(longer[1:]))
    # An empty listing has no bad line; 16 goes before a wrong parent word.
    cases.refuse(NOT_ONE_TREE, 0, b"")
    cases.refuse(BAD_LINE, 9, longer[0].replace(b"0000\n", b"0001\n") + b"".join(longer[1:8]) + shorter[8])


def add_bytes_of_the_word(cases):
    """16: the space before the way up, its four digits and LF, each another byte: in the first line it is of no form then, and in another it is bad."""
    three = lines(THREE).splitlines(keepends=True)
    for column, at in itertools.product(range(SHORT_LINE - 1, LINE), range(3)):
        line = three[at]
        for byte in sorted(set(b"\0\t\n\r /:@Gagf\xb0") - {line[column]}):
            # A first line that ends in the place of that space is one of the shorter form.
            shortened = (at, column, byte) == (0, SHORT_LINE - 1, ord("\n"))
            wrong = line[:column] + bytes([byte]) + line[column + 1:]
            cases.refuse(BAD_LINE, 2 if shortened else at + 1, b"".join(three[:at]) + wrong + b"".join(three[at + 1:]))


def wrong_ways(records, at):
    """Parent words that a record must not have: 0, one less, one more, of its parent's parent, of the first record, and two that are larger than any here."""
    right = records[at][UP]
    above = right + records[at - right][UP]
    return sorted({0, right - 1, right + 1, above, at, right + 0x100, 0xFFFF} - {right, -1})


def nested():
    """Trees with matches in each part of a match, whose arms have many records or few."""
    small = Node("match", VALUE, arm(FALSE), arm(TRUE))
    large = Node("match", Node("tuple", VALUE, VALUE), arm(LEFT), Node("built-in arm", PATTERN, TYPE, Node("list", *5 * [VALUE]), low=RIGHT))
    for inner, (low, high) in ((small, PAIRS[0]), (large, PAIRS[1]), (large, PAIRS[2])):
        due = (PATTERN, TYPE) if low == LEFT else ()
        above = (PATTERN, TYPE) if high in (RIGHT, SOME) else ()
        yield value(Node("match", inner, arm(low), arm(high)))
        yield value(Node("match", VALUE, Node("built-in arm", *due, inner, low=low), arm(high)))
        yield value(Node("match", VALUE, arm(low), Node("built-in arm", *above, inner, low=high)))
    yield function(small, Node("enum match", small, enum_arm(2, 1), Node("enum arm", NAME, NAME, small, low=2)), LET)


# `match b{true=>match c{Some(d:u1)=>e,None=>f,},false=>{}}` in braces after the head, as document 01 and order 7 have its records: both pairs of arms were
# written the other way round.
EXCHANGED = [[1, 0, 64, 0, 0, 16, 0], [2, 3, 4, 0, 0, 1, 1], [18, 6, 64, 1, 0, 14, 2], [35, 7, 63, 0, 0, 13, 1], [29, 13, 14, 0, 0, 1, 1],
             [37, 53, 62, 5, 0, 2, 2], [18, 60, 62, 0, 0, 1, 1], [37, 15, 53, 6, 0, 9, 4], [35, 21, 52, 0, 0, 8, 1], [29, 27, 28, 0, 0, 1, 1],
             [37, 43, 51, 3, 0, 2, 2], [29, 49, 50, 0, 0, 1, 1], [37, 29, 43, 4, 0, 4, 4], [13, 34, 35, 0, 0, 1, 1], [7, 36, 38, 1, 0, 1, 2],
             [29, 41, 42, 0, 0, 1, 3]]


def as_written(records, match):
    """The records with the ways of a match's two arms as they would be in the other order."""
    first = match + 1 + records[match + 1][SIZE]
    second = first + records[first][SIZE]
    before = records[first][UP]
    return changed(changed(records, first, UP, before + records[second][SIZE]), second, UP, before)


def add_ways(cases):
    """Order 7: "how many records back its parent begins, 0 for the top"; "17 also covers a wrong parent word"; "right also under arms that were exchanged"."""
    for records in (PAPER_RECORDS, EXCHANGED, program(NAMED, function(VALUE), NAMED).records(), program().records()):
        cases.loads(records)
        for at in range(len(records)):
            cases.refuses_ways(*(changed(records, at, UP, way) for way in wrong_ways(records, at)))
    for tree in nested():
        cases.loads(tree)
        records = rows(tree)
        for at, record in enumerate(records):
            if record[KIND] == KINDS.index("match") + 1:
                cases.refuses_ways(as_written(records, at))
    cases.refuses_ways(as_written(as_written(EXCHANGED, 3), 8), as_written(EXCHANGED, 3), as_written(EXCHANGED, 8), as_written(PAPER_RECORDS, 3))
    # All words 0, all 1; each record's the number of the record or of its parent.
    for records in (PAPER_RECORDS, EXCHANGED):
        for ways in ([0] * 16, [0] + [1] * 15, range(16), [at - record[UP] for at, record in enumerate(records)]):
            cases.refuses_ways([[*record[:UP], way] for record, way in zip(records, ways)])


def add_moved_functions(cases):
    """Order 7: "0 for the top": a function's word is 1 or more below a program, and 0 where it stands alone; "of 36-byte lines [..] the word being worked
    out" in either place."""
    one = function(VALUE).records()
    below = program(function(VALUE)).records()
    # Out of the file, and into one, with the word that it had: only lines without that word may be moved so.
    cases.refuses_ways(below[1:], [below[0], *one])
    cases.loads([[*below[1][:UP], 0], *below[2:]], [below[0], [*one[0][:UP], 1], *one[1:]])
    # Of 17's reasons only the word is wrong, and 18 goes behind it.
    for words in (0, WORDS * len(one) - 1):
        cases.refuse(NOT_ONE_TREE, 0, lines(below[1:]), words)


def add_rooms(cases):
    """18: "when the record buffer is too short", which asks "seven words a record" in both forms; "they are tested in this order": 16 before 17 before 18."""
    for write, length in FORMS:
        paper, three = write(PAPER_RECORDS), write(THREE)
        for words in (0, 1, 53, 54, 55, 56, 62):
            cases.refuse(NO_ROOM, 0, paper, words)
        for words in (17, 18, 19, 20):
            cases.refuse(NO_ROOM, 0, three, words)
        for words in (0, 1, 20):
            cases.refuse(NOT_ONE_TREE, 0, paper[length:], words)
            cases.refuse(BAD_LINE, 9, paper[:-1], words)
            cases.refuse(BAD_LINE, 3, 2 * write(VALUE.records()) + b"\n", words)
    for words in (0, 1, 20):
        cases.refuse(NOT_ONE_TREE, 0, b"", words)
    for more in (0, 1, 6, 7):
        cases.loads(THREE, PAPER_RECORDS, more=more)


SECTIONS = add_lines, add_forms, add_bytes_of_the_word, add_ways, add_moved_functions, add_rooms
