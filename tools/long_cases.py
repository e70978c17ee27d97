"""Cases of listings in six digits, for tools/load_cases.py: what document 02, order 9, says of them.

A few records need six digits where an end is over 65,535: a program's may be any that its items are before, and a function may stand anywhere."""
import itertools

from listing_cases import BAD_LINE, NO_ROOM, NOT_ONE_TREE, PAPER_RECORDS
from record_trees import *

LARGEST_PLACE = 0xFFFFFF
PLACED = START, END, SIZE, UP  # the words that are counted in four digits or six
FILE = program(NAMED, function(VALUE), NAMED)


def moved(found, by):
    """The records with all places so many bytes further on."""
    return [[kind, start + by, end + by, *rest] for kind, start, end, *rest in rows(found)]


def far(found, end=LEAST_LONG):
    """The records with another end of the first."""
    return changed(found, 0, END, end)


def add_long(cases):
    """Order 9: "A listing in which any start, end, size or way up needs more than four digits writes all four in six digits, 49 bytes a line", which is
    "restored byte for byte"."""
    for more in (0, 1, 6, 7):
        cases.loads_long(far(PAPER_RECORDS), far(FILE), far(program()), more=more)
    for end in (LEAST_LONG, LEAST_LONG + 1, 0x100000, LARGEST_PLACE - 1, LARGEST_PLACE):
        cases.loads_long(far(PAPER_RECORDS, end), far(FILE, end), far(program(), end))
    # A function that begins, and one that ends, on both sides of the border; the last place that six digits hold.
    last = rows(function())[0][END]
    for start in (LEAST_LONG - last, LEAST_LONG - 1, LEAST_LONG, LEAST_LONG + 1, LARGEST_PLACE - last):
        cases.loads_long(moved(function(), start))
    # Every number of eight digits stays; each kind of the table is taken.
    trees = [result(Node("array type", TYPE, **wide(LARGEST))), result(Node("list type", TYPE, **wide(2 ** 63))), call(ARRAY_FOLD, NAME, number(LARGEST)),
             result(Node("either", Node("option", TYPE), Node("tuple type"))), pattern(Node("tuple pattern", PATTERN)), call(JET, NAME), call(CAST, TYPE),
             function(low=3, parameters=2 * [PARAMETER], result=[TYPE]), value(Node("match", VALUE, arm(LEFT), arm(RIGHT))), FILE,
             value(Node("enum match", VALUE, enum_arm(2, 1), enum_arm(3))), value(Node("enum construction", NAME, NAME, VALUE, low=2)),
             *(value(Node(kind)) for kind in PLAIN_VALUES), value(Node("some", Node("list", VALUE, EMPTY)))]
    cases.loads_long(*map(far, trees))


def add_needless(cases):
    """16 covers, "once every line is in form, a 49-byte listing that four digits would hold, at line 1"."""
    for found in (PAPER_RECORDS, FILE, program(), function(), value(Node("match", VALUE, arm(NONE), arm(SOME)))):
        # Its lines in four digits are taken, and with the end one more its lines in six.
        cases.refuses_needless(found, far(found, LEAST_LONG - 1))
        cases.loads(far(found, LEAST_LONG - 1))
        cases.loads_long(far(found))
    last = rows(function())[0][END]
    cases.refuses_needless(moved(function(), LEAST_LONG - 1 - last))
    cases.loads_long(moved(function(), LEAST_LONG - last))
    # Before 17, whatever the records are: each of the four words of each line at the last number of four digits, and at the first of six.
    for at, word in itertools.product(range(len(PAPER_RECORDS)), PLACED):
        cases.refuses_needless(changed(PAPER_RECORDS, at, word, LEAST_LONG - 1))
        cases.refuses_long(*[changed(PAPER_RECORDS, at, word, LEAST_LONG)] * ((at, word) != (0, END)))
    # The other three words do not count.
    for word, to in ((KIND, 0xFF), (LOW, LEAST_LONG), (LOW, 2 ** 32 - 1), (HIGH, LEAST_LONG), (HIGH, 2 ** 32 - 1)):
        cases.refuses_needless(*(changed(PAPER_RECORDS, at, word, to) for at in (0, 4, 8)))
    cases.refuses_needless(result(Node("array type", TYPE, **wide(LARGEST))))
    # A refusal's line, with a place of four digits or of six.
    for place in (0, 0x4000, LEAST_LONG - 1):
        cases.refuses_needless([[0, place, place, 1, 0, 1, 0]])
    for place in (LEAST_LONG, 0x100000, LARGEST_PLACE):
        cases.refuses_long([[0, place, place, 1, 0, 1, 0]])


def add_needless_and_bad(cases):
    """The same: "once every line is in form". A bad line goes before digits that four would do for, and it need not be the first."""
    for found in (PAPER_RECORDS, FILE):
        for records in (rows(found), far(found)):
            each, other = long_lines(records).splitlines(keepends=True), lines(rows(found)).splitlines(keepends=True)
            for at in range(1, len(each)):
                for wrong in (other[at], each[at].lower().replace(b"0", b"a", 1), each[at][:-1] + b"\r\n", b"\n", each[at][1:]):
                    cases.refuse(BAD_LINE, at + 1, b"".join(each[:at]) + wrong + b"".join(each[at + 1:]))
            for behind in (b"\n", b"0", each[0][:-1], other[0], LONG_LINE * b"\0"):
                cases.refuse(BAD_LINE, len(each) + 1, b"".join(each) + behind)
    # Two digits in front of one field of a line in four, or taken off one in six: it is of no form.
    for line, widths, to in ((lines(PAPER_RECORDS[:1]), WIDTHS, 2), (long_lines(far(PAPER_RECORDS)[:1]), LONG_WIDTHS, -2)):
        fields = line[:-1].split(b" ")
        for at in PLACED:
            field = b"00" + fields[at] if to > 0 else fields[at][-to:]
            wrong = b" ".join([*fields[:at], field, *fields[at + 1:]]) + b"\n"
            cases.refuse(BAD_LINE, 1, wrong)
            cases.refuse(BAD_LINE, 2, line + wrong)


def add_long_trees(cases):
    """17 and 18 of listings in six digits: sizes, places, ways up and kinds as in four, and a buffer that is too short, tested in this order."""
    for found in (PAPER_RECORDS, FILE):
        records = far(found)
        for at, record in enumerate(records):
            cases.refuses_long(*(changed(records, at, SIZE, size) for size in sorted({0, record[SIZE] + 1, record[SIZE] + LEAST_LONG, LARGEST_PLACE})))
            cases.refuses_long(*(changed(records, at, UP, up) for up in sorted({record[UP] + 1, record[UP] + LEAST_LONG, LARGEST_PLACE})))
            if at > 0:
                cases.refuses_long(changed(records, at, START, record[END]), changed(records, at, START, record[START] + LEAST_LONG),
                                   changed(records, at, END, records[0][END] + 1), changed(records, at, UP, 0))
        enough = WORDS * len(records)
        for words in (0, 1, enough - len(records), enough - 1):
            cases.refuse(NO_ROOM, 0, long_lines(records), words)
            cases.refuse(NOT_ONE_TREE, 0, long_lines(records[:-1]), words)
            cases.refuse(BAD_LINE, len(records), long_lines(records)[:-1], words)
    # A child's end is that of its parent, or one over it; a program begins at 0 also here.
    top = far(FILE)
    cases.loads_long(changed(top, 1, END, LEAST_LONG))
    cases.refuses_long(changed(top, 1, END, LEAST_LONG + 1), changed(top, 0, START, 1), changed(top, 0, START, LEAST_LONG))
    # Without the way up a line has no six digits: five numbers and one of six digits more are of no form.
    cases.refuse(BAD_LINE, 1, b"".join(line[:-len("000000") - 1] + b"\n" for line in long_lines(far(PAPER_RECORDS)).splitlines()))


SECTIONS = add_long, add_needless, add_needless_and_bad, add_long_trees
