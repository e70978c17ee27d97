#!/usr/bin/env python3
"""Writes crates/load_cases/stdin and stdout: listings, each with the words of the buffer that is lent for it, and the answers that document 02, orders 1,
3, 7 and 9, asks for.

A listing is built here from a tree of records by the kinds table, or from such a listing by one change. Its answer is what the sentence says
under which the case stands; no program is asked for it.
A case: a line with the words of the buffer and the bytes of the listing, one space between; then the listing and a line end.
An answer: `refused`, the number, the line and `zeros`; or `records`, how many, `zeros`, `same` where the records written again are the listing or `wider`
where they are its lines with the way up added, and a line with the seven words of each.
--check: exit 1 if a file differs. --partner PATH: exit 1 if the partner's program answers a case otherwise. --list: how many cases each sentence has.
"""
import argparse, itertools, pathlib, subprocess, sys

import line_cases, long_cases
from listing_cases import BAD_LINE, FORMS, NO_ROOM, NOT_ONE_TREE, PAPER, PAPER_RECORDS, SHORT_PAPER, Cases
from record_trees import *

CRATE = pathlib.Path(__file__).resolve().parent.parent / "crates/load_cases"

def add_paper(cases):
    """Document 01's nine lines, with order 7's word and as they were: "lines in, the [..] records out, with the number of records", "zeros follow what is
    written"."""
    assert (lines(PAPER_RECORDS), short_lines(PAPER_RECORDS)) == (PAPER, SHORT_PAPER)
    for more in range(9):
        cases.loads(PAPER_RECORDS, more=more)


def add_functions(cases):
    """1 function: "low 1 for pub, plus 2 for a result type; high parameters. Name, parameters, type, block"; 3 parameter: "name, type"."""
    for low in range(4):
        for count in range(3):
            cases.loads(function(low=low, parameters=count * [PARAMETER], result=[TYPE] if low >= 2 else ()))
    cases.refuses(function(result=[TYPE]), function(low=1, result=[TYPE]), function(low=2), function(low=3), function(low=4))
    two = function(parameters=2 * [PARAMETER])
    cases.refuses(*(changed(two, 0, HIGH, count) for count in (0, 1, 3)), changed(function(), 0, HIGH, 1))
    for children in ((), (NAME,), (EMPTY,), (EMPTY, NAME), (NAME, NAME, EMPTY), (NAME, EMPTY, EMPTY), (NAME, VALUE), (VALUE, EMPTY)):
        cases.refuses(Node("function", *children))
    cases.refuses(Node("function", PARAMETER, NAME, EMPTY, high=1), Node("function", NAME, TYPE, PARAMETER, EMPTY, low=2, high=1))
    for children in ((), (NAME,), (TYPE, NAME), (NAME, TYPE, TYPE), (PATTERN, TYPE), (NAME, VALUE)):
        cases.refuses(function(parameters=[Node("parameter", *children)]))


def add_types(cases):
    """4 to 12, types: "builtin (low 0–23 in `BuiltinAlias` order)", "unsigned (`u1` to `u256`, powers of two only; low bits)"; lists "may be empty"."""
    cases.loads(*(result(Node(kind)) for kind in PLAIN_TYPES))
    for kind, lows in (("builtin", range(24)), ("unsigned", BITS)):
        cases.loads(function(parameters=[Node("parameter", NAME, Node(kind, low=low)) for low in lows]))
    cases.refuses(result(Node("builtin", low=24)), *(result(Node("unsigned", low=low)) for low in (0, 3, 255, 257, 512)))
    cases.refuses(result(Node("builtin", high=1)), result(Node("unsigned", low=1, high=1)))
    for kind, counts in (("either", [2]), ("option", [1]), ("tuple type", range(4)), ("array type", [1]), ("list type", [1])):
        fields = wide(2) if kind == "list type" else {}
        for count in range(4):
            cases.loads(*[result(Node(kind, *count * [TYPE], **fields))] * (count in counts))
            cases.refuses(*[result(Node(kind, *count * [TYPE], **fields))] * (count not in counts))
        cases.refuses(result(Node(kind, *(counts[-1] - 1) * [TYPE], VALUE, **fields)))
    cases.refuses(result(VALUE), result(PATTERN), result(NAME))


def add_numbers(cases):
    """Refusals 9 and 10: "bound not a power of two from 2 to 9,223,372,036,854,775,808"; "size 0"; of an array type's length, "0 is accepted"."""
    lengths = (0, 1, 3, 2 ** 32, LARGEST)
    cases.loads(*(result(Node("array type", TYPE, **wide(n))) for n in lengths))
    for n in (2, 4, 2 ** 31, 2 ** 32, 2 ** 63):
        cases.loads(result(Node("list type", TYPE, **wide(n))), call(FOLD, NAME, number(n)))
    for n in (0, 1, 3, 2 ** 32 + 1, 2 ** 32 + 2, 2 ** 63 + 1, LARGEST):
        cases.refuses(result(Node("list type", TYPE, **wide(n))), call(FOLD, NAME, number(n)))
    cases.loads(*(call(ARRAY_FOLD, NAME, number(n)) for n in lengths[1:]))
    cases.refuses(call(ARRAY_FOLD, NAME, number(0)))
    # A number stands in a fold only, once, behind the name.
    two = number(2)
    cases.refuses(value(two), function(two), call(CUSTOM, NAME, two), call(FOLD, two, NAME), call(FOLD, NAME, two, two))


def add_patterns(cases):
    """13 to 17, patterns and let: "patterns; brackets", "pattern, type, expression"."""
    cases.loads(*(pattern(Node(kind)) for kind in PLAIN_PATTERNS))
    for kind in ("tuple pattern", "array pattern"):
        cases.loads(*(pattern(Node(kind, *count * [PATTERN])) for count in range(3)), pattern(Node(kind, Node(kind, Node("_")))))
        cases.refuses(pattern(Node(kind, TYPE)), pattern(Node(kind, PATTERN, VALUE)), pattern(Node(kind, NAME)))
    for children in ((), (PATTERN, TYPE), (TYPE, PATTERN, VALUE), (PATTERN, VALUE), (PATTERN, TYPE, VALUE, VALUE), (NAME, TYPE, VALUE),
                     (PATTERN, TYPE, LET)):
        cases.refuses(function(Node("let", *children)))


def add_blocks(cases):
    """18 block: "low 1 with a last expression"; "elements, each ended by `;`. Only a last element that is an expression may go without"."""
    for elements in ((VALUE,), (LET, VALUE), (VALUE, VALUE), (EMPTY, Node("match", VALUE, arm(FALSE), arm(TRUE)))):
        cases.loads(function(*elements), function(*elements, last=1), function(*elements, LET))
        cases.refuses(function(*elements, last=2), function(*elements, LET, last=1))
    cases.loads(function(), function(LET), value(EMPTY), value(value(VALUE).children[1]))
    cases.refuses(function(last=1), function(LET, last=1), changed(value(VALUE), 2, HIGH, 1))
    cases.refuses(*(function(part) for part in (NAME, TYPE, PATTERN, PARAMETER, arm(NONE), enum_arm(), function())))


def add_values(cases):
    """19 to 33, expressions: "expression", "token", "boolean (low 0 or 1)", "expressions; brackets"; `(e)` is 30, "`(e,)` and `()` tuples"."""
    for kind in ("left", "right", "some", "parenthesised"):
        cases.loads(value(Node(kind, VALUE)))
        cases.refuses(value(Node(kind)), value(Node(kind, VALUE, VALUE)), value(Node(kind, LET)), value(Node(kind, TYPE)))
    for kind in ("tuple", "array", "list"):
        cases.loads(*(value(Node(kind, *count * [VALUE])) for count in range(3)))
        cases.refuses(value(Node(kind, TYPE)), value(Node(kind, VALUE, LET)))
    cases.loads(*(value(Node(kind)) for kind in PLAIN_VALUES), value(Node("boolean")), value(Node("boolean", low=1)))
    cases.refuses(value(Node("boolean", low=2)), value(Node("boolean", low=1, high=1)))


def add_leaves(cases):
    """A record that is a token has no children; "low and high are 0 unless named"."""
    made = [(result, kind) for kind in PLAIN_TYPES] + [(pattern, kind) for kind in PLAIN_PATTERNS] + [(value, kind) for kind in PLAIN_VALUES]
    for make, kind in made:
        cases.refuses(make(Node(kind, VALUE)), make(Node(kind, low=1)), make(Node(kind, high=1)))
    for fields in ({"low": 1}, {"high": 1}):
        cases.refuses(Node("function", Node("name", **fields), EMPTY), value(Node("tuple", **fields)))
        cases.refuses(function(Node("let", PATTERN, TYPE, VALUE, **fields)))
    cases.refuses(Node("function", Node("name", NAME), EMPTY), result(Node("builtin", TYPE)), value(Node("boolean", VALUE)),
                  call(FOLD, NAME, Node("number", VALUE, **wide(2))))


def add_enums(cases):
    """34 enum construction: "low names; names, arguments"; 38 enum arm: "low names, high pairs; names, patterns with types, expression"."""
    for names in (2, 3):
        cases.loads(*(value(Node("enum construction", *names * [NAME], *count * [VALUE], low=names)) for count in range(3)))
        cases.loads(*(value(Node("enum match", VALUE, enum_arm(names, pairs))) for pairs in range(3)))
    for low, children in ((0, ()), (1, (NAME,)), (1, (NAME, NAME)), (3, (NAME, NAME)), (2, (VALUE, NAME, NAME)), (2, (NAME, NAME, TYPE)),
                          (2, (NAME, VALUE, NAME))):
        cases.refuses(value(Node("enum construction", *children, low=low)))
    cases.loads(value(Node("enum match", VALUE, enum_arm(), enum_arm(3), enum_arm(2, 1))))
    cases.refuses(*(value(Node("enum match", VALUE, wrong)) for wrong in (enum_arm(1), enum_arm(0), arm(NONE), VALUE)))
    one, none = enum_arm(2, 1), enum_arm()
    for low, high, children in ((1, 1, one.children), (2, 0, one.children), (2, 2, one.children), (2, 1, none.children), (2, 0, none.children[:2]),
                                (2, 1, (NAME, NAME, PATTERN, VALUE)), (2, 1, (NAME, NAME, TYPE, PATTERN, VALUE)), (2, 0, (NAME, NAME, VALUE, VALUE))):
        cases.refuses(value(Node("enum match", VALUE, Node("enum arm", *children, low=low, high=high))))


def add_arms(cases):
    """35 match: "built-in arms as exchanged", and refusals 11 to 14: no arms, both sorts, one or over two, two that do not belong together."""
    for one in range(1, 7):
        for other in range(1, 7):
            tree = value(Node("match", VALUE, arm(one), arm(other)))
            (cases.loads if (one, other) in PAIRS else cases.refuses)(tree)
        cases.refuses(value(Node("match", VALUE, arm(one))))
    cases.refuses(*(value(Node("match", VALUE, *arms)) for arms in
                    ((), (arm(NONE), enum_arm()), (enum_arm(), enum_arm()), (arm(FALSE), arm(TRUE), arm(FALSE)), (arm(FALSE), arm(TRUE), VALUE))))
    cases.refuses(value(Node("match", arm(FALSE), arm(TRUE))), value(Node("match", arm(FALSE), VALUE, arm(TRUE))), value(Node("enum match", VALUE)),
                  value(Node("enum match", enum_arm())), value(Node("match", VALUE, arm(0), arm(1))), value(Node("match", VALUE, arm(7), arm(8))))
    # "low 1–6 [..]; pattern and type if any, expression": Left, Right and Some have them.
    for low, high in PAIRS:
        for head in ((PATTERN,), (TYPE,), (TYPE, PATTERN), (VALUE,), *[(PATTERN, TYPE)] * (low in (NONE, FALSE))):
            cases.refuses(value(Node("match", VALUE, arm(low, *head), arm(high))))
    cases.refuses(value(Node("match", VALUE, Node("built-in arm", low=FALSE), arm(TRUE))),
                  value(Node("match", VALUE, Node("built-in arm", VALUE, low=FALSE, high=1), arm(TRUE))),
                  value(Node("match", VALUE, arm(NONE), Node("built-in arm", VALUE, low=SOME))))


def add_calls(cases):
    """39 call: "low 1–14 in `CallName` order; type or name, kind 40, arguments"."""
    heads = {low: (NAME,) for low in (JET, CUSTOM, FOR_WHILE)}
    heads.update((low, (TYPE,)) for low in (UNWRAP_LEFT, UNWRAP_RIGHT, IS_NONE, CAST, RAW_HASH))
    heads.update((low, ()) for low in (UNWRAP, ASSERT, PANIC, DEBUG))
    heads.update((low, (NAME, number(2))) for low in (FOLD, ARRAY_FOLD))
    for low, head in sorted(heads.items()):
        cases.loads(*(call(low, *head, arguments=count) for count in range(3)))
        others = {(), (NAME,), (TYPE,), (NAME, TYPE), (NAME, NAME)} - {head}
        cases.refuses(*(call(low, *other) for other in sorted(others, key=lambda found: [part.kind for part in found])))
        cases.refuses(call(low, *head, LET), call(low, *head, VALUE, TYPE), call(low, *head, high=1), call(low, VALUE, *head, TYPE))
    cases.refuses(call(0), call(0, NAME), call(15), call(15, NAME), call(15, TYPE))


def add_tops(cases):
    """17: "a listing whose records form one function", or one program: no line, a refusal's line, two functions, another top, kinds that the table has not."""
    cases.refuse(NOT_ONE_TREE, 0, b"")
    cases.refuse(NOT_ONE_TREE, 0, b"00 000B 000B 00000008 00000000 0001 0000\n")
    cases.refuse(NOT_ONE_TREE, 0, b"00 000B 000B 00000008 00000000 0001\n")
    cases.refuses(function().records() + function().records(), function().records() + VALUE.records(), VALUE, EMPTY, function().records()[1:])
    # Kinds 41 and 42 have other children.
    for kind in (0, 41, 42, 43, 255):
        cases.refuses(changed(function(), 0, KIND, kind), changed(value(VALUE), 3, KIND, kind))
    for count in range(1, 9):
        cases.refuses(PAPER_RECORDS[:count])


def add_sizes(cases):
    """17: "sizes that add up": each record's is one too large, one too small, 0."""
    for at, record in enumerate(PAPER_RECORDS):
        cases.refuses(*(changed(PAPER_RECORDS, at, SIZE, size) for size in sorted({0, record[SIZE] - 1, record[SIZE] + 1})))
    cases.refuses(changed(PAPER_RECORDS, 0, SIZE, 0xFFFF), changed(PAPER_RECORDS, 8, SIZE, 0xFFFF))


def add_places(cases):
    """17: "start before end, each child's place inside its parent's"; of siblings nothing is asked."""
    for at in range(1, 9):
        parent = PAPER_RECORDS[at - PAPER_RECORDS[at][UP]]
        start, end = PAPER_RECORDS[at][START:LOW]
        cases.refuses(changed(PAPER_RECORDS, at, START, end), changed(PAPER_RECORDS, at, END, start), changed(PAPER_RECORDS, at, START, end + 1),
                      changed(PAPER_RECORDS, at, END, parent[END] + 1), *[changed(PAPER_RECORDS, at, START, parent[START] - 1)] * (parent[START] > 0))
        cases.loads(changed(changed(PAPER_RECORDS, at, START, parent[START]), at, END, parent[END]))
    cases.loads(changed(PAPER_RECORDS, 0, END, 0xFFFF), changed(PAPER_RECORDS, 0, START, 3))
    cases.refuses(changed(PAPER_RECORDS, 0, START, 4), changed(PAPER_RECORDS, 0, END, 33))


def add_programs(cases):
    """Order 3: "kind 41, a program, with [..] the items as children"; "any number of functions and of `type` items"."""
    for count in range(4):
        cases.loads(*(program(*items) for items in itertools.product((function(), NAMED), repeat=count)))
    cases.loads(program(*15 * [NAMED, function(VALUE)]), program(*30 * [NAMED]), program(function(low=3, parameters=[PARAMETER], result=[TYPE])),
                program(value(Node("match", VALUE, arm(FALSE), arm(TRUE))), NAMED))
    others = (NAME, PARAMETER, TYPE, Node("tuple type", TYPE, TYPE), PATTERN, LET, EMPTY, VALUE, arm(NONE), enum_arm(), number(2), program(),
              program(function()))
    for other in others:
        cases.refuses(program(other), program(function(), other), program(other, NAMED))
    # What is wrong inside an item is wrong in a file too.
    for wrong in (function(last=1), function(low=2), value(Node("match", VALUE, arm(TRUE), arm(FALSE))), result(Node("list type", TYPE, **wide(3)))):
        cases.refuses(program(wrong), program(NAMED, wrong, NAMED))
    cases.refuses(program(low=1), program(high=1), program(function(), low=1), program(NAMED, high=1))


def add_type_items(cases):
    """Order 3: "Kind 42 is a type item with a name and a type"; low and high are 0."""
    types = [*(Node(kind) for kind in PLAIN_TYPES), Node("builtin", low=23), Node("unsigned", low=256), Node("either", TYPE, TYPE), Node("option", TYPE),
             Node("tuple type"), Node("tuple type", TYPE, TYPE), Node("array type", TYPE), Node("array type", TYPE, **wide(LARGEST)),
             Node("list type", TYPE, **wide(2 ** 63))]
    cases.loads(*(program(Node("type item", NAME, found)) for found in types), program(*(Node("type item", NAME, found) for found in types)))
    for children in ((), (NAME,), (TYPE,), (TYPE, NAME), (NAME, NAME), (TYPE, TYPE), (NAME, TYPE, TYPE), (NAME, NAME, TYPE), (NAME, VALUE),
                     (NAME, PATTERN), (PATTERN, TYPE), (VALUE, TYPE), (NAME, PARAMETER), (NAME, EMPTY), (NAME, TYPE, EMPTY), (NAME, function()),
                     (NAME, NAMED), (NAME, program()), (NAMED,)):
        cases.refuses(program(Node("type item", *children)), program(function(), Node("type item", *children)))
    for fields in ({"low": 1}, {"high": 1}):
        cases.refuses(program(Node("type item", NAME, TYPE, **fields)))
    for wrong in (Node("unsigned", low=3), Node("builtin", low=24), Node("either", TYPE), Node("list type", TYPE, **wide(3)), Node("list type", TYPE)):
        cases.refuses(program(Node("type item", NAME, wrong)))


def add_nested_items(cases):
    """Order 3: "the top record is kind 41", "the items as children": a 41 is only ever first, and a 42 only directly below one."""
    cases.refuses(NAMED, Node("type item"), NAMED.records() + NAMED.records())
    for inner in (NAMED, program(), program(NAMED)):
        cases.refuses(function(inner), value(inner), result(inner), function(parameters=[inner]), Node("function", inner, EMPTY),
                      Node("function", NAME, inner), value(Node("tuple", inner)), pattern(inner), call(CUSTOM, NAME, inner), Node("function", inner))
        cases.refuses(program(function(inner)), program(value(inner), NAMED))


def add_program_places(cases):
    """Order 3: "a 41 starting at 0, empty or not"; its end is any that its items are before."""
    for end in (0, 1, 2, 0x4000, 0xFFFF):
        cases.loads(changed(program(), 0, END, end))
        cases.refuses(changed(changed(program(), 0, END, end), 0, START, 1), changed(changed(program(), 0, END, end), 0, START, 0xFFFF))
    for tree in (program(function()), program(NAMED), program(NAMED, function())):
        top, last = rows(tree)[0], max(record[END] for record in rows(tree)[1:])
        cases.loads(changed(tree, 0, END, last), changed(tree, 0, END, 0xFFFF))
        cases.refuses(changed(tree, 0, END, last - 1), changed(tree, 0, END, 0), changed(tree, 0, START, 1), changed(tree, 0, START, top[END]))
        # Its items are as any other record: not empty, and each child's place inside.
        start, end = rows(tree)[1][START:LOW]
        cases.refuses(changed(tree, 1, END, start), changed(tree, 1, START, end), changed(tree, 1, END, top[END] + 1), changed(tree, 1, START, start + 2))
        cases.loads(changed(tree, 1, START, 0), changed(tree, 1, END, top[END]), changed(changed(tree, 1, START, 0), 1, END, top[END]))
        cases.refuses(changed(tree, 2, END, rows(tree)[2][START]))


def add_program_sizes(cases):
    """Order 3: sizes in a file add up too, and the first record's is the number of lines; 16 before 17 before 18 as ever."""
    tree = program(NAMED, function(), NAMED)
    records = rows(tree)
    for at, record in enumerate(records):
        cases.refuses(*(changed(tree, at, SIZE, size) for size in sorted({0, record[SIZE] - 1, record[SIZE] + 1, 0xFFFF})))
    cases.refuses(changed(tree, 0, SIZE, 1), changed(program(), 0, SIZE, 0), changed(program(), 0, SIZE, 2), records[:-1], records[:-3], records[1:])
    # Two tops, one after the other; and a top of each sort.
    cases.refuses(rows(program()) + rows(program()), rows(program()) + rows(function()), rows(function()) + rows(program()), records + records,
                  rows(function()) + rows(NAMED), records + rows(NAMED))
    for found in (program(), tree):
        enough = WORDS * len(rows(found))
        cases.loads(found, more=0)
        cases.loads(found, more=6)
        for write, _ in FORMS:
            listing = write(rows(found))
            for words in (0, enough - len(rows(found)), enough - 1):
                cases.refuse(NO_ROOM, 0, listing, words)
            cases.refuse(BAD_LINE, len(rows(found)), listing[:-1], 0)
            cases.refuse(BAD_LINE, len(rows(found)) + 1, listing + b"\n", enough)
    cases.refuse(NOT_ONE_TREE, 0, lines(rows(program(VALUE))), 0)


def add_large(cases):
    """The same of many records: side by side, one inside the other, and both."""
    many, deep = function(*60 * [VALUE]), VALUE
    for _ in range(100):
        deep = Node("parenthesised", deep)
    # With more records than two digits count back.
    longest = function(*300 * [VALUE])
    cases.loads(longest, many, value(deep), function(*10 * [LET, Node("tuple", VALUE, Node("match", VALUE, arm(LEFT), arm(RIGHT)))]))
    for tree in (many, value(deep)):
        last = len(rows(tree)) - 1
        cases.refuses(changed(tree, last, SIZE, 2), changed(tree, last, KIND, KINDS.index("name") + 1), rows(tree)[:-1])
        cases.refuses_ways(changed(tree, last, UP, rows(tree)[last][UP] + 1))
        for write, _ in FORMS:
            cases.refuse(NO_ROOM, 0, write(rows(tree)), WORDS * (last + 1) - 1)
            cases.refuse(BAD_LINE, last + 1, write(rows(tree))[:-1])
    # The last word without its high digits.
    cases.refuses_ways(changed(longest, 302, UP, rows(longest)[302][UP] % 0x100))


SECTIONS = (add_paper, add_functions, add_types, add_numbers, add_patterns, add_blocks, add_values, add_leaves, add_enums, add_arms, add_calls, add_tops,
            add_sizes, add_places, *line_cases.SECTIONS, add_programs, add_type_items, add_nested_items, add_program_places, add_program_sizes, add_large,
            *long_cases.SECTIONS)


def all_cases():
    cases = Cases()
    for add in SECTIONS:
        cases.sentence = add.__doc__
        add(cases)
    return cases


def missing(cases):
    """The kinds and the calls of which no listing is taken."""
    taken = [[int(word) for word in line.split()] for answer in cases.answers if answer.startswith("records") for line in answer.splitlines()[1:]]
    kinds = {record[KIND] for record in taken}
    calls = {record[LOW] for record in taken if KINDS[record[KIND] - 1] == "call"}
    wanted = (("kind", kinds, len(KINDS)), ("call", calls, RAW_HASH))
    return [f"no listing has {name} {n}" for name, found, last in wanted for n in range(1, last + 1) if n not in found]


def differences(cases, partner):
    """The first line that the partner answers otherwise, if there is one."""
    found = subprocess.run([partner, "--listings"], input=b"".join(cases.asked), check=True, capture_output=True).stdout.decode()
    pairs = itertools.zip_longest("".join(cases.answers).splitlines(), found.splitlines())
    lines = ((at, here, there) for at, (here, there) in enumerate(pairs, 1) if here != there)
    return [f"line {at} of the answers is {here}, and the partner's {there}" for at, here, there in itertools.islice(lines, 1)]


def main():
    parser = argparse.ArgumentParser(description=__doc__, formatter_class=argparse.RawDescriptionHelpFormatter)
    parser.add_argument("--check", action="store_true")
    parser.add_argument("--list", action="store_true")
    parser.add_argument("--partner", metavar="PATH")
    options = parser.parse_args()
    cases = all_cases()
    bad = missing(cases) + (differences(cases, options.partner) if options.partner else [])
    for name, content in (("stdin", b"".join(cases.asked)), ("stdout", "".join(cases.answers).encode())):
        if not options.check:
            (CRATE / name).write_bytes(content)
        elif (CRATE / name).read_bytes() != content:
            bad.append(f"crates/load_cases/{name} is not what tools/load_cases.py writes")
    if options.list:
        print(*(f"{count:4} {sentence}" for sentence, count in cases.said.items()), sep="\n")
    print(*bad, f"{len(cases.asked)} cases", sep="\n")
    sys.exit(bool(bad))


if __name__ == "__main__":
    main()
