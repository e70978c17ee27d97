"""Trees of records by document 01's kinds table and the two kinds of document 02, order 3, and their lines, with the way up of order 7, without it, and in the
six digits of order 9: what tools/load_cases.py builds its listings from."""

WORDS = 7  # of a record
WIDTHS = 2, 4, 4, 8, 8, 4, 4  # digits of its line
LONG_WIDTHS = 2, 6, 6, 8, 8, 6, 6  # and of one in a listing where four do not hold a start, an end, a size or a way up
LEAST_LONG = 0x10000  # the first number that four digits do not hold
KIND, START, END, LOW, HIGH, SIZE, UP = range(WORDS)
# Bytes of a line in the three forms, a space or LF behind each word.
LINE, SHORT_LINE, LONG_LINE = sum(WIDTHS) + WORDS, sum(WIDTHS[:UP]) + UP, sum(LONG_WIDTHS) + WORDS
# The kinds from 1, in the order of the table, those of a file behind them; then those that are one token, with low and high 0.
KINDS = ("function", "name", "parameter", "alias", "builtin", "bool", "unsigned", "either", "option", "tuple type", "array type", "list type",
         "identifier pattern", "_", "tuple pattern", "array pattern", "let", "block", "left", "right", "some", "none", "boolean", "decimal",
         "hexadecimal", "binary", "witness", "parameter value", "variable", "parenthesised", "tuple", "array", "list", "enum construction", "match",
         "enum match", "built-in arm", "enum arm", "call", "number", "program", "type item")
PLAIN_TYPES, PLAIN_PATTERNS = ("alias", "bool"), ("identifier pattern", "_")
PLAIN_VALUES = ("none", "decimal", "hexadecimal", "binary", "witness", "parameter value", "variable")
BITS = [2 ** i for i in range(9)]  # u1 to u256
LEFT, RIGHT, NONE, SOME, FALSE, TRUE = range(1, 7)
PAIRS = (LEFT, RIGHT), (NONE, SOME), (FALSE, TRUE)
# The calls from 1, in the order of `CallName`.
(JET, UNWRAP_LEFT, UNWRAP_RIGHT, UNWRAP, IS_NONE, ASSERT, PANIC, DEBUG, CAST, CUSTOM, FOLD, ARRAY_FOLD, FOR_WHILE, RAW_HASH) = range(1, 15)
LARGEST = 2 ** 64 - 1


class Node:
    """A record with its children."""

    def __init__(self, kind, *children, low=0, high=0):
        self.kind, self.children, self.low, self.high = KINDS.index(kind) + 1, children, low, high

    def records(self, start=0):
        """Its records from a place on: the place has a byte before and one behind those of the children, which follow one another."""
        below, end = [], start + 1
        for child in self.children:
            inner = child.records(end)
            inner[0][UP] = 1 + len(below)  # over the records of the children before it
            below, end = below + inner, inner[0][END]
        return [[self.kind, start, end + 1, self.low, self.high, 1 + len(below), 0], *below]


def wide(number):
    """A 64-bit number in two halves."""
    return {"low": number % 2 ** 32, "high": number // 2 ** 32}


NAME, TYPE, PATTERN, VALUE = Node("name"), Node("alias"), Node("identifier pattern"), Node("variable")
PARAMETER, LET, EMPTY = Node("parameter", NAME, TYPE), Node("let", PATTERN, TYPE, Node("decimal")), Node("block")


def function(*elements, last=0, low=0, parameters=(), result=()):
    """A function with these elements in its block."""
    return Node("function", NAME, *parameters, *result, Node("block", *elements, low=last), low=low, high=len(parameters))


NAMED = Node("type item", NAME, TYPE)


def program(*items, **fields):
    return Node("program", *items, **fields)


def result(kind):
    return function(low=2, result=[kind])


def value(expression):
    return function(expression, last=1)


def pattern(found):
    return function(Node("let", found, TYPE, VALUE))


def arm(low, *head):
    """A built-in arm; the head is a pattern and a type where one is due and none is given."""
    due = (PATTERN, TYPE) if low in (LEFT, RIGHT, SOME) else ()
    return Node("built-in arm", *(head or due), VALUE, low=low)


def enum_arm(names=2, pairs=0):
    return Node("enum arm", *names * [NAME], *pairs * [PATTERN, TYPE], VALUE, low=names, high=pairs)


def call(low, *children, arguments=1, **fields):
    return value(Node("call", *children, *arguments * [VALUE], low=low, **fields))


def number(n):
    return Node("number", **wide(n))


def rows(found):
    """The records of a tree, or those that are given."""
    return found.records() if isinstance(found, Node) else found


def changed(found, at, field, to):
    """The records with one word of one of them replaced."""
    copy = [list(record) for record in rows(found)]
    copy[at][field] = to
    return copy


def lines(records, widths=WIDTHS):
    """Document 01, "The listing program": upper-case hexadecimal digits, one space between, LF after; and document 02, order 7."""
    return "".join(" ".join(f"{word:0{width}X}" for word, width in zip(record, widths)) + "\n" for record in records).encode()


def long_lines(records):
    """Order 9: "writes all four in six digits, 49 bytes a line"."""
    return lines(records, LONG_WIDTHS)


def short_lines(records):
    """The lines as they were before the way up."""
    return lines(record[:UP] for record in records)
