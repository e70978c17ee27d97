"""Cases of the way up, for tools/reader_cases.py: what document 02, order 7, says of it, above all under arms that are exchanged.

A draft is written from parts that know their records, so that its whole listing is known from the papers: no program is asked for it."""
import random

from record_trees import CUSTOM, FALSE, KINDS, LEFT, NONE, RIGHT, SIZE, SOME, TRUE, UP, lines


class Part:
    """A record as it is written: marks, and in their order the parts that are its children. Where `turned`, the last two of these are exchanged in the tree."""

    def __init__(self, kind, *pieces, low=0, high=0, turned=False):
        self.kind, self.pieces, self.low, self.high, self.turned = KINDS.index(kind) + 1, pieces, low, high, turned

    def read(self, start):
        """Its text, and its records in the order handed over, with the ways up of all but the first."""
        text, groups = "", []
        for piece in self.pieces:
            if isinstance(piece, str):
                text += piece
            else:
                more, records = piece.read(start + len(text))
                text += more
                groups.append(records)
        if self.turned:
            groups[-2:] = reversed(groups[-2:])
        tree = [[self.kind, start, start + len(text), self.low, self.high, 1, 0]]
        for group in groups:
            group[0][UP] = len(tree)  # the parent is the first
            tree += group
        tree[0][SIZE] = len(tree)
        return text, tree


def variable():
    return Part("variable", "x")


def block(*elements):
    """Elements that are each ended by `;`, but for the last."""
    marks = [piece for element in elements for piece in (element, ";")][:-1]
    return Part("block", "{", *marks, "}", low=1 if elements else 0)


def named_type():
    return Part("unsigned", "u1", low=1)


# The words of the six arms, by low.
HEADS = {LEFT: "Left", RIGHT: "Right", NONE: "None", SOME: "Some", FALSE: "false", TRUE: "true"}


def arm(low, expression):
    binds = low in (LEFT, RIGHT, SOME)
    head = ("(", Part("identifier pattern", "a"), ":", named_type(), ")") if binds else ()
    return Part("built-in arm", HEADS[low], *head, "=>", expression, ",", low=low)


def matched(low, subject, one, other, turned):
    """A match whose arms have `low` and the low behind it, the first with `one`; they are written the other way round if `turned`."""
    arms = arm(low, one), arm(low + 1, other)
    return Part("match", "match ", subject, "{", *(reversed(arms) if turned else arms), "}", turned=turned)


def enum_arm(*children):
    return Part("enum arm", Part("name", "A"), "::", Part("name", "B"), "=>", *children, ",", low=2)


def add(cases, *expressions):
    """A file of the function `f` with these expressions in its block: the numbers and the whole listing. The same as one function."""
    function = Part("function", "fn ", Part("name", "f"), "()", block(*expressions))
    text, tree = function.read(0)
    tree[0][UP] = 1
    listing = lines([[41, 0, len(text), 0, 0, 1 + len(tree), 0], *tree]).decode()
    cases.add(text, said=[f"listed {len(listing)} zeros\n{listing}", "function accepted ", "file accepted "])


def around(low, inner, turned):
    """Expressions that hold one: the three places of a match, and others that have children before it."""
    yield matched(low, inner, variable(), block(), turned)
    yield matched(low, variable(), inner, Part("tuple", "()"), turned)
    yield matched(low, variable(), variable(), inner, turned)
    yield Part("tuple", "(", variable(), ",", inner, ",)")
    # Which of these it is shows only behind the inner one: a wrapper, or a call that has its name before it.
    yield Part("left", "Left(", inner, ")")
    yield Part("call", Part("name", "Left"), "(", inner, ",)", low=CUSTOM)
    yield Part("call", Part("name", "g"), "(", variable(), ",", inner, ")", low=CUSTOM)
    yield block(variable(), inner)
    yield Part("enum match", "match ", variable(), "{", enum_arm(variable()), enum_arm(inner), "}")


def add_nested(cases):
    """Order 7: "how many records back its parent begins", "right also under arms that were exchanged": a match in each part of a match and of other
    expressions, both written either way round; then a third around them."""
    many = Part("array", "[", *[piece for _ in range(4) for piece in (variable(), ",")], "]")
    for low in (LEFT, NONE, FALSE):
        for inner_turned in (False, True):
            for turned in (False, True):
                inner = matched(FALSE, variable(), many, variable(), inner_turned)
                for outer in around(low, inner, turned):
                    add(cases, outer)
    for turned in range(8):
        for place in range(9):
            inner = matched(SOME - 1, variable(), many, Part("tuple", "()"), bool(turned & 1))
            middle = list(around(LEFT, inner, bool(turned & 2)))[place]
            # In one of the three parts of the outer match.
            outer = list(around(FALSE, middle, bool(turned & 4)))[(turned + place) % 3]
            add(cases, outer, variable(), middle)


def add_deep(cases):
    """Matches in the first arm of matches, up to the limit of brackets, all of them exchanged or every second; and as many in the second arm."""
    for first in (True, False):
        for every in (1, 2):
            found = variable()
            for depth in range(47):
                arms = (found, variable()) if first else (variable(), found)
                found = matched(FALSE, variable(), *arms, depth % every == 0)
            add(cases, found)


def grown(rng, depth):
    """A random expression."""
    if depth == 0 or rng.random() < 0.2:
        return variable()
    inner = grown(rng, depth - 1)
    if rng.random() < 0.6:
        low = rng.choice((LEFT, NONE, FALSE))
        return matched(low, grown(rng, 0), *rng.sample((inner, grown(rng, depth - 1)), 2), rng.random() < 0.7)
    return rng.choice(list(around(rng.choice((LEFT, NONE, FALSE)), inner, rng.random() < 0.7)))


def add_grown(cases):
    """Order 7 for random expressions, most of them matches in matches that are exchanged."""
    rng = random.Random(7)
    for _ in range(40):
        add(cases, *(grown(rng, 5) for _ in range(rng.randrange(1, 4))))


SECTIONS = add_nested, add_deep, add_grown
