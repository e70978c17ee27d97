#!/usr/bin/env python3
"""Writes the automaton of a record's children: crates/load/specs/Children/Table.antt, and the same for the code, crates/load/src/table.rt.

    tools/children.py            write the files
    tools/children.py --check    write nothing; exit 1 if a file is not what would be written

The kinds table is read from the specs (Rules and Groups of crate kinds) by tools/antt_terms.py. Its forms without their marks are shapes; what is left
of a tidy shape after a child is a shape again, and there are few of them. Shapes that the same children lead to an end are one state.
Nothing here needs trust: antt computes on the result that it is right (proofs/Children/Automaton.antt, Begins.antt).
"""
import os
import sys

sys.path.insert(0, os.path.dirname(os.path.abspath(__file__)))
from antt_terms import Values  # noqa: E402

ROOT = os.path.join(os.path.dirname(os.path.abspath(__file__)), "..", "crates")
SOURCES = [("lexer/specs/Classes", "t"), ("own/specs/Kinds", "kind"), ("own/specs/Calls", "call"), ("own/specs/Arms", "arm"), ("kinds/specs/Families", "family"),
           ("kinds/specs/Shape", None), ("kinds/specs/Fields", None), ("kinds/specs/Rules", None), ("kinds/specs/Groups", None)]
SPEC = os.path.join(ROOT, "load", "specs", "Children", "Table.antt")
CODE = os.path.join(ROOT, "load", "src", "table.rt")
NOTHING, NEVER = ("nothing",), ("never",)
# As in specs/Children/Begin.antt: what is asked of low and high, from 1 on; the bits of the unsigned types; how many entries a kind has before the states.
ASKED = ["low", "parameters", "wide", "bounded", "names", "pairs", "bits"]
BITS = [2 ** i for i in range(9)]
HEAD_COLUMNS = 3


# ---------------------------------------------------------------------------------------------- shapes: Bare, Tidy and Derive of the specs
def bare(a):
    if a[0] == "mark":
        return NOTHING
    if a[0] == "part":
        return ("part", ("of", [NAME]) if a[1][0] == "name" else a[1])
    return (a[0],) + tuple(map(bare, a[1:]))


def frozen(a):
    return tuple(map(frozen, a)) if isinstance(a, (tuple, list)) else a


def chain(a, b):
    if a == NOTHING:
        return b
    if a == NEVER:
        return NEVER
    if a[0] == "◌▸◌":
        return chain(a[1], chain(a[2], b))
    return a if b == NOTHING else NEVER if b == NEVER else ("◌▸◌", a, b)


def within(x, b):
    return x == b[1] or within(x, b[2]) if b[0] == "◌¦◌" else x == b


def choice(a, b):
    if a == NEVER:
        return b
    if a[0] == "◌¦◌":
        return choice(a[1], choice(a[2], b))
    return a if b == NEVER else b if within(a, b) else ("◌¦◌", a, b)


def tidy(a):
    if a[0] == "◌▸◌":
        return chain(tidy(a[1]), tidy(a[2]))
    if a[0] == "◌¦◌":
        return choice(tidy(a[1]), tidy(a[2]))
    return ("many", tidy(a[1])) if a[0] == "many" else a


def blank(a):
    if a[0] == "◌▸◌":
        return blank(a[1]) and blank(a[2])
    if a[0] == "◌¦◌":
        return blank(a[1]) or blank(a[2])
    return a[0] in ("nothing", "many")


def fits(p, kind, low):
    if p[0] == "of":
        return kind in p[1]
    if p[0] == "arm":
        return kind == ARM and low == p[1]
    return kind == NUMBER and (low >= 2 and low & (low - 1) == 0 if p[0] == "bound" else low > 0)


def after(child, a):
    if a[0] == "part":
        return NOTHING if fits(a[1], *child) else NEVER
    if a[0] == "◌▸◌":
        first = after(child, a[1])
        rest = after(child, a[2]) if blank(a[1]) else NEVER
        return rest if first == NEVER else ("◌¦◌", ("◌▸◌", first, a[2]), rest)
    if a[0] == "◌¦◌":
        first = after(child, a[1])
        return after(child, a[2]) if first == NEVER else ("◌¦◌", first, after(child, a[2]))
    if a[0] == "many":
        first = after(child, a[1])
        return NEVER if first == NEVER else ("◌▸◌", first, a)
    return NEVER


# ---------------------------------------------------------------------------------------------- the table
values = Values([(os.path.join(ROOT, name + ".antt"), short) for name, short in SOURCES])
FORMS, CATEGORIES, PARTNERS = values.value("all_forms"), values.value("categories"), values.value("arm.partners")
NAME, ARM, NUMBER, MATCH, LAST = (values.value("kind." + n) for n in ("Name", "BuiltinArm", "Number", "Match", "Last"))
ARMS = 1 + max(max(p) for p in PARTNERS)
# A child for each cue, kind and low: any other; one of each category; an arm by its low; a number from 1 on that is a bound, and one that is none.
CUES = [(0, 0)] + [(g[0], 0) for g in CATEGORIES] + [(ARM, low) for low in range(1, ARMS)] + [(NUMBER, 2), (NUMBER, 1)]


def laid(form):
    """A form as a listing shows it: of two built-in arms only the canonical order."""
    if form["kind"] != MATCH:
        return bare(form["shape"])
    in_turn = NEVER
    for a, b in reversed(PARTNERS):
        in_turn = ("◌¦◌", ("◌▸◌", ("part", ("arm", a)), ("part", ("arm", b))), in_turn)
    return ("◌▸◌", values.value("expression"), in_turn)


def explored(starts):
    """All shapes, each with how it is reached; and for each the number of the shape after each cue."""
    shapes, reached, steps = [NEVER], ["dead"], []
    for i, a in enumerate(starts):
        if a not in shapes:
            shapes.append(a)
            reached.append(f"(form {i})")
    for a in shapes:
        row = []
        for c, child in enumerate(CUES):
            b = tidy(after(child, a))
            if b not in shapes:
                shapes.append(b)
                reached.append(f"(by {shapes.index(a)} {c})")
            row.append(shapes.index(b))
        steps.append(row)
    return shapes, reached, steps


def merged(shapes, steps):
    """The state of each shape: shapes from which the same children lead to an end are one, the dead one is 0."""
    states = [int(blank(a)) for a in shapes]
    while True:
        seen = {}
        found = [seen.setdefault((states[i],) + tuple(states[j] for j in row), len(seen)) for i, row in enumerate(steps)]
        if found == states:
            return states
        states = found


begins = [frozen(tidy(frozen(laid(f)))) for f in FORMS]
SHAPES, REACHED, STEPS = explored(begins)
STATES = merged(SHAPES, STEPS)
COUNT = 1 + max(STATES)
# A row a state: the next state by cue, and then 1 where a record may end.
ROWS = [None] * COUNT
for shape, state, row in zip(SHAPES, STATES, STEPS):
    ROWS[state] = [STATES[j] for j in row] + [int(blank(shape))]


def asked_by(fields):
    """What a form asks of low and high: `asked` of Begin.antt."""
    name = fields[0]
    if name == "among" and fields[1] == BITS:
        return "bits"
    return "low" if name in ("plain", "among") else name


def lows_for(fields):
    """The lows that a form names; 0 stands for all where it names none: `lows_for` of Begin.antt."""
    if fields[0] in ("low", "parameters"):
        return [fields[1]]
    return fields[1] if fields[0] == "among" and asked_by(fields) == "low" else [0]


def states_by_low(kind, forms):
    """The state that each low of a kind begins in; one that no form has, below the greatest, begins in the dead one."""
    found = {}
    for fields, state in forms:
        for low in lows_for(fields):
            if found.setdefault(low, state) != state:
                raise SystemExit(f"kind {kind}, low {low}: two states")
    return [found.get(low, 0) for low in range(1 + max(found))]


def heads():
    """For each kind what is asked of low and high, where its states stand, and how many lows are looked up; then the states."""
    rows, states = [], []
    for kind in range(1 + LAST):
        forms = [(f["fields"], STATES[SHAPES.index(a)]) for f, a in zip(FORMS, begins) if f["kind"] == kind]
        if not forms:
            rows.append([0] * HEAD_COLUMNS)
            continue
        [asked] = {asked_by(fields) for fields, _ in forms}
        own = states_by_low(kind, forms)
        rows.append([1 + ASKED.index(asked), HEAD_COLUMNS * (1 + LAST) + len(states), len(own)])
        states += own
    return [x for row in rows for x in row] + states


HEADS = heads()
KIND_CUES = [next((i + 1 for i, g in enumerate(CATEGORIES) if kind in g), 0) for kind in range(1 + LAST)]


# ---------------------------------------------------------------------------------------------- the files
def spec():
    def entries(name, kind, what, xs, width):
        lines = [" ∷ ".join(map(str, xs[i:i + width])) for i in range(0, len(xs), width)]
        return f"-- {what}\nunfoldable pub {name} : List {kind}\n{name} =\n    " + "\n    ∷ ".join(lines) + "\n    ∷ []\n"

    flat = [x for row in ROWS for x in row]
    return "\n".join([
        "-- Made by tools/children.py: the automaton of a record's children, and the states that it begins in. proofs/Children/Automaton.antt and Begins.antt compute that\n"
        "-- both are right.\n-- Assumes nothing.\nuse Rattle.std.specs.Prelude.{List, [], ◌∷◌, ℕ}\n",
        "-- How a shape is reached: the dead one; the form of this number; what is left of that shape after a child of that cue.\n"
        "pub data Reach : Type 0 where\n  dead : Reach\n  form : ℕ → Reach\n  by : ℕ → ℕ → Reach\n",
        f"-- How many states there are.\nabbrev pub state_count : ℕ\nstate_count = {COUNT}\n",
        entries("reaches", "Reach", "The shapes,", REACHED, 10),
        entries("states", "ℕ", "the state of each,", STATES, 20),
        entries("steps", "ℕ", "and a row a state: the next state by cue, and then 1 where a record may end.", flat, len(CUES) + 1),
        f"-- How many entries the table of heads has.\nabbrev pub head_count : ℕ\nhead_count = {len(HEADS)}\n",
        entries("heads", "ℕ", "Three entries a kind: what is asked of low and high, where its states stand, how many lows are looked up; then the states.", HEADS, 24),
        entries("kind_cues", "ℕ", "The cue of each kind.", KIND_CUES, 24),
        entries("cue_kinds", "ℕ", "Kind and low of a child of each cue.", [k for k, _ in CUES], 24),
        entries("cue_lows", "ℕ", "", [low for _, low in CUES], 24).removeprefix("-- \n"),
    ])


def code():
    def string(xs):
        return "".join(f"\\x{x:02x}" for x in xs)

    def state(row):
        return f'    State {{\n        next: *b"{string(row[:-1])}",\n        ends: {"true" if row[-1] else "false"},\n    }},\n'

    def head(kind):
        asked, first, lows = HEADS[HEAD_COLUMNS * kind:HEAD_COLUMNS * (kind + 1)]
        if not asked:
            return "    None,\n"
        begins = string(HEADS[first:first + lows])
        return f'    Some(Head {{\n        asked: Asked::{ASKED[asked - 1].capitalize()},\n        begins: b"{begins}",\n    }}),\n'

    return ("// The automaton of a record's children, and the states that it begins in, by kind. Made by tools/children.py from the kinds table; the proofs\n"
            "// compute that both are right (proofs/Children).\nuse crate::begin::{Asked, Head};\nuse crate::walk::State;\n\n"
            f"// How many states there are.\npub(crate) const STATE_COUNT: usize = {COUNT};\n\n"
            "pub(crate) static STATES: [State; STATE_COUNT] = [\n" + "".join(map(state, ROWS)) + "];\n"
            + "\n// How many rows there are, one for each number up to the last kind; and for each what it asks of low and high, and the states that the children\n// begin in, by low.\n"
            f"pub(crate) const KINDS: usize = {1 + LAST};\n\npub(crate) static HEADS: [Option<Head>; KINDS] = [\n" + "".join(map(head, range(1 + LAST))) + "];\n")


def main():
    stale = []
    for path, text in ((SPEC, spec()), (CODE, code())):
        if "--check" in sys.argv[1:]:
            if not os.path.exists(path) or open(path).read() != text:
                stale.append(os.path.relpath(path, os.path.join(ROOT, "..")))
        else:
            open(path, "w").write(text)
    if stale:
        raise SystemExit(f"not what tools/children.py writes: {', '.join(stale)}")


if __name__ == "__main__":
    main()
