"""What the definitions say of records, in words for tools/kinds.py: the numbers and names of kinds, calls, built-in arms and built-in types, and of each form
of a kind what low and high hold, its children, the marks that it owns, and how a draft has it.

The kinds table is `all_forms` (kinds/specs/Rules.antt). A form's shape is walked in order: once for its children, once for its marks, once for the draft. What
no definition says, such as the plain name of a family, stands here under the set that it is said of; a set that is not known ends the script.
"""
import math
import os
import re
from itertools import groupby

from antt_terms import Values

ROOT = os.path.dirname(os.path.dirname(os.path.abspath(__file__)))
SOURCES = [("lexer/specs/Classes", "t"), ("lexer/specs/ClassTexts", "text"), ("words/specs/Words", "words"), ("own/specs/Kinds", "kind"),
           ("own/specs/Calls", "call"), ("own/specs/Arms", "arm"), ("kinds/specs/Families", "family"), ("kinds/specs/Shape", None),
           ("kinds/specs/Fields", None), ("kinds/specs/Rules", None)]
values = Values([(os.path.join(ROOT, "crates", name + ".antt"), short) for name, short in SOURCES])


def numbered(source, *left_out):
    """The names of a file of numbers, from 1 on, in their order."""
    names = [name for name in values.sources[source] if isinstance(values.value(name), int) and name not in left_out]
    if [values.value(name) for name in names] != list(range(1, 1 + len(names))):
        raise SystemExit(f"{source}: the numbers are not 1, 2, ..")
    return [name.partition(".")[2] for name in names]


KINDS, CALLS, ARMS = numbered("Kinds", "kind.Last"), numbered("Calls"), numbered("Arms")
ALIASES, FORMS, PARTNERS = values.value("words.BUILTIN_ALIASES"), values.value("all_forms"), values.value("arm.partners")
KIND = {name: 1 + i for i, name in enumerate(KINDS)}
TEXTS = {sample["class"]: sample["text"] for sample in values.value("text.samples")}
for list_of_words, classes in (("words.BUILTIN_ALIASES", "t.builtin_types"), ("words.UINT_TYPES", "t.unsigned_types")):
    if values.value(list_of_words) != [TEXTS[c] for c in values.value(classes)]:
        raise SystemExit(f"{list_of_words} and {classes} have other words")


def forms_of(kind):
    return [form for form in FORMS if form["kind"] == KIND[kind]]


# ---------------------------------------------------------------------------------------------- names
def spoken(name):
    """The name of a kind: its words in lower case, but for those that the language has."""
    words = [w if w in ("Left", "Right", "Some", "None", "Either", "Option") else w.lower() for w in re.findall("[A-Z][a-z]*", name)]
    return " ".join(words).replace("builtin arm", "built-in arm")


def call_word(number):
    """The word of a call by which a draft tells it; a jet and a function have names of their own."""
    form = next(form for form in forms_of("Call") if form["fields"] == ("low", number))
    words = [TEXTS[c] for (c,) in marks(form["shape"]) if re.match("[A-Za-z]", TEXTS[c])]
    return words[0] if words else "jet" if CALLS[number - 1] == "Jet" else "function"


def arm_word(number):
    form = next(form for form in forms_of("BuiltinArm") if form["fields"] == ("low", number))
    return TEXTS[next(iter(marks(form["shape"])))[0]]


# ---------------------------------------------------------------------------------------------- low and high
LOWS = {"Function": "1 for `pub`, plus 2 for a result type", "Builtin": "which type", "Unsigned": "how many bits",
        "Block": "1 where an expression without `;` ends it", "Boolean": "0 is `false`, 1 `true`", "BuiltinArm": "which arm", "Call": "which call"}


def either_of(words):
    return " or ".join(filter(None, [", ".join(words[:-1]), words[-1]]))


def runs(numbers, shown=str):
    """The numbers in words; three or more that follow one another as `1 to 3`."""
    out = []
    for _, run in groupby(enumerate(numbers), key=lambda pair: pair[1] - pair[0]):
        run = [shown(n) for _, n in run]
        out += run if len(run) < 3 else [f"{run[0]} to {run[-1]}"]
    return out


def fields(kind):
    """What low holds, and what high."""
    [asked] = {form["fields"][0] for form in forms_of(kind)}
    held = {"plain": ("0", "0"), "names": ("how many names", "0"), "pairs": ("how many names", "how many patterns"),
            "wide": ("the number: its lower 32 bits", "its upper 32 bits"), "bounded": ("the bound: its lower 32 bits", "its upper 32 bits")}
    if asked in held:
        return held[asked]
    lows = [n for form in forms_of(kind) for n in (form["fields"][1] if asked == "among" else [form["fields"][1]])]
    return f"{either_of(runs(dict.fromkeys(lows)))}: {LOWS[kind]}", "how many parameters" if asked == "parameters" else "0"


# ---------------------------------------------------------------------------------------------- children: in order, each (least, most, kinds)
FAMILIES = {word: frozenset(values.value(f"family.{family}")) for family, word in
            (("types", "type"), ("patterns", "pattern"), ("blocks", "block"), ("singles", "expression that is no block"), ("expressions", "expression"),
             ("elements", "element"), ("arms", "arm"), ("items", "item"))}
WORDS = {kinds: word for word, kinds in FAMILIES.items()}
WORDS |= {frozenset([KIND[kind]]): word for kind, word in
          (("Name", "name"), ("Parameter", "parameter"), ("BuiltinArm", "built-in arm"), ("EnumArm", "enum arm"), ("Number", "number"))}
COUNTS = {1: "one", 2: "two"}


def child(part):
    kinds = {"of": part[1:], "name": [[KIND["Name"]]], "arm": [[KIND["BuiltinArm"]]]}.get(part[0], [[KIND["Number"]]])
    return frozenset(kinds[0])


def behind(a, b):
    """Children behind others: where the same go on, they are counted together."""
    if a is None or b is None or not b:
        return None if b is None else a
    (least, most, what), rest = b[0], b[1:]
    if isinstance(what, tuple) and a[len(a) - len(what):] == what:
        return a[:-len(what)] + ((1 + least, 1 + most, what),) + rest
    if a and a[-1][2] == what:
        return a[:-1] + ((a[-1][0] + least, a[-1][1] + most, what),) + rest
    return a + b


def either(a, b):
    """The one children or the other: as many, each of the kinds of both; or some of the longer are missing in the other."""
    if a is None or b is None:
        return b if a is None else a
    a, b = sorted((a, b), key=len)
    if len(a) == len(b):
        return tuple((min(x[0], y[0]), max(x[1], y[1]), x[2] if x[2] == y[2] else x[2] | y[2]) for x, y in zip(a, b))
    out, left = (), list(a)
    for least, most, what in b:
        here = left and left[0][2] == what
        out += ((min(least, left[0][0]), max(most, left.pop(0)[1]), what) if here else (0, most, what),)
    if left:
        raise SystemExit(f"two forms have children that no list has both: {a}, {b}")
    return out


def children(shape):
    """The children of a shape; None where there is no such shape."""
    if shape[0] == "part":
        return ((1, 1, child(shape[1])),)
    if shape[0] == "◌▸◌":
        return behind(children(shape[1]), children(shape[2]))
    if shape[0] == "◌¦◌":
        return either(children(shape[1]), children(shape[2]))
    if shape[0] == "many":
        found = children(shape[1])
        return ((0, math.inf, found if len(found) > 1 else found[0][2]),) if found else ()
    return None if shape[0] == "never" else ()


def amount(least, most, one, several):
    if least == most:
        return one if least == 1 else f"{COUNTS[least]} {several}"
    return f"any number of {several}" if least == 0 else f"{COUNTS[least]} or more {several}"


def children_said(forms):
    found = children(forms[0]["shape"])
    for form in forms[1:]:
        found = either(found, children(form["shape"]))
    out = []
    for optional, group in groupby(found, key=lambda c: c[:2] == (0, 1)):
        if optional:
            out.append(" and ".join(WORDS[what] for _, _, what in group) + " if any")
            continue
        for least, most, what in group:
            one = [WORDS[w[2]] for w in what] if isinstance(what, tuple) else [WORDS[what]]
            out.append(", each with its ".join([amount(least, most, one[0], one[0] + "s")] + one[1:]))
    return ", ".join(out) or "none"


# ---------------------------------------------------------------------------------------------- marks: classes -> (least, most), in order
def marks(shape):
    """The tokens that a shape owns; several classes stand for one token of any of them."""
    if shape[0] == "mark":
        return {tuple(shape[1]): (1, 1)}
    if shape[0] == "◌▸◌":
        a, b = marks(shape[1]), marks(shape[2])
        return {c: tuple(map(sum, zip(a.get(c, (0, 0)), b.get(c, (0, 0))))) for c in a | b}
    if shape[0] == "◌¦◌":
        return marks(shape[1]) if shape[2][0] == "never" else marks_of_either(marks(shape[1]), marks(shape[2]))
    return {c: (0, math.inf) for c in marks(shape[1])} if shape[0] == "many" else {}


def marks_of_either(a, b):
    """Of the one or the other. Two that begin with another word each, as built-in arms do, begin with one of both."""
    first, other = next(iter(a), None), next(iter(b), None)
    if first and other and first not in b and other not in a:
        return {first + other: (1, 1)} | marks_of_either({c: n for c, n in a.items() if c != first}, {c: n for c, n in b.items() if c != other})
    pairs = {c: (a.get(c, (0, 0)), b.get(c, (0, 0))) for c in a | b}
    return {c: (min(x[0], y[0]), max(x[1], y[1])) for c, (x, y) in pairs.items()}


# What tokens of one class are where they have many texts, and of a set of classes that has a name.
VARIED = {"Ident": "a name", "DecLiteral": "a decimal number", "HexLiteral": "a hexadecimal number such as `0x2A`",
          "BinLiteral": "a binary number such as `0b101`", "Jet": "a jet such as `jet::add_32`", "Witness": "a witness such as `witness::W`",
          "Param": "a parameter such as `param::P`"}
SAID = {frozenset([values.value(f"t.{name}")]): text for name, text in VARIED.items()}
NAMES = frozenset(values.value("t.identifiers"))
SAID |= {NAMES: "a name", NAMES | {values.value("t.Jet")}: "a name, or a jet such as `jet::add_32`",
         frozenset(values.value("t.builtin_types")): "the name of a built-in type",
         NAMES - set(values.value("t.type_names")): "a name but those of kinds 5 to 7", NAMES - {values.value("t.None")}: "a name but `None`"}
# Of the two patterns that are one name, `_` is a kind of its own; a class does not tell it from other names.
PATTERNS = {"IdentifierPattern": "a name but `_`", "IgnorePattern": "`_`"}


def mark_said(classes):
    if frozenset(classes) in SAID:
        return SAID[frozenset(classes)]
    varied = [c for c in classes if frozenset([c]) in SAID]
    if varied or len(classes) > 9:
        raise SystemExit(f"no words for tokens of the classes {classes}")
    return ("one of " if len(classes) > 1 else "") + " ".join(f"`{TEXTS[c]}`" for c in classes)


def marks_said(forms):
    found = marks(forms[0]["shape"])
    for form in forms[1:]:
        found = marks_of_either(found, marks(form["shape"]))
    if KINDS[forms[0]["kind"] - 1] in PATTERNS:
        return PATTERNS[KINDS[forms[0]["kind"] - 1]]
    out = [mark_said(c) for c in found if len(c) > 1]
    order = [(1, 1), (1, math.inf), (0, 1), (0, math.inf)]
    if not set(found.values()) <= set(order):
        raise SystemExit(f"no words for so many marks: {found}")
    for count in order:
        text = " ".join(mark_said(c) for c, n in found.items() if n == count and len(c) == 1)
        if text:
            out.append(f"{text} if written" if count == (0, 1) else amount(*count, text, text))
    return ", ".join(out) or "none"


# ---------------------------------------------------------------------------------------------- as a draft has it
def begins_list(shape):
    """Whether a shape is one of at least one item with commas: `some` of Rules.antt."""
    return shape[0] == "◌▸◌" and shape[2][0] == "◌▸◌" and shape[2][1][0] == "many" and begins_with_mark(shape[2][1][1])


def begins_with_mark(shape):
    return shape[0] == "mark" or shape[0] == "◌▸◌" and begins_with_mark(shape[1])


def part_drafted(part):
    """A child in a draft: a letter for a name or a family, `..` for an arm."""
    if part[0] == "name" and len(part[1]) == 1:
        return TEXTS[part[1][0]]
    if part[0] == "name":
        return next((text for name, text in (("wrappers", "Left"), ("t.alias_names", "A"), ("t.identifiers", "x")) if part[1] == values.value(name)), "f")
    word = WORDS.get(child(part))
    return {"type": "T", "pattern": "p", "block": "{ .. }", "number": "n", "built-in arm": "..", "enum arm": ".."}.get(word, "e")


def words_of(shape):
    """The words of a shape in a draft, with `..` for what comes any number of times."""
    if shape == values.value("path"):
        return ["E", "::", "A"]
    if begins_list(shape) or shape[0] == "many":
        return [".."]
    if shape[0] == "mark":
        return ["n" if shape[1] == [values.value("t.DecLiteral")] else TEXTS[shape[1][0]]]
    if shape[0] == "part":
        return [part_drafted(shape[1])]
    if shape[0] == "◌▸◌":
        return words_of(shape[1]) + words_of(shape[2])
    if shape[0] == "◌¦◌":
        one = shape[1] if shape[2][0] == "never" else shape[2]
        return [] if one[0] == "mark" else words_of(one)
    return []


def drafted(form):
    text = re.sub(r" ?(\.\.)(?: \.\.)+", r" \1", " ".join(words_of(form["shape"])))
    text = re.sub(r" (?=::|[()\[\]<>,;:])", "", text)
    return re.sub(r"(?<=[(\[<]) |(?<=::) ", "", text).replace("-> ", " -> ").replace("  ", " ")
