#!/usr/bin/env python3
"""Writes which alternative the class of the next token leads to: the tables of crates/parse/src/choice.rt (the part between its two marks),
the same as lists for the proofs (crates/parse/proofs/choice/Tables.antt), and a name for each alternative (there, and specs/Choice.antt).

    tools/choice.py            write the files
    tools/choice.py --check    write nothing; exit 1 if a file is not what would be written

Nothing here needs trust: the crate's proofs compute over every class that a table says what grammar's table says (proofs/choice/Checks.antt).
"""
import os
import re
import sys

import grammar as tables

ROOT = os.path.join(os.path.dirname(os.path.abspath(__file__)), "..", "crates", "parse")
BEGIN, END = "// Written by tools/choice.py, to the second mark.\n", "// The second mark: what follows is written by hand.\n"
HEADS = ["FalseHead", "TrueHead", "NoneHead", "WrappedHead", "NamedHead"]  # the alternatives of `head`, in Shapes.antt
A_LINE = 16  # entries of a table on one line


class Choice:
    """One table: its name in the code and in the proofs, what it is about, its alternatives from 1 on by name, and its entries up to the names of types."""

    def __init__(self, code, proof, what, alternatives, entries, type_names):
        self.code, self.proof, self.what, self.alternatives, self.entries = code, proof, what, alternatives, entries[:type_names]
        if len(set(entries[type_names:])) != 1:
            raise SystemExit(f"{code}: the names of types lead to several alternatives")
        self.named = upper((["Absent"] + alternatives)[entries[type_names]])


def choices():
    grammar, shapes, table = tables.load()
    kinds = {grammar.value(n): n for n in grammar.sources["ShapeKind"]}
    classes = range(1 + max(v for v in map(grammar.value, grammar.sources["Classes"]) if isinstance(v, int)))

    def number(name):
        e = grammar.value(name)
        return table.means.index(("child", e) if isinstance(e, int) else e)

    def choose(name, c):
        A = number(name)
        return table.table[A].get(c, table.other[A])

    def shapes_of(name):
        return [kinds[k].removesuffix("Shape") for k in shapes["kinds"][grammar.value(name)]]

    def sort(c):
        return 2 if c in grammar.value("t.function_names") else 1 if c in grammar.value("t.identifiers") else 0

    if len(table.rules[number("head")]) != len(HEADS):
        raise SystemExit(f"an arm's head has {len(table.rules[number('head')])} alternatives: name each in HEADS")
    names = [
        ("TYPES", "type", "A type", shapes_of("type"), [choose("type", c) for c in classes]),
        ("PATTERNS", "pattern", "A pattern", shapes_of("pattern"), [choose("pattern", c) for c in classes]),
        ("SINGLES", "single", "An expression that is no block", shapes_of("single"), [choose("single", c) for c in classes]),
        ("NAMES", "name", "A name", ["ReservedName", "FunctionName"], [sort(c) for c in classes]),
        ("ALIASES", "alias", "A type item's name", [], [choose("alias_name", c) for c in classes]),
        ("HEADS", "head", "An arm's head, where an arm begins", HEADS, [choose("arm", c) and choose("head", c) for c in classes]),
    ]
    return len(classes), [Choice(*t, grammar.value("t.bool")) for t in names]


def upper(name):
    return re.sub(r"(?<=[a-z])(?=[A-Z])", "_", name).upper()


def lines(values):
    return [values[i:i + A_LINE] for i in range(0, len(values), A_LINE)]


def byte(n):
    return f"\\x{n:02x}" if n else "\\0"


def code(classes, all_choices):
    """The constants of choice.rt."""
    n = len(all_choices[0].entries)
    out = "// The classes are the numbers below this one.\nconst CLASSES: u32 = class::LAST + 1;\n\n"
    out += f"// Those from this one on are the names of types, which all lead to the same alternative; a table has an entry for each of the others.\nconst TYPE_NAMES: u32 = class::BOOL_TYPE;\n\n"
    out += "// The alternatives of the classes below those, and what all names of types lead to.\n"
    out += f"struct Choices {{\n    of: [u8; TYPE_NAMES as usize],\n    named: u32,\n}}\n\n"
    out += "// At a class that begins none of the alternatives.\npub(crate) const ABSENT: u32 = 0;\n\n"
    for t in all_choices:
        out += f"// {t.what}.\n"
        out += "".join(f"pub(crate) const {upper(a)}: u32 = {i};\n\n" for i, a in enumerate(t.alternatives, 1))
        table = "\\\n".join("    " + "".join(map(byte, row)) for row in lines(t.entries))
        out += f'const {t.code}: Choices = Choices {{\n    of: *b"\\\n{table}",\n    named: {t.named},\n}};\n\n'
    return out


def names(all_choices):
    """specs/Choice.antt"""
    out = "-- Made by tools/choice.py: the alternatives by name, as `choose` of grammar's table numbers them; src/choice.rt has the same names.\n"
    out += "-- Assumes nothing.\nuse Rattle.std.specs.Prelude.{ℕ}\n\n-- No alternative begins with the class.\nabbrev pub Absent : ℕ\nAbsent = 0\n\n"
    for t in all_choices:
        out += (f"-- {t.what}.\n" if t.alternatives else "") + "".join(f"abbrev pub {a} : ℕ\n{a} = {i}\n\n" for i, a in enumerate(t.alternatives, 1))
    return out.rstrip() + "\n"


def lists(all_choices):
    """proofs/choice/Tables.antt"""
    out = "-- Made by tools/choice.py: the tables of src/choice.rt as lists.\n-- Assumes nothing.\n"
    out += "use Rattle.std.proofs.Common.{ℕ, List, [], ◌∷◌}\n"
    for t in all_choices:
        rows = " ∷\n    ".join(" ∷ ".join(map(str, row)) for row in lines(t.entries))
        out += f"\n-- {t.code}\nunfoldable pub {t.proof}_choices : List ℕ\n{t.proof}_choices =\n    {rows} ∷ []\n"
    return out


def between_marks(text, new):
    if text.count(BEGIN) != 1 or text.count(END) != 1:
        raise SystemExit("choice.rt has not each of the two marks once")
    return text[:text.index(BEGIN)] + BEGIN + new + text[text.index(END):]


def main():
    classes, all_choices = choices()
    rt = os.path.join(ROOT, "src", "choice.rt")
    files = {rt: between_marks(open(rt).read(), code(classes, all_choices)), os.path.join(ROOT, "specs", "Choice.antt"): names(all_choices),
             os.path.join(ROOT, "proofs", "choice", "Tables.antt"): lists(all_choices)}
    tables.keep(files, "tools/choice.py")


if __name__ == "__main__":
    main()
