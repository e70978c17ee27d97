#!/usr/bin/env python3
"""Writes what names the kinds of records, calls, built-in arms and built-in types: the tables of docs/KINDS.md, rust/togmelic/src/kinds.rs, and the constants
of c/togmelic.h.

    tools/kinds.py            write them
    tools/kinds.py --check    write nothing; exit 1 if one of them is not what would be written

tools/kind_forms.py reads all of it from the definitions. Tables and constants stand between marks; what is around them is written by hand, and stays.
"""
import os
import re
import sys
from itertools import count

sys.path.insert(0, os.path.dirname(os.path.abspath(__file__)))
from kind_forms import (ALIASES, ARMS, CALLS, FAMILIES, KIND, KINDS, PARTNERS, ROOT, arm_word, call_word, children_said, drafted,  # noqa: E402
                        either_of, fields, forms_of, marks_said, runs, spoken)

PAGE, CODE, HEADER = "docs/KINDS.md", "rust/togmelic/src/kinds.rs", "c/togmelic.h"
TABLE, TABLE_END = "<!-- %s: made by tools/kinds.py -->\n", "<!-- end -->\n"
BLOCK = "/* Made by tools/kinds.py, up to the line that says so: the numbers of docs/KINDS.md. */\n"
BLOCK_END = "/* End of what tools/kinds.py makes. */\n"


# ---------------------------------------------------------------------------------------------- the tables of the page
def table(head, rows):
    lines = ["| " + " | ".join(map(str, line)) + " |\n" for line in (head, *rows)]
    return "\n" + lines[0] + "|" + "---|" * len(head) + "\n" + "".join(lines[1:])


def families():
    shown = str, "`{:02X}`".format, lambda number: spoken(KINDS[number - 1])
    rows = [[word] + [", ".join(runs(sorted(numbers), one)) for one in shown] for word, numbers in FAMILIES.items()]
    return table(("Family", "Kinds", "Hexadecimal", "By name"), rows)


def kinds():
    rows = []
    for number, kind in enumerate(KINDS, 1):
        forms = forms_of(kind)
        said = ["by low: Calls, below"] * 2 if kind == "Call" else [children_said(forms), marks_said(forms)]
        rows.append([number, f"`{number:02X}`", spoken(kind), *fields(kind), *said])
    return table(("Kind", "Hexadecimal", "Name", "Low", "High", "Children", "Marks owned"), rows)


def lows(kind):
    """The forms of a kind: low, as a line has it, the form as a draft has it, its children and its marks."""
    found = [(form["fields"][1], form) for form in forms_of(kind)]
    return [(low, f"`{low:08X}`", f"`{drafted(form)}`", children_said([form]), marks_said([form])) for low, form in found]


def forms():
    """The kinds whose forms differ, but for arms and calls, and the two matches."""
    rows = [[KIND[kind], spoken(kind), low, *said] for kind in ("Function", "Block", "Boolean") for low, _, *said in lows(kind)]
    for kind in ("Match", "EnumMatch"):
        [form] = forms_of(kind)
        rows.append([KIND[kind], spoken(kind), 0, f"`{drafted(form)}`", children_said([form]), marks_said([form])])
    return table(("Kind", "Name", "Low", "In a draft", "Children", "Marks owned"), rows)


def arms():
    partner = {a: b for pair in PARTNERS for a, b in (pair, pair[::-1])}
    rows = [[low, word, arm_word(low), arm_word(partner[low]), *said] for low, word, *said in lows("BuiltinArm")]
    return table(("Low", "Hexadecimal", "Arm", "Its partner", "In a draft", "Children", "Marks owned"), rows)


def calls():
    rows = [[low, word, CALLS[low - 1], f"`{call_word(low)}`", *said] for low, word, *said in lows("Call")]
    return table(("Low", "Hexadecimal", "`CallName`", "Shown as", "In a draft", "Children", "Marks owned"), rows)


def builtin_types():
    return table(("Low", "Hexadecimal", "Type"), [[low, f"`{low:08X}`", f"`{word}`"] for low, word in enumerate(ALIASES)])


def page(text):
    for name, made in (("families", families), ("kinds", kinds), ("forms", forms), ("arms", arms), ("calls", calls), ("built-in types", builtin_types)):
        text = put(PAGE, text, TABLE % name, TABLE_END, made())
    return text


# ---------------------------------------------------------------------------------------------- the enums of the wrapper
def kind_said(number, kind):
    """A kind's children, or the tokens that it has without any; and what low and high hold."""
    found, (low, high) = forms_of(kind), fields(kind)
    text = "children by its [`Call`]" if kind == "Call" else marks_said(found) if children_said(found) == "none" else children_said(found)
    held = [f"`{name}`: {what}" for name, what in (("low", low), ("high", high)) if what != "0"]
    return "\n".join([f"`{number:02X}`: {text}"] + ["; ".join(held)] * bool(held))


def first_forms(kind):
    """How a draft has each low of a kind, in its first form."""
    return list({low: text for low, _, text, *_ in reversed(lows(kind))}.values())[::-1]


def enum(name, about, rows):
    """An enum by `numbered!`: rows of a case, its number, its name and what is said of it."""
    lines = [f"/// {line}" for line in about.split("\n")] + [f"{name} {{"]
    for case, number, word, said in rows:
        lines += [f"    /// {line}." for line in said.split("\n") if line]
        lines.append(f'    {case} = {number} => "{word}",')
    return "numbered! {\n" + "".join(f"    {line}\n" for line in lines + ["}"]) + "}\n"


def code(_):
    kind_rows = [(kind, n, spoken(kind), kind_said(n, kind)) for n, kind in enumerate(KINDS, 1)]
    call_rows = [(call, n, call_word(n), said) for call, n, said in zip(CALLS, count(1), first_forms("Call"))]
    arm_rows = [(arm, n, arm_word(n), said) for arm, n, said in zip(ARMS, count(1), first_forms("BuiltinArm"))]
    return "\n".join([
        "//! What the numbers of a listing stand for: kinds of records, calls, built-in arms and built-in types. docs/KINDS.md has\n"
        "//! the tables. Made by tools/kinds.py.\n\nuse crate::numbered::numbered;\n",
        enum("Kind", "What a record is: the first number of its line. Beside each stand its number there and its children, or its token\nwhere it has none. Import no cases by `*`: `Some` and `None` would hide those of `Option`.", kind_rows),
        enum("Call", "What is called: `low` of a [`Kind::Call`].", call_rows),
        enum("Arm", "Which built-in arm: `low` of a [`Kind::BuiltinArm`].", arm_rows),
        enum("Alias", "Which built-in type: `low` of a [`Kind::Builtin`]. A record of [`Kind::Alias`], a type by another name, has none.", [(word, n, word, "") for n, word in enumerate(ALIASES)]),
    ])


# ---------------------------------------------------------------------------------------------- the constants of the header
def constants(about, prefix, rows):
    """Constants by rows of a name, its number and what is said of it."""
    upper = [(re.sub("(?<=[a-z0-9])(?=[A-Z])", "_", name).upper(), number, said.strip("`")) for name, number, said in rows]
    return f"/* {about} */\n" + "".join(f"#define TOGMELIC_{prefix}{name} {number} /* {said} */\n" for name, number, said in upper)


def header(text):
    first = either_of([ARMS[a - 1].upper() for a, _ in PARTNERS])
    made = [
        constants("Kinds of records: the first word of each, and in hexadecimal the first number of its line.", "",
                  [(kind, n, f"{n:02X}: {spoken(kind)}") for n, kind in enumerate(KINDS, 1)]),
        constants("Calls: low of TOGMELIC_CALL.", "CALL_", zip(CALLS, count(1), first_forms("Call"))),
        constants(f"Built-in arms: low of TOGMELIC_BUILTIN_ARM. Of the two in a match the first is {first}.", "ARM_",
                  zip(ARMS, count(1), first_forms("BuiltinArm"))),
        constants("Built-in types: low of TOGMELIC_BUILTIN. TOGMELIC_BUILTIN_ARM, above, is a kind, and none of these.", "BUILTIN_", zip(ALIASES, count(0), ALIASES)),
    ]
    return put(HEADER, text, BLOCK, BLOCK_END, "\n".join(made))


# ---------------------------------------------------------------------------------------------- the files
def put(path, text, begin, end, made):
    """The text with what is made between two marks."""
    before, mark, rest = text.partition(begin)
    _, closed, behind = rest.partition(end)
    if not closed or begin in behind:
        sys.exit(f"{path} has not each of the two marks once: {begin.strip()} {end.strip()}")
    return before + mark + made + closed + behind


def main():
    stale = []
    for name, make in ((PAGE, page), (CODE, code), (HEADER, header)):
        path = os.path.join(ROOT, name)
        before = open(path, encoding="utf-8").read() if os.path.exists(path) else ""
        made = make(before)
        if "--check" not in sys.argv[1:]:
            open(path, "w", encoding="utf-8").write(made)
        elif made != before:
            stale.append(name)
    if stale:
        sys.exit(f"not what tools/kinds.py writes: {', '.join(stale)}")


if __name__ == "__main__":
    main()
