#!/usr/bin/env python3
"""Writes crates/grammar/specs/Shapes/Tables.antt, the productions of the grammar that specs/Shapes/Shapes.antt states, with their LL(1) table,
and specs/Shapes/TablesIndex.antt, a name for each nonterminal.

    tools/grammar.py            write the files
    tools/grammar.py --check    write nothing; exit 1 if a file is not what would be written
    tools/grammar.py --list     print the nonterminals

The grammar is read from the specs (Classes of crate lexer; Categories, Notation, Row and Shapes of specs/Shapes, with the names of ShapeKind)
by tools/antt_terms.py; `shapes` is made here from `rows` and `parts`. Nothing here needs trust: antt computes `good`, `sames` and `paid` on
the result. A conflict of the table is named here, since the checks only say that there is one.
"""
import os
import re
import sys

sys.path.insert(0, os.path.dirname(os.path.abspath(__file__)))
from antt_terms import Values  # noqa: E402

ROOT = os.path.join(os.path.dirname(os.path.abspath(__file__)), "..")
SPECS = os.path.join(ROOT, "crates", "grammar", "specs", "Shapes")
CLASSES = os.path.join(ROOT, "crates", "lexer", "specs", "Classes.antt")
KINDS = os.path.join(ROOT, "crates", "own", "specs", "Kinds.antt")
OWN = ("Categories", "Notation", "Row", "Shapes", "ShapeKind")
SOURCES = [(CLASSES, "t"), (KINDS, "kind")] + [(os.path.join(SPECS, name + ".antt"), None) for name in OWN]
PER_TOKEN = 64  # the fuel for each token, as in theory's Fuel.antt


# ---------------------------------------------------------------------------------------------- productions
def items(e):
    return [] if e[0] == "eps" else items(e[1]) + items(e[2]) if e[0] == "seq" else [e]


def branches(e):
    return branches(e[1]) + branches(e[2]) if e[0] == "or" else [items(e)]


def choices(shapes, e):
    if e[0] == "child":
        return [items(shapes["bodies"][k]) for k in shapes["kinds"][e[1]]]
    if e[0] == "part":
        return branches(shapes["parts"][e[1]])
    if e[0] == "many":
        return [[], items(e[1]) + [e]]
    if e[0] == "list":
        return [[], items(e[1]) + [("tail", e[1], e[2])]]
    if e[0] == "tail":
        return [[], [("mark", e[2]), ("list", e[1], e[2])]]
    return branches(e)


def productions(shapes, starts):
    """means[A] is the expression of the nonterminal A; rules[A] its alternatives: a class, or ('n', B). What the first start leads to comes before the
    next start, so that numbers stay as they are when a start is added."""
    means, rules = [], []

    def symbol(e):
        if e[0] == "mark":
            return e[1]
        if e not in means:
            means.append(e)
        return ("n", means.index(e))

    for start in starts:
        symbol(start)
        while len(rules) < len(means):
            rules.append([[symbol(x) for x in alternative] for alternative in choices(shapes, means[len(rules)])])
    return means, rules


def other(e, alternatives):
    """What the code does at a class that no alternative begins with: a node is not there, and no more is a token of several classes;
    an optional part, a tail and a repeated mark are passed by; a list, the elements of a block and repeated nodes take an item;
    any other choice takes its last alternative."""
    if e[0] == "child" or all(len(a) == 1 and not isinstance(a[0], tuple) for a in alternatives):
        return 0
    if e[0] == "many":
        return 2 if isinstance(alternatives[1][0], tuple) else 1
    if e[0] == "tail" or (e[0] == "or" and alternatives[0] == []):
        return 1
    return len(alternatives)


# ---------------------------------------------------------------------------------------------- the table
def fixpoint(step):
    while step():
        pass


class Table:
    def __init__(self, means, rules, starts):
        self.means, self.rules, n = means, rules, len(rules)
        self.null, self.first, self.follow = [False] * n, [set() for _ in rules], [set() for _ in rules]
        for start in starts:
            self.follow[means.index(start)].add(0)
        fixpoint(self.more_first)
        fixpoint(self.more_follow)
        self.table, self.conflicts = [{} for _ in rules], []
        for A, alternatives in enumerate(rules):
            for i, alternative in enumerate(alternatives):
                for a in sorted(self.predict(A, alternative)):
                    if a in self.table[A]:
                        self.conflicts.append((A, a, self.table[A][a], i + 1))
                    self.table[A][a] = i + 1
        self.other = [other(e, r) for e, r in zip(means, rules)]
        self.cost = self.costs()
        self.least = self.leasts()

    def begins(self, symbols):
        out = set()
        for s in symbols:
            out |= self.first[s[1]] if isinstance(s, tuple) else {s}
            if not (isinstance(s, tuple) and self.null[s[1]]):
                return out, False
        return out, True

    def more_first(self):
        changed = False
        for A, alternatives in enumerate(self.rules):
            for alternative in alternatives:
                f, empty = self.begins(alternative)
                if not f <= self.first[A] or (empty and not self.null[A]):
                    self.first[A] |= f
                    self.null[A] = self.null[A] or empty
                    changed = True
        return changed

    def more_follow(self):
        changed = False
        for A, alternatives in enumerate(self.rules):
            for alternative in alternatives:
                for i, s in enumerate(alternative):
                    if isinstance(s, tuple):
                        f, empty = self.begins(alternative[i + 1:])
                        f = f | self.follow[A] if empty else f
                        if not f <= self.follow[s[1]]:
                            self.follow[s[1]] |= f
                            changed = True
        return changed

    def predict(self, A, alternative):
        f, empty = self.begins(alternative)
        return f | self.follow[A] if empty else f

    def costs(self):
        cost = [0] * len(self.rules)

        def need(symbols):
            n = 1
            for s in reversed(symbols):
                if not isinstance(s, tuple):
                    n = 1 + max(0, n - PER_TOKEN)
                else:
                    node = self.means[s[1]][0] == "child" and not self.null[s[1]]
                    n = 1 + cost[s[1]] + max(0, n - (PER_TOKEN if node else 0))
            return n

        for _ in range(1000):
            new = [max(need(alternative) for alternative in alternatives) for alternatives in self.rules]
            if new == cost:
                return cost
            cost[:] = new
        raise SystemExit("no costs: a nonterminal may come again before a token")

    def leasts(self):
        size, least = [10 ** 9] * len(self.rules), [0] * len(self.rules)
        changed = True
        while changed:
            changed = False
            for A, alternatives in enumerate(self.rules):
                for i, alternative in enumerate(alternatives):
                    z = 1 + sum(size[s[1]] if isinstance(s, tuple) else 1 for s in alternative)
                    if z < size[A]:
                        size[A], least[A], changed = z, i + 1, True
        return least


# ---------------------------------------------------------------------------------------------- the file
class Printer:
    def __init__(self, grammar, shapes):
        self.grammar, self.names, self.classes = grammar, {}, {}
        for n in grammar.sources["Classes"]:
            if isinstance(grammar.value(n), int) and n not in ("t.words", "t.last"):
                self.classes[grammar.value(n)] = n
        for n in grammar.sources["Categories"]:
            if isinstance(grammar.value(n), int):
                self.names[("child", grammar.value(n))] = n
        for source in ("Categories", "Shapes"):
            for n, clauses in grammar.sources[source].items():
                if n != "shapes" and not clauses[0][0] and isinstance(grammar.value(n), tuple):
                    self.names.setdefault(grammar.value(n), n)

    def name(self, c):
        """A class as an antt term."""
        return self.classes.get(c, str(c))

    def word(self, c):
        """A class as a word of a comment or of a name."""
        return self.name(c).removeprefix("t.")

    def text(self, e, level=0):
        """An expression as Shapes.antt would write it."""
        if e in self.names:
            return self.names[e]
        k = e[0]
        if k == "eps":
            return "nothing"
        if k == "mark":
            return self.word(e[1])
        if k in ("many", "list", "tail"):
            return {"many": "any number of ", "list": "list of ", "tail": "what follows an item of: list of "}[k] + self.text(e[1], 3)
        if k == "or":
            if e[1] == ("eps",):
                return "optional " + self.text(e[2], 3)
            s, mine = " | ".join(self.text(x, 1) for x in self.alternatives(e)), 1
        else:
            s, mine = " ".join(self.text(x, 2) for x in items(e)), 2
        return s if level < mine else "(" + s + ")"

    def alternatives(self, e):
        return self.alternatives(e[1]) + self.alternatives(e[2]) if e[0] == "or" and e not in self.names else [e]

    def term(self, e):
        """An expression as an antt term over the names of Shapes.antt."""
        if e in self.names:
            return f"(child {self.names[e]})" if e[0] == "child" else self.names[e]
        if e[0] == "eps":
            return "eps"
        if e[0] == "mark":
            return f"(mark {self.name(e[1])})"
        if e[0] in ("seq", "or"):
            return f"({e[0]} {self.term(e[1])} {self.term(e[2])})"
        return f"({e[0]} {self.term(e[1])}" + (f" {self.name(e[2])})" if len(e) > 2 else ")")


def index(grammar, shapes, table, printer):
    """A name for each nonterminal: that of its expression; or the form and the item; or where it first occurs, its form, its first mark."""
    names, owners = [], {}
    shape_names = {grammar.value(n): re.sub(r"(?<=[a-z])(?=[A-Z])", "_", n.removesuffix("Shape")).lower() for n in grammar.sources["ShapeKind"]}

    for A, e in enumerate(table.means):
        if e in printer.names:
            name = printer.names[e]
        elif e[0] in ("list", "tail", "many") and e[1] in printer.names:
            name = f"{e[0]}-{printer.names[e[1]]}"
        else:
            optional = e[0] == "or" and e[1] == ("eps",)
            first = items(e[2] if optional else e[1] if e[0] == "many" else e)[0]
            form = "optional" if optional else e[0] if e[0] != "or" else "word" if table.other[A] == 0 else "choice"
            name = f"{owners[A]}-{form}" + (f"-{printer.word(first[1])}" if first[0] == "mark" else "")
        if name in names:
            raise SystemExit(f"two nonterminals have the name {name}")
        names.append(name)
        if e[0] == "child":
            own = [shape_names[k] for k in shapes["kinds"][e[1]]]
        else:
            own = [name] * len(table.rules[A])
        for o, alternative in zip(own, table.rules[A]):
            for x in alternative:
                if isinstance(x, tuple):
                    owners.setdefault(x[1], o)
    out = [
        "-- Made by tools/grammar.py from Shapes.antt: do not edit; `tools/grammar.py --check` says whether it is up to date.",
        "-- The nonterminals of Tables.antt by name: each number with what it stands for.",
        "-- Assumes nothing.",
        "use Rattle.std.specs.Prelude.{ℕ}",
        "",
    ]
    for A, e in enumerate(table.means):
        out += [f"-- {printer.text(e)}", f"abbrev pub n-{names[A]} : ℕ", f"n-{names[A]} = {A}", ""]
    return "\n".join(out)


def cons(xs):
    return "".join(f"{x} ∷ " for x in xs) + "[]"


def symbol(s):
    return f"nt {s[1]}" if isinstance(s, tuple) else f"tok {s}"


def row(table, A):
    alternatives = cons("(" + cons(symbol(s) for s in a) + ")" if a else "[]" for a in table.rules[A])
    cases = cons(f"on {a} {i}" for a, i in sorted(table.table[A].items()) if i != table.other[A])
    return (f"record {{ alts = {alternatives}; cases = {cases}; other = {table.other[A]}; first = {cons(sorted(table.first[A]))}; "
            f"follow = {cons(sorted(table.follow[A]))}; null = {'true' if table.null[A] else 'false'}; cost = {table.cost[A]}; "
            f"least = {table.least[A]} }}")


def written(grammar, shapes, table, printer):
    used = set()

    def names_in(term):
        used.update(w for w in re.findall(r"[^\s()]+", term))

    means = [printer.term(e) for e in table.means]
    for m in means:
        names_in(m)
    shapes_used = {m: [n for n in printer.names.values() if n in used and n in grammar.sources[m]] for m in ("Categories", "Shapes")}
    ebnf = [n for n in ("eps", "mark", "child", "part", "seq", "or", "many", "list", "tail") if n in used]
    out = [
        "-- Made by tools/grammar.py from Shapes.antt: do not edit; `tools/grammar.py --check` says whether it is up to date.",
        "-- The productions of the shapes with their LL(1) table, and what each nonterminal stands for. The script needs no trust: the",
        "-- checks in proofs/Shapes/WellShapedLaws.antt are computed on what stands here.",
        "-- Assumes nothing.",
        "use Rattle.std.specs.Prelude.{true, false, List, [], ◌∷◌}",
        "use Rattle.theory.specs.Grammar.{tok, nt, on, Row}",
        f"use Rattle.theory.specs.Ebnf.{{Ex, {', '.join(ebnf)}}}",
        "use Rattle.lexer.specs.Classes as t",
        f"use Rattle.grammar.specs.Shapes.Categories.{{{', '.join(shapes_used['Categories'])}}}",
        f"use Rattle.grammar.specs.Shapes.Shapes.{{{', '.join(shapes_used['Shapes'])}}}",
        "",
    ]
    for A, e in enumerate(table.means):
        out += [f"-- {A}: {printer.text(e)}", f"abbrev r{A} : Row", f"r{A} = {row(table, A)}", ""]
    out += ["-- The rows of the nonterminals, by their numbers.", "unfoldable pub table : List Row",
            f"table = {cons(f'r{A}' for A in range(len(table.rules)))}", "",
            "-- The expression that each nonterminal stands for.", "unfoldable pub means : List Ex", f"means = {cons(means)}", ""]
    return "\n".join(out)


def load():
    grammar = Values(SOURCES)
    rows = grammar.value("rows")
    kinds = [[k for k, row in enumerate(rows) if row["category"] == C] for C in range(1 + grammar.value("type_item"))]
    shapes = {"kinds": kinds, "bodies": [row["body"] for row in rows], "parts": grammar.value("parts")}
    starts = [("child", grammar.value("function")), grammar.value("file")]
    means, rules = productions(shapes, starts)
    return grammar, shapes, Table(means, rules, starts)


def keep(files, script):
    """Writes the files of a script; with --check writes nothing, and exits with 1 where one is not what would be written."""
    for path, text in files.items():
        if "--check" not in sys.argv:
            open(path, "w").write(text)
        elif not os.path.exists(path) or open(path).read() != text:
            print(f"{os.path.relpath(path, ROOT)} is not what {script} writes", file=sys.stderr)
            sys.exit(1)


def main():
    grammar, shapes, table = load()
    printer = Printer(grammar, shapes)
    for A, a, i, j in table.conflicts:
        print(f"conflict: {printer.text(table.means[A])} at {printer.word(a)}: alternatives {i} and {j}", file=sys.stderr)
    if table.conflicts:
        sys.exit(1)
    if "--list" in sys.argv:
        for A, e in enumerate(table.means):
            print(A, printer.text(e))
        print(len(table.rules), "nonterminals,", sum(map(len, table.rules)), "alternatives,", len(shapes["bodies"]), "kinds; greatest cost", max(table.cost))
        return
    files = {"Tables.antt": written(grammar, shapes, table, printer), "TablesIndex.antt": index(grammar, shapes, table, printer)}
    keep({os.path.join(SPECS, name): text for name, text in files.items()}, "tools/grammar.py")


if __name__ == "__main__":
    main()
