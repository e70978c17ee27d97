#!/usr/bin/env python3
"""Writes the tables of docs/BELIEF.md: which definitions say what `read`, `read_lean` and `load` promise, file by file in an order of reading, with line counts.

    tools/believed.py          writes them
    tools/believed.py --check  writes nothing; exits with 1 where a table is another, or where the lines are more than the promise may have
    tools/believed.py --names  prints the definitions of each file with their lines

It starts at the definitions that a contract cites for the whole of its promise (PROMISES), and follows names over `use` lines. A definition is an
`abbrev`, an `unfoldable`, a `data` or a `record`; its lines are its comment, its signature and its clauses. Theorems and their proofs are checked by
antt and need no belief, and neither do the definitions that only they use.
"""
import os
import re
import sys

ROOT = os.path.dirname(os.path.dirname(os.path.abspath(__file__)))
PAGE = os.path.join(ROOT, "docs", "BELIEF.md")
BEGIN, END = "<!-- %s: made by tools/believed.py -->\n", "<!-- end -->\n"
PAPER = ["crates/" + part for part in ("text", "utf8", "words", "lexer", "theory", "grammar/specs/Shapes", "num", "own", "up", "grammar/specs/Records", "kinds", "grammar",
                                       "reader", "lines", "load")]
ANSWERS = "crates/grammar/specs/Answers/Answer.antt"
# Each function with the most lines that it may ask to believe, and the definitions that its contract cites; then those that are not followed, since a promise
# before it leaves no choice of what they say.
PROMISES = [
    ("read", 1950, [("crates/grammar/specs/Answers/Promised.antt", "Promised"), ("crates/reader/specs/Read.antt", "meant"),
                    ("crates/reader/specs/Read.antt", "returned"), ("crates/grammar/specs/Entry.antt", "single_function"),
                    ("crates/grammar/specs/Entry.antt", "whole_file"), ("crates/lexer/specs/Limits.antt", "large_limits")], ()),
    ("read_lean", 2010, [("crates/grammar/specs/Answers/Lean.antt", "PromisedLean"), ("crates/reader/specs/Read.antt", "meant"),
                         ("crates/reader/specs/Read.antt", "returned"), ("crates/grammar/specs/Entry.antt", "single_function"),
                         ("crates/grammar/specs/Entry.antt", "whole_file"), ("crates/lexer/specs/Limits.antt", "large_limits")],
     ((ANSWERS, "answer"), (ANSWERS, "tree_buffer"))),
    ("load", 930, [("crates/load/specs/Promised.antt", "Loads"), ("crates/load/specs/Meant.antt", "meant"), ("crates/load/specs/Meant.antt", "returned")], ()),
]
DEFINITION = re.compile(r"\s*(?:infix[lr]? .*|(?:abbrev|unfoldable) .*|(?:pub )?(?:data|record) .*)$")
DECLARED = re.compile(r"\s*(?:abbrev |unfoldable )?(?:pub )?(?:data |record )?(«?[^\s:({=]+»?)\s*(?:[({].*)?:")


def path(module):
    found = re.match(r"Rattle\.(\w+)\.specs\.(.*)", module)
    return found and f"crates/{found[1]}/specs/{found[2].replace('.', '/')}.antt"


class File:
    """A file's definitions, each a list of lines; the names that they declare; what it uses from where."""

    def __init__(self, name):
        self.name, self.blocks, self.names, self.uses, self.aliases = name, [], {}, {}, {}
        text = open(os.path.join(ROOT, name)).read()
        self.head = re.sub(r"\s*\n-- ", " ", text.split("\n-- Assumes")[0])[3:].strip()
        for line in re.findall(r"^(?:unfoldable )?(?:pub )?(use .*)$", text, re.M):
            several, renamed = re.match(r"use (\S+?)\.\{(.*)\}$", line), re.match(r"use (\S+) as (\S+)$", line)
            if several:
                self.uses.update((n.strip().split(" as ")[-1], (several[1], n.strip().split(" as ")[0])) for n in several[2].split(","))
            elif renamed:
                self.aliases[renamed[2]] = renamed[1]
        body = re.sub(r"^(?:unfoldable )?(?:pub )?use .*\n", "", text, flags=re.M)
        for block in re.split(r"\n\s*\n", body):
            lines = block.strip("\n").split("\n")
            code = [l for l in lines if l.strip() and not l.strip().startswith("--")]
            while code and re.match(r"\s*module .* where$", code[0]):
                lines, code = lines[lines.index(code[0]) + 1:], code[1:]
            if code and DEFINITION.match(code[0]):
                self.blocks.append(lines)
                for line in code:
                    name = DECLARED.match(line)
                    if name:
                        for n in {name[1], name[1].strip("◌")}:
                            self.names.setdefault(n, len(self.blocks) - 1)


class Believed:
    def __init__(self, roots, known):
        self.files, self.seen, self.below, self.known = {}, {}, {}, known  # below: the files that a file's definitions use
        for name, definition in roots:
            self.visit(name, definition)
            if not self.seen.get(name):
                sys.exit(f"{name} has no definition {definition}")
        self.order = []  # behind a file that it uses, and in the paper's order else
        while len(self.order) < len(self.seen):
            ready = [n for n in self.seen if n not in self.order and set(self.below.get(n, [])) <= set(self.order)]
            self.order.append(min(ready, key=lambda n: next(i for i, part in enumerate(PAPER) if n.startswith(part))))

    def file(self, name):
        """The file of this name; None for a type of the code."""
        if name not in self.files and os.path.exists(os.path.join(ROOT, name)):
            self.files[name] = File(name)
        return self.files.get(name)

    def origin(self, name, definition):
        """The file that has the definition, where this one only hands it on, and its name there."""
        file = self.file(name)
        if file and definition not in file.names and definition in file.uses and path(file.uses[definition][0]):
            return self.origin(path(file.uses[definition][0]), file.uses[definition][1])
        return name, definition

    def visit(self, name, definition):
        file = self.file(name)
        if not file or definition not in file.names or (name, definition) in self.known:
            return
        seen = self.seen.setdefault(name, set())
        if file.names[definition] in seen:
            return
        seen.add(file.names[definition])
        text = "\n".join(re.sub(r"(^|\s)--.*$", "", line) for line in file.blocks[file.names[definition]])
        for word in re.findall(r"[^\s(){}\[\],;|]+", re.sub(r'"[^"]*"', " ", text)):
            self.resolve(file, word)

    def use(self, file, name, definition):
        name, definition = self.origin(name, definition)
        self.visit(name, definition)
        if self.seen.get(name) and name not in self.below.setdefault(file.name, []):
            self.below[file.name].append(name)

    def resolve(self, file, word):
        word = word.lstrip(".")
        first, _, rest = word.partition(".")  # NAME, NAME.FIELD, or of a file under a short name SHORT.NAME
        if rest and first in file.aliases and path(file.aliases[first]):
            return self.use(file, path(file.aliases[first]), rest.split(".")[0])
        for name in (word, first):
            if name in file.names:
                return self.visit(file.name, name)
            for form in (name, f"◌{name}◌"):
                if form in file.uses and path(file.uses[form][0]):
                    return self.use(file, path(file.uses[form][0]), file.uses[form][1])

    def lines(self, name, read=()):
        """The lines of a file's definitions that are not among those read before."""
        return sum(len(self.files[name].blocks[i]) for i in self.seen[name].difference(*(before.seen.get(name, ()) for before in read)))

    def total(self, read=()):
        return sum(self.lines(name, read) for name in self.order)

    def names(self):
        for name in self.order:
            first = {i: n for n, i in reversed(self.files[name].names.items())}
            print(name, self.lines(name), "  ".join(f"{first[i]} {len(self.files[name].blocks[i])}" for i in sorted(self.seen[name])))
        print(self.total(), "lines in", len(self.order), "files")

    def table(self, read):
        """The files in their order; where something was read before, with how many of their lines are new. What builds on a promise before shows these alone."""
        says = f"{self.total():,} lines in {len(self.order)} files"
        if read:
            says += f", of which {self.total(read):,} in {sum(self.lines(name, read) > 0 for name in self.order)} files are new"
        rows = [says + ".\n", f"| | File | Lines |{' New |' if read else ''} What it says |", "|---|---|---|---|" + "---|" * bool(read)]
        for number, name in enumerate(self.order, 1):
            if self.known and not self.lines(name, read):
                continue
            head, new = self.files[name].head, f" {self.lines(name, read)} |" if read else ""
            file = name.removeprefix("crates/").replace("/specs", "")
            rows.append(f"| {number} | {file} | {self.lines(name)} |{new} {head[0].upper() + head[1:]} |")
        return "\n".join(rows) + "\n"


def put(page, name, table):
    """The page with the table between the two marks of a promise."""
    before, begin, rest = page.partition(BEGIN % name)
    _, end, behind = rest.partition(END)
    if not end or BEGIN % name in behind:
        sys.exit(f"docs/BELIEF.md has not each of the two marks of {name} once")
    return before + begin + table + end + behind


def main():
    page = written = open(PAGE).read()
    read, over = [], []
    for name, most, roots, known in PROMISES:
        believed = Believed(roots, known)
        if "--names" in sys.argv:
            believed.names()
        written = put(written, name, believed.table(read))
        over += [f"{believed.total()} lines must be believed for `{name}`, more than {most}"] * (believed.total() > most)
        read.append(believed)
    if "--names" in sys.argv:
        return
    if "--check" not in sys.argv:
        open(PAGE, "w").write(written)
    elif written != page:
        sys.exit("docs/BELIEF.md is not what tools/believed.py writes")
    if over:
        sys.exit("\n".join(over))


if __name__ == "__main__":
    main()
