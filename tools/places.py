#!/usr/bin/env python3
"""Counts, in crates/*/src, the places of each point of docs/DESIGN-PASS.md; with --list it prints them.

    python3 tools/places.py [--list] [POINT..]

A count says where to look, not what is wrong: the page says of each place what became of it."""
import collections, pathlib, re, sys

ROOT = pathlib.Path(__file__).resolve().parent.parent
NUMBER = r"(?:u8|u16|u32|u64|usize)"


def sources():
    for path in sorted(ROOT.glob("crates/*/src/**/*.rt")):
        yield path.relative_to(ROOT / "crates"), path.read_text()


def bare(line):
    """A line without its comment."""
    return re.sub(r"//.*", "", line)


class Function:
    """A function of a file: its name, the comment above it, its head up to the body, and its body."""

    def __init__(self, path, name, comment, head, body, line):
        self.path, self.name, self.comment, self.head, self.body, self.line = path, name, comment, head, body, line

    def where(self):
        return f"{self.path}:{self.line} {self.name}"


def functions(path, text):
    lines = text.split("\n")
    i = 0
    while i < len(lines):
        found = re.match(r"( *)(?:pub(?:\([a-z]+\))? )?(?:const )?(?:extern \"C\" )?fn (\w+)", lines[i])
        if not found:
            i += 1
            continue
        indent = found[1]
        comment, j = [], i - 1
        while j >= 0 and re.match(r" *(//|#\[)", lines[j]):
            comment.insert(0, lines[j])
            j -= 1
        start, head = i, []
        while lines[i] != indent + "{" and (re.match(r" *(requires|ensures)", lines[i]) or not re.search(r"[{}]$", lines[i])):
            head.append(lines[i])
            i += 1
        head.append(lines[i])
        body = []
        if not lines[i].endswith("}"):
            i += 1
            while i < len(lines) and lines[i] != indent + "}":
                body.append(lines[i])
                i += 1
        i += 1
        yield Function(path, found[2], "\n".join(comment), "\n".join(head), "\n".join(body), start + 1)


def all_functions():
    for path, text in sources():
        yield from functions(path, text)


def result_shaped():
    """1a: enums of two cases of which one or both hold a value."""
    for path, text in sources():
        for name, body in re.findall(r"^(?:pub(?:\([a-z]+\))? )?enum (\w+)[^{]*\{\n(.*?)\n\}", text, re.S | re.M):
            body = "\n".join(bare(l) for l in body.split("\n"))
            cases = re.findall(r"^    (\w+)", body, re.M)
            if len(cases) == 2 and re.search(r"[({]", body):
                yield f"{path} {name}"


def code_constants():
    """1b: constants that are numbers, in files with three of them or more that differ."""
    for path, text in sources():
        names = re.findall(rf"^(?:pub(?:\([a-z]+\))? )?const (\w+): {NUMBER} = (?:\d+|1 << \d+|b'.')(?: as \w+)?;", text, re.M)
        if len(names) >= 3:
            yield from (f"{path} {n}" for n in names)


def sentinels():
    """1c: functions whose comment gives a number a meaning of its own, and flags among parameters."""
    for f in all_functions():
        if re.search(r"\b(or|and) 0\b|\b[01] (if|for|where|when|once|past)\b|; 0 |: 0 |0 alone", f.comment) and re.search(rf"-> \(?{NUMBER}", f.head):
            yield f.where() + " (a number that says none or which)"
        for flag in re.findall(r"(\w+): bool\b", f.head.split("ensures")[0]):
            yield f.where() + f" (flag {flag})"


def shape(body):
    text = "\n".join(bare(l) for l in body.split("\n"))
    text = re.sub(r'b?"[^"]*"', "S", text)
    text = re.sub(r"b?'[^']+'", "N", text)
    text = re.sub(r"\b(if|else|while|for|in|let|mut|return|match|loop|as|continue|break)\b", r"@\1@", text)
    text = re.sub(r"(?<!@)\b[A-Za-z_][\w:]*\b(?!@)", "X", text)
    text = re.sub(r"\b\d+\b", "N", text)
    return re.sub(r"\s+", " ", text)


def twins():
    """2: functions of three lines or more in groups of one shape, other names and numbers apart."""
    groups = collections.defaultdict(list)
    for f in all_functions():
        if len(f.body.strip().split("\n")) >= 3:
            groups[shape(f.body)].append(f)
    for group in groups.values():
        if len(group) > 1:
            yield " = ".join(f"{f.path}:{f.name}" for f in group)


def counted_loops():
    """3: `while` loops over a variable that their body counts up or down by one."""
    for f in all_functions():
        lines = f.body.split("\n")
        for k, line in enumerate(lines):
            found = re.match(r"( *)(?:while (.*)|loop) \{$", line)
            if not found:
                continue
            inside = []
            for later in lines[k + 1:]:
                if later == found[1] + "}":
                    break
                inside.append(later)
            steps = set(re.findall(r"^ *(\w+) [+-]= 1;", "\n".join(inside), re.M))
            if found[2] and steps & set(re.findall(r"\w+", found[2])):
                yield f.where()


def by_hand():
    """4: casts, choices of one of two values in one line, and calls that print."""
    for path, text in sources():
        for number, line in enumerate(text.split("\n"), 1):
            code = bare(line)
            for cast in re.findall(rf"\bas {NUMBER}\b", code):
                yield f"{path}:{number} cast"
            if re.search(r"if .* \{ [^{}]+ \} else \{ [^{}]+ \}", code):
                yield f"{path}:{number} choice"
            for call in re.findall(r"\b(?:io::write_all|io::print_decimal|say)\(", code):
                yield f"{path}:{number} print"


def repeated_facts():
    """5a: facts that stand in the `requires` of three functions of a crate or more."""
    facts = collections.defaultdict(set)
    for f in all_functions():
        for fact in re.findall(r"requires (?:\w+ )?\{ (.*) \}", f.head):
            facts[f.path.parts[0], fact].add(f.name)
    for (crate, fact), names in sorted(facts.items()):
        if len(names) >= 3:
            yield f"{crate}: {fact} ({len(names)} functions)"


def travelling():
    """5b: three parameters or more that stand together in three functions of a crate or more."""
    runs = collections.defaultdict(set)
    for f in all_functions():
        head = re.sub(r"\s+", " ", f.head.split("requires")[0].split("ensures")[0])
        found = re.search(r"\((.*)\)", head)
        if not found:
            continue
        parameters = [p.strip() for p in found[1].split(", ") if ":" in p]
        for a in range(len(parameters)):
            for b in range(a + 3, len(parameters) + 1):
                runs[f.path.parts[0], ", ".join(parameters[a:b])].add(f.where())
    kept = {k: v for k, v in runs.items() if len(v) >= 3}
    for (crate, run), places in sorted(kept.items()):
        if not any(c == crate and run in other and run != other and places <= more for (c, other), more in kept.items()):
            yield f"{crate}: {run} ({len(places)} functions)"


def beside():
    """6: fixed buffers made in a function, numbers beside a slice that say how much of it counts, arrays that are read in parallel."""
    for f in all_functions():
        head = f.head.split("requires")[0].split("ensures")[0]
        if re.search(r"&(?:mut )?\[\w+\],\s*(count|n|records|used|step): usize", head):
            yield f.where() + " (a slice and how much of it)"
        for size in re.findall(r"\[0\w*; ([^\]]+)\]|\[b'.'; ([^\]]+)\]", f.body):
            yield f.where() + " (a fixed buffer)"
    for path, text in sources():
        for array in re.findall(r"^pub(?:\([a-z]+\))? const (\w+): \[u\d+; \d+\] =", text, re.M):
            yield f"{path} {array} (a constant array)"


def switches():
    """7: parameters that choose what to do: a letter, a number of a rule, a flag."""
    for f in all_functions():
        head = f.head.split("requires")[0].split("ensures")[0]
        for name in re.findall(r"\b(job|rule|file|kind_of|which): (?:u8|u32|bool)\b", head):
            yield f.where() + f" ({name})"


def answers():
    """8: goals answered by hand in proofs/, and lines of lemmas, crate by crate."""
    for crate in sorted(p.name for p in (ROOT / "crates").iterdir() if p.is_dir()):
        for path in sorted((ROOT / "crates" / crate / "proofs").rglob("Answers.antt")):
            for name in re.findall(r"^(?:abbrev )?pub (\S+) : goal\.", path.read_text(), re.M):
                yield f"{crate} {path.parent.name} {name}"


POINTS = [
    ("1a", result_shaped), ("1b", code_constants), ("1c", sentinels), ("2", twins), ("3", counted_loops), ("4", by_hand),
    ("5a", repeated_facts), ("5b", travelling), ("6", beside), ("7", switches), ("8", answers),
]


def crate_of(place):
    return re.split(r"[/: ]", place)[0]


def main():
    wanted = [a for a in sys.argv[1:] if not a.startswith("--")]
    for point, places in POINTS:
        if wanted and point not in wanted:
            continue
        found = list(places())
        by_crate = collections.Counter(crate_of(p) for p in found)
        print(f"{point}: {len(found)}  " + ", ".join(f"{c} {n}" for c, n in sorted(by_crate.items())))
        if "--list" in sys.argv:
            for place in found:
                print("    " + place)


if __name__ == "__main__":
    main()
