#!/usr/bin/env python3
"""Prints, as text for a page, each public function, type, definition and theorem whose statement differs from that of an older commit, old and new side by side.

    python3 tools/side_by_side.py COMMIT [functions] [types] [definitions] [theorems] [laws]

A function's statement is its signature with its clauses, a type's its declaration with its invariants, a definition's its whole text, a theorem's its type. A
name is looked for in its crate first and then in all, so one that only moved is not listed. Answers and invariants of proofs are no statements. Laws are the
theorems whose names stood in their crate's specs/ at COMMIT or at the commit that docs/PORT.md begins with; a step inside a proof (`go`) is none."""
import pathlib
import re
import subprocess
import sys
import tarfile
import io
import tempfile

ROOT = pathlib.Path(__file__).resolve().parent.parent
WORDS = ("functions", "types", "definitions", "theorems")
STEPS = ("go",)


def flat(text):
    return re.sub(r"\s+", " ", text).strip()


def without_comments(text, mark):
    return "\n".join(line for line in text.split("\n") if not line.strip().startswith(mark))


def rust_items(crate):
    """The public functions and types of a crate's source, by kind and name."""
    for path in sorted(crate.glob("src/**/*.rt")):
        text = without_comments(path.read_text(), "//")
        module = str(path.relative_to(crate / "src"))[:-3].replace("/", "::")
        for head in re.findall(r"^ *(pub (?:extern \"C\" )?fn .*?)\n *\{$|^ *(pub fn [^\n]*) \{\}?$", text, re.S | re.M):
            head = head[0] or head[1]
            yield "functions", module + "::" + re.search(r"fn (\w+)", head)[1], flat(head)
        for declared in re.findall(r"^(pub (?:struct|enum) .*?)\n\}", text, re.S | re.M):
            yield "types", module + "::" + re.search(r"(?:struct|enum) (\w+)", declared)[1], flat(declared + " }")


def antt_items(crate):
    """The definitions of a crate's specs/ and the theorems of specs/ and proofs/, by kind and name."""
    paths = list(crate.glob("specs/**/*.antt")) + list(crate.glob("proofs/**/*.antt"))
    for path in sorted(p for p in paths if p.name not in ("Answers.antt", "Invariants.antt", "Lib.antt")):
        text = without_comments(path.read_text(), "--")
        for block in re.split(r"\n\s*\n", text):
            block = re.sub(r"^(?:unfoldable )?(?:pub )?use .*\n?", "", block, flags=re.M).strip("\n")
            block = re.sub(r"^ *module .*? where\n", "", block, flags=re.S)
            found = re.match(r"\s*(abbrev |unfoldable )?(?:pub )?(data |record )?([^\s:({]+)(?: \{ℓ\})?[^:\n]*:", block)
            if not found:
                continue
            name, defines = found[3], bool(found[1] or found[2])
            if defines and "specs" in path.parts:
                yield "definitions", name, flat(block)
            elif not defines:
                lines, statement = block.split("\n"), []
                for line in lines:
                    if statement and re.match(rf"\s*(unfolding\b|{re.escape(name)}(\s|$))", line):
                        break
                    statement.append(line)
                yield "theorems", name, flat("\n".join(statement))


def items(root):
    found = {}
    for crate in sorted((root / "crates").iterdir()):
        if crate.is_dir():
            for kind, name, statement in list(rust_items(crate)) + list(antt_items(crate)):
                found.setdefault((kind, crate.name, name), []).append(statement)
    return found


def older(commit):
    folder = tempfile.mkdtemp()
    archive = subprocess.run(["git", "archive", commit, "crates"], cwd=ROOT, check=True, capture_output=True).stdout
    tarfile.open(fileobj=io.BytesIO(archive)).extractall(folder)
    return pathlib.Path(folder)


def in_specs(root):
    """The crate and the name of each theorem that stands in specs/, as they are spelled now."""
    named = set()
    for path in (root / "crates").glob("*/specs/**/*.antt"):
        crate = path.relative_to(root / "crates").parts[0]
        named |= {(crate, spelled(name)) for name in re.findall(r"^ *(?:pub )?([^\s:({=]+)(?: \{[^}]*\})? : ", path.read_text(), re.M) if name not in STEPS}
    return named


def spelled(name):
    """A name in one spelling, whichever kit it is of."""
    return re.sub(r"(?<=[a-z0-9])(?=[A-Z])", "-", name).replace("_", "-").lower()


def as_laws(found, stood=None):
    """The theorems of these names in these crates, or all, under a kind of their own."""
    return {("laws", crate, name): said for (kind, crate, name), said in found.items() if kind == "theorems" and (stood is None or (crate, spelled(name)) in stood)}


def main():
    old, new = items(older(sys.argv[1])), items(ROOT)
    if "laws" in sys.argv:
        stood = in_specs(older(sys.argv[1])) | in_specs(older((ROOT / "docs/PORT.md").read_text().split()[0]))
        old.update(as_laws(old, stood))
        new.update(as_laws(new))
    anywhere = {}
    for (kind, crate, name), statements in new.items():
        anywhere.setdefault((kind, name.split("::")[-1]), []).extend(statements)
    for kind in sys.argv[2:] or WORDS:
        print(f"### {kind.capitalize()}\n")
        for (k, crate, name), statements in sorted(old.items()):
            if k != kind:
                continue
            for statement in statements:
                beside = new.get((k, crate, name)) or anywhere.get((k, name.split("::")[-1]), [])
                if statement in beside or statement in anywhere.get((k, name.split("::")[-1]), []):
                    continue
                print(f"- `{crate}` {name}\n\n  ```text\n  - {statement}")
                for other in beside:
                    if other not in statements:
                        print(f"  + {other}")
                if not beside:
                    print("  + (gone)")
                print("  ```")
        print()


if __name__ == "__main__":
    main()
