#!/usr/bin/env python3
"""Brings the repository's own names to the kit's spelling: words in snake case, modules in camel case. The names are the rows of tools/spelling.tsv.

    tools/spelling.py [FOLDER]    turns the repository at FOLDER (this one if none is given), in place

port.py of the kit turns the names of its library, and only some of a repository's own; this turns the rest, once. It goes by whole words: in definitions,
proofs and clauses (texts in quotes stay), in must-fail edits, in the code spans of comments and pages, and, where a word is written in camel case, anywhere in a
comment. A name that Rattle makes from code stays, as does a law's dash, which joins names (`recWords-append` is `rec_words-append`). A second run changes nothing.
"""
import pathlib
import re
import sys

HERE = pathlib.Path(__file__).resolve().parent
WORD = re.compile(r'[^\s(){}\[\].;,@"«»`|/:]+')
ANTT = re.compile(r'"(?:[^"\\\n]|\\.)*"|(?<![^\s(){}.;,@"«»])--[^\n]*')
RUST = re.compile(r'b?"(?:[^"\\]|\\.)*"|//[^\n]*')
PYTHON = re.compile(r'(?<!\w)#[^\n]*')
SPAN = re.compile(r"`[^`\n]+`")


def rows(kind):
    lines = (line.split("\t") for line in (HERE / "spelling.tsv").read_text(encoding="utf-8").splitlines() if not line.startswith("#"))
    return {old: new for found, old, new in lines if found == kind}


WORDS, MODULES = rows("word"), rows("module")
CAMEL = {old: new for old, new in WORDS.items() if re.search("[a-z0-9][A-Z]", old)}


def words(text, table=WORDS):
    return WORD.sub(lambda m: table.get(m[0], m[0]), text)


def comment(text):
    """Code spans are turned whole; outside them only words in camel case, since a dash also stands in plain words."""
    out, at = [], 0
    for span in SPAN.finditer(text):
        out += [words(text[at:span.start()], CAMEL), words(span[0])]
        at = span.end()
    return "".join(out) + words(text[at:], CAMEL)


def code(text, quiet):
    out, at = [], 0
    for found in quiet.finditer(text):
        out.append(words(text[at:found.start()]))
        out.append(comment(found[0]) if found[0].startswith(("--", "//")) else found[0])
        at = found.end()
    return "".join(out) + words(text[at:])


def edit(text):
    """Only the lines that are held against a file: the first says in plain words what the contract rules out."""
    out, quiet = [], ANTT
    for line in text.split("\n"):
        if line.startswith("file: "):
            quiet = RUST if line.endswith(".rt") else ANTT
        out.append(line[:4] + code(line[4:], quiet) if line.startswith(("old:", "new:")) else line)
    return "\n".join(out)


def page(text):
    return SPAN.sub(lambda m: words(m[0]), text)


def script(text):
    return re.sub(r"(?<![\w-])[a-z]\w*[A-Z]\w*(?![\w-])", lambda m: CAMEL.get(m[0], m[0]), text)


TURN = {".antt": lambda text: code(text, ANTT), ".rt": lambda text: code(text, RUST), ".edit": edit, ".md": page, ".py": script}


def modules(text):
    """The folders of specs/ in module paths and in the paths of files."""
    for old, new in MODULES.items():
        crate, part, name = old.split("/")
        text = text.replace(f"Rattle.{crate}.{part}.{name}.", f"Rattle.{crate}.{part}.{new}.").replace(f"{crate}/{part}/{name}/", f"{crate}/{part}/{new}/")
        text = text.replace(f"Rattle.{crate}.{part}.{name} ", f"Rattle.{crate}.{part}.{new} ")
    return text


def moved(root):
    """Gives each folder of MODULES, and the node file beside it, its new name; and turns the lines that name it within its crate."""
    for old, new in MODULES.items():
        crate, part, name = old.split("/")
        below = root / "crates" / crate
        for was in (below / part / name, below / part / f"{name}.antt"):
            if was.exists():
                was.rename(was.with_name(was.name.replace(name, new)))
        lib = below / part / "Lib.antt"
        if lib.exists():
            lib.write_text(re.sub(rf"(?m)^((?:pub )?mod ){name}$", rf"\g<1>{new}", lib.read_text(encoding="utf-8")), encoding="utf-8")
        for path in (below / "must-fail").glob("*.edit"):
            text = path.read_text(encoding="utf-8")
            path.write_text(text.replace(f"file: {part}/{name}/", f"file: {part}/{new}/"), encoding="utf-8")


def main():
    root = pathlib.Path(sys.argv[1]) if len(sys.argv) > 1 else HERE.parent
    found = [path for path in root.rglob("*") if path.suffix in TURN and path.is_file() and not {"out", ".git"} & set(path.parts)]
    for path in found:
        if path.name == "spelling.py" or path.name.startswith("PORT"):
            continue
        text = path.read_text(encoding="utf-8")
        turned = modules(TURN[path.suffix](text))
        if turned != text:
            path.write_text(turned, encoding="utf-8")
    moved(root)


if __name__ == "__main__":
    main()
