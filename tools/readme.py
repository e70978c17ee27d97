#!/usr/bin/env python3
"""Sees that README.md shows the four good examples, the listings of three of them and of the broken one as the program writes them, and what is loaded of a
listing; with the command, that README.md and docs/COMMAND.md show what it writes.

tools/readme.py [LISTING [LOAD]]; the first program lists the draft on its standard input, by default crates/listing/out/listing, the second, c/load.c, loads a
listing, by default target/load.
tools/readme.py --command TOGMELIC EXAMPLE..; the command, and the wrapper's examples, each the program of a file of rust/togmelic/examples.
"""
import re
import subprocess
import sys
from pathlib import Path

from program import ROOT, finish, listing, loaded


def indented(text):
    """The text as a code block of the document."""
    return "".join("    " + line if line.strip() else line for line in text.splitlines(keepends=True))


def said(*words, stdin=None):
    """What a program writes to its standard output."""
    return subprocess.run(words, cwd=ROOT, input=stdin, stdout=subprocess.PIPE).stdout.decode()


def behind(page, words):
    """The first code block of the page behind these words, without its four spaces."""
    block = re.search(r"\n((?:    .*\n|\n(?=    ))+)", page[page.index(words) + len(words):])
    return re.sub(r"^    ", "", block[1], flags=re.M)


def example(readme, program):
    """An example of the wrapper and what it writes, as the page should show them."""
    name = Path(program).name
    text = (ROOT / f"rust/togmelic/examples/{name}.rs").read_text().split("\n\n", 1)[1]
    return [("README.md", readme, f"the wrapper's example {name}", text), ("README.md", readme, f"what that writes, {name}", said(program))]


def command(togmelic, *examples):
    """What the command and the wrapper's examples write, and where that should be shown."""
    readme, page = ((ROOT / name).read_text(encoding="utf-8") for name in ("README.md", "docs/COMMAND.md"))
    broken, draft = said(togmelic, "check", "examples/broken.simf"), behind(page, "The tree of\n")
    shown = [("README.md", readme, "examples/broken.simf", broken),
             ("README.md", readme, "examples/polish.simf", said(togmelic, "tree", "examples/polish.simf")),
             ("README.md", readme, "the front of a large listing", said("bash", "-c", behind(readme, "## A large draft").replace("target/rust/release/togmelic", togmelic))),
             ("docs/COMMAND.md", page, "examples/broken.simf", broken),
             ("docs/COMMAND.md", page, "the tree of its draft", said(togmelic, "tree", "-", stdin=draft.encode()))]
    shown += [it for program in examples for it in example(readme, program)]
    missing = [f"{name} does not show {what}" for name, text, what, lines in shown if not lines or indented(lines) not in text]
    finish("readme", f"{len(shown) - len(missing)} texts of the command", missing)


def listings():
    readme = (ROOT / "README.md").read_text(encoding="utf-8")
    good = ("escrow", "file", "greek", "polish")
    shown = {f"examples/{name}.simf": (ROOT / f"examples/{name}.simf").read_text(encoding="utf-8") for name in good}
    for name in ("escrow", "file", "greek", "broken"):
        shown[f"the listing of examples/{name}.simf"] = listing((ROOT / f"examples/{name}.simf").read_bytes()).decode()
    # The draft that is kept, and how many bytes of it are loaded then.
    draft, length = re.search(r"printf '([^']+)' \| crates/listing/out/listing > target/kept", readme), re.search(r"head -c (\d+) target/kept", readme)
    kept = listing(draft[1].encode()) if draft and length else b""
    shown["what is loaded of the listing that is kept"] = loaded(kept).decode()
    shown["the refusal of a part of it"] = loaded(kept[:int(length[1])]).decode() if kept else ""
    missing = [name for name, text in shown.items() if not text or indented(text) not in readme]
    finish("readme", f"{len(shown) - len(missing)} texts", [f"README.md does not show {name}" for name in missing])


if __name__ == "__main__":
    command(*sys.argv[2:]) if sys.argv[1:2] == ["--command"] else listings()
