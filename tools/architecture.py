#!/usr/bin/env python3
"""Draws docs/architecture.svg from crates.txt, and writes the table of docs/ARCHITECTURE.md: which crate does what, and where its promise is stated.

    tools/architecture.py          writes both
    tools/architecture.py --check  writes nothing; exits with 1 where one of them is another

Which crate stands on which is read from crates.txt. An edge that follows from others is left out; each that stays has a way in WAYS. CRATES has the stage, the
place and the text of each crate, and the files of its promise. It fails where crates.txt and these tables differ, where CRATES has no promise
of a crate of README's table of promises, where a file that the page leads to is missing, where a text is too long for its box, boxes overlap, or a line
runs through a box.
"""
import os
import re
import sys
from typing import NamedTuple

from diagram import STYLE, Box, box_drawn, crossed, joints, line_drawn, markers, outline, way, written

ROOT = os.path.dirname(os.path.dirname(os.path.abspath(__file__)))
PAGE, PICTURE = os.path.join(ROOT, "docs", "ARCHITECTURE.md"), os.path.join(ROOT, "docs", "architecture.svg")
BEGIN, END = "<!-- promises: made by tools/architecture.py -->\n", "<!-- end -->\n"
WIDTH, HEIGHT = 900, 1322
PROVED = 140  # the line between what is proved and what is not

# The stages of the data, from the top of the picture downwards, and the columns: left edge and width.
STAGES = {"around": 56, "entries": 160, "reader": 232, "bytes": 312, "lexer": 372, "tokens": 522, "parse": 582, "records": 714, "up": 774, "ways": 870,
          "lines": 930, "listing": 1026, "load": 1086, "loaded": 1194}
COLUMNS = {"tests": (24, 117), "data": (190, 214), "below": (448, 186), "right": (676, 172), "program": (26, 198), "library": (244, 630), "reader": (158, 716),
           "first": (26, 194), "second": (244, 194), "third": (462, 194), "fourth": (680, 194), "flow": (214, 186), "meaning": (448, 186)}


class Crate(NamedTuple):
    """Where a crate is drawn: beside which stage, in which column, how far below the stage's top, how high. Its text. The files of its promise in src,
    specs and proofs, or `CRATE:FILE` for those of another."""
    stage: str
    column: str
    down: int
    height: int
    text: str
    contract: str = ""
    definitions: str = ""
    laws: str = ""


CRATES = {
    "listing": Crate("entries", "program", 0, 52, "the listing program: reads a draft, writes its lines", "main", "Within"),
    "togmelic": Crate("entries", "library", 0, 52,
                      "the library for C: togmelic_list, togmelic_list_large, togmelic_list_lean and togmelic_load, over those of reader", "lib",
                      "reader:Listed reader:Loading"),
    "reader": Crate("reader", "reader", 0, 60, "read, read_lean: a draft to tokens and records; list_draft, list_large, list_lean: to its listing;\n"
                    "load_listing: a listing to its records; all are put together from the steps", "lib entry loading",
                    "Read Listed Loading grammar:Answers/Promised grammar:Answers/Lean", "Laws LeanLaws Fits BothLimits Restored"),
    "utf8": Crate("lexer", "below", 0, 52, "the length of the UTF-8 sequence at a place", "lib", "Utf8 Octets", "Laws"),
    "words": Crate("lexer", "below", 60, 52, "which word of a table a part of a draft is", "lib", "Words", "Right"),
    "lexer": Crate("lexer", "data", 0, 126, "bytes to tokens within the limits, or refusal 1 to 7 or 21; which class each token has for the rules",
                   "lib scan found", "Lexemes Limits Starts Step Rows Class ClassLaw", "RowLaws FoundAgain"),
    "parse": Crate("parse", "data", 0, 108,
                   "tokens to records, or refusal 6, 8 to 15 or 19; by recursive descent: the next token decides, and nothing is tried twice",
                   "lib", "Entry Contract Infos"),
    "grammar": Crate("parse", "below", 28, 80, "what reading means: the shapes of drafts, their records and refusals, and the laws of the answer", "",
                     "Entry Shapes/Shapes Records/Records Records/Faults Answers/Outcome Answers/Promised Answers/Answer Answers/Lean Answers/Lines",
                     "Answers/Laws Answers/LeanLaws"),
    "theory": Crate("parse", "right", 56, 52, "any grammar: one tree for a list of tokens", "", "Theorems"),
    "turn": Crate("parse", "right", 0, 40, "exchanges two parts", "lib"),
    "own": Crate("up", "below", 7, 58, "record trees: their kinds, and who owns a token", "", "Law File Tree Kinds", "Rules FileLaws"),
    "up": Crate("up", "data", 0, 72, "gives each record its way up: how many records back its parent begins", "lib", "Ways Ups", "Parents"),
    "lines": Crate("lines", "data", 0, 72, "records to lines in a lent buffer, 41 or 49 bytes a record", "lib write", "Lines Form Written"),
    "kinds": Crate("lines", "below", 3, 66, "the table of kinds: what a record of a kind may own and hold", "lib", "Rules Decide Groups", "Laws"),
    "num": Crate("load", "below", 14, 66, "numbers of digit runs; bounds, sizes, lengths: with no multiply", "lib", "Value Digits Bound"),
    "load": Crate("load", "data", 0, 84, "lines to records, their ways up worked out, or refusal 16 to 18, with the first line that is bad", "lib",
                  "Promised Meant Function Form Listing/InForm Bare up:Ways", "Laws Restored Led"),
    "text": Crate("up", "right", 7, 58, "parts of a draft, buffers, numbers of refusals", "lib refusal", "Part Refusals Widths"),
    "num_speed": Crate("load", "right", 50, 40, "num, to be measured", "lib", "Said"),
    "cases": Crate("up", "tests", 3, 66, "the stream of cases that tests read", "lib", "Stream"),
    "reader_cases": Crate("reader", "tests", 0, 60, "the reader on chosen drafts"),
    "lexer_cases": Crate("lexer", "tests", 0, 58, "the lexer on chosen drafts"),
    "lexer_speed": Crate("lexer", "tests", 68, 58, "the lexer, to be measured"),
    "words_cases": Crate("lexer", "right", 60, 40, "words of chosen texts"),
    "num_cases": Crate("load", "right", 0, 40, "num on chosen runs"),
    "load_cases": Crate("load", "tests", 18, 66, "load on chosen listings"),
}
# The way of each edge: side of the first box and how far along it the line begins, where it turns, and where it ends.
WAYS = {
    ("listing", "reader"): "B150 T18", ("togmelic", "reader"): "B315 T401", ("reader", "parse"): "B10 L54", ("reader", "load"): "B10 L24",
    ("lexer", "utf8"): "R26 L26", ("lexer", "words"): "R86 L26", ("utf8", "text"): "R26 x874 R29", ("words", "text"): "R46 x874 R29",
    ("turn", "text"): "R20 x874 R29",
    ("parse", "turn"): "R14 L14", ("parse", "grammar"): "R70 L42", ("grammar", "theory"): "R54 L26", ("grammar", "lines"): "L66 x426 R25",
    ("grammar", "kinds"): "L66 x426 L22",
    ("theory", "text"): "B86 T86", ("own", "text"): "R29 L29", ("up", "own"): "R36 L29", ("lines", "up"): "T12 B12", ("load", "lines"): "T12 B12",
    ("load", "kinds"): "R24 x426 L52",
    ("kinds", "own"): "T93 B93", ("kinds", "num"): "B93 T93", ("kinds", "lexer"): "R22 x655 R120", ("num", "text"): "T160 y1046 x720 B44",
    ("reader_cases", "reader"): "R30 L30", ("lexer_cases", "lexer"): "R29 L29", ("lexer_speed", "lexer"): "R29 L97", ("load_cases", "load"): "R36 L54",
    ("words_cases", "words"): "L20 R20", ("num_cases", "num"): "L20 R6", ("num_speed", "num"): "L20 R56",
    ("reader_cases", "cases"): "L30 x13 L33", ("lexer_cases", "cases"): "L29 x13 L33", ("load_cases", "cases"): "T56 B56",
    ("lexer_speed", "cases"): "L29 x13 L33", ("words_cases", "cases"): "R20 x862 y515 x13 L33",
}
# What stands around the proved code, and calls it.
AROUND = {
    "the command togmelic": ("around", "first", "for people: check, tree and list (rust/command)"),
    "the wrapper": ("around", "second", "records and refusals as types, safe Rust (rust/togmelic)"),
    "the comparison": ("around", "third", "with the partner, an independent reader in Rust (rust/compare)"),
    "programs in C": ("around", "fourth", "over the header c/togmelic.h, such as c/load.c"),
}
CALLS = {("the command togmelic", "the wrapper"): "R33 L33", ("the comparison", "the wrapper"): "L33 R33",
         ("the wrapper", "togmelic"): "B97 T97", ("programs in C", "togmelic"): "B97 T533"}
# The data: what flows from crate to crate; `shapes` are in the definitions alone.
DATA = {
    "a draft": ("bytes", "flow", "bytes, within the limits"), "tokens": ("tokens", "flow", "kind, start and end"),
    "records": ("records", "flow", "the ways up are still 0"), "records with ways up": ("ways", "flow", "seven words each"),
    "a listing": ("listing", "flow", "lines, shown or kept"), "the same records": ("loaded", "flow", "without the draft"),
    "shapes": ("records", "meaning", "in the definitions alone"),
}
FLOW = ["a draft", "lexer", "tokens", "parse", "records", "up", "records with ways up", "lines", "a listing", "load", "the same records"]
MEANING = {("tokens", "grammar"): "R18 x520 T72", ("grammar", "shapes"): "B93 T93", ("shapes", "records"): "L18 R18"}
DATA_HEIGHT, AROUND_HEIGHT = 36, 66


def crates():
    """The crates of crates.txt, each with those of them that it stands on."""
    text = re.sub(r"#.*", "", open(os.path.join(ROOT, "crates.txt"), encoding="utf-8").read())
    rows = [line.split(":") for line in text.splitlines() if line.strip()]
    return {head.split()[0]: set(on.split()) for head, on in rows}


def direct(on):
    """The edges that do not follow from others."""
    def beneath(crate):
        return on[crate].union(*(beneath(other) for other in on[crate]))
    return {(crate, other) for crate in on for other in on[crate] if not any(other in beneath(between) for between in on[crate])}


def form(crate):
    """What a crate is, by its name and its code: the crates of definitions alone have one function that does nothing."""
    if re.search("^cases$|_cases$|_speed$", crate):
        return "tests"
    folder = os.path.join(ROOT, "crates", crate, "src")
    code = "".join(open(os.path.join(folder, name), encoding="utf-8").read() for name in sorted(os.listdir(folder)) if name.endswith(".rt"))
    return "definitions" if re.findall(r"fn \w+", code) == ["fn nothing"] else "code"


def placed(name, kind, text, stage, column, height, down=0):
    x, width = COLUMNS[column]
    return Box(name, kind, text, x, STAGES[stage] + down, width, height)


def boxes():
    made = [placed(name, form(name), at.text, at.stage, at.column, at.height, at.down) for name, at in CRATES.items()]
    made += [placed(name, "around", text, stage, column, AROUND_HEIGHT) for name, (stage, column, text) in AROUND.items()]
    made += [placed(name, "meant" if name == "shapes" else "data", text, stage, column, DATA_HEIGHT) for name, (stage, column, text) in DATA.items()]
    return {box.name: box for box in made}


def flow(drawn):
    for ends in zip(FLOW, FLOW[1:]):
        above, below = (drawn[name] for name in ends)
        x = COLUMNS["flow"][0] + COLUMNS["flow"][1] // 2
        yield ends, [(x, above.y + above.h), (x, below.y)]


# --- the picture

# What the forms and the lines mean, the lines with the places where the key has them.
FORMS = (("code", "code, proved"), ("definitions", "definitions alone"), ("tests", "tests, measuring"), ("around", "plain code around it"), ("data", "data"))
LINES = (("flow", 26, "data flows"), ("meaning", 142, "as the definitions have it"),
         ("on", 354, "stands on (crates.txt; what follows from other lines is left out)"), ("calls", 770, "calls"))
# What the picture shows, for who cannot see it.
TOLD = """Data flows from top to bottom: a draft's bytes go through the lexer to tokens, through parse to records, through up to records with their ways up,
through lines to a listing, and through load from a listing back to the same records. Beside each step stand the crates that it stands on and the programs that
test it; above them the reader, the library and the listing program, and above these the plain code that calls them. In the definitions, crate grammar, tokens
become records by way of shapes."""


def key_drawn():
    """What the forms and the lines mean."""
    top = HEIGHT - 74
    yield f'<path d="M26 {top - 8}H874" stroke="#c3c9d0"/>'
    for i, (kind, words) in enumerate(FORMS):
        yield outline(Box("", kind, "", 26 + 172 * i, top + 6, 30, 18))
        yield written(words, 64 + 172 * i, top + 19)
    for kind, x, words in LINES:
        yield line_drawn(kind, [(x, top + 48), (x + 36, top + 48)])
        yield written(words, x + 44, top + 52)


def picture(drawn, lines):
    yield f'<svg xmlns="http://www.w3.org/2000/svg" viewBox="0 0 {WIDTH} {HEIGHT}" width="{WIDTH}" height="{HEIGHT}" role="img" aria-labelledby="title desc">'
    yield "<!-- Made by tools/architecture.py from crates.txt. -->"
    yield f'<title id="title">The crates of Togmelic, and how data flows through them</title><desc id="desc">{TOLD}</desc>'
    yield f"<defs>{markers()}</defs><style>{STYLE}</style>"
    yield f'<rect width="{WIDTH}" height="{HEIGHT}" rx="10" fill="#fff"/>'
    yield written("How a draft becomes records and a listing, and how a listing comes back", 26, 34, ' class="title"')
    yield f'<rect x="182" y="{STAGES["bytes"] - 8}" width="230" height="{STAGES["loaded"] + DATA_HEIGHT + 16 - STAGES["bytes"]}" rx="10" fill="#fff8e8"/>'
    yield f'<path d="M26 {PROVED}H874" stroke="#c3c9d0"/>'
    yield written("above: plain code, not proved", 26, PROVED - 4, ' class="soft"') + written("below: proved", 26, PROVED + 14, ' class="soft"')
    yield from (line_drawn(kind, points) for kind, points in lines)
    yield from (f'<circle cx="{x}" cy="{y}" r="2.8" fill="#68727e"/>' for x, y in joints([line for line in lines if line[0] == "on"]))
    for box in drawn.values():
        yield from box_drawn(box)
    yield from key_drawn()
    yield "</svg>"


# --- the page

def links(crate, folder, names, ending):
    for name in names.split():
        of, file = name.split(":") if ":" in name else (crate, name)
        yield f"[{file if of == crate else f'{of}: {file}'}](../crates/{of}/{folder}/{file}.{ending})"


def table():
    yield "| Crate | What it is for | Contracts | Definitions | Laws |"
    yield "|---|---|---|---|---|"
    for name, crate in CRATES.items():
        folders = (("src", crate.contract, "rt"), ("specs", crate.definitions, "antt"), ("proofs", crate.laws, "antt"))
        files = [", ".join(links(name, *folder)) for folder in folders]
        if any(files):
            yield f"| `{name}` | {' '.join(crate.text.split())} | " + " | ".join(files) + " |"


def page():
    text = open(PAGE, encoding="utf-8").read()
    before, _, rest = text.partition(BEGIN)
    _, _, after = rest.partition(END)
    return before + BEGIN + "\n".join(table()) + "\n" + END + after


def promised():
    """The crates of README's table of promises."""
    readme = open(os.path.join(ROOT, "README.md"), encoding="utf-8").read()
    part = readme.partition("\n## What is promised, and where\n")[2].partition("\n## ")[0]
    return {name for cell in re.findall(r"^\| ((?:`\w+`(?:, )?)+) \|", part, re.M) for name in re.findall(r"`(\w+)`", cell)}


def unlike(what, one, other):
    for name in sorted(one ^ other):
        yield f"{what}: {name if isinstance(name, str) else ' to '.join(name)} is {'left out' if name in one else 'too much'}"


def faults(drawn, lines, text):
    listed = list(drawn.values())
    for i, box in enumerate(listed):
        yield from box.faults()
        yield from (f"{box.name} and {other.name} overlap" for other in listed[:i] if box.meets(other.x, other.y, other.x + other.w, other.y + other.h))
    for ends, points in lines:
        yield from crossed(drawn, ends, points)
    for target in re.findall(r"\]\(([^)#]+)[^)]*\)", text):
        if not os.path.exists(os.path.join(ROOT, "docs", target)):
            yield f"docs/ARCHITECTURE.md leads to {target}, which is not there"
    have = {name for name, crate in CRATES.items() if crate.contract or crate.definitions}
    yield from (f"README.md has a promise of {name}, of which CRATES names no file" for name in sorted(promised() - have))
    if not promised():
        yield "README.md has no table of promises"
    if BEGIN not in open(PAGE, encoding="utf-8").read():
        yield "docs/ARCHITECTURE.md has no place for the table"


def main():
    on = crates()
    wrong = [*unlike("CRATES", set(on), set(CRATES)),
             *(f"crates.txt: {crate} stands on {other}, which is no crate" for crate in on for other in sorted(on[crate] - set(on)))]
    wrong = wrong or list(unlike("WAYS", direct(on), set(WAYS)))
    if wrong:
        sys.exit("\n".join(wrong))
    drawn = boxes()
    lines = [(kind, ends, way(drawn, ends, said)) for kind, ways in (("on", WAYS), ("calls", CALLS), ("meaning", MEANING)) for ends, said in ways.items()]
    lines += [("flow", *ends) for ends in flow(drawn)]
    new = {PICTURE: "\n".join(picture(drawn, [(kind, points) for kind, _, points in lines])) + "\n", PAGE: page()}
    if "--check" in sys.argv[1:]:
        wrong = [f"{os.path.relpath(path, ROOT)} is not what tools/architecture.py writes" for path, text in new.items()
                 if not os.path.exists(path) or open(path, encoding="utf-8").read() != text]
    else:
        for path, text in new.items():
            open(path, "w", encoding="utf-8").write(text)
    wrong += faults(drawn, [(ends, points) for _, ends, points in lines], new[PAGE])
    if wrong:
        sys.exit("\n".join(wrong))


if __name__ == "__main__":
    main()
