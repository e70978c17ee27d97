#!/usr/bin/env python3
"""Compares docs/LANGUAGE.md with the definitions, and runs its drafts.

tools/language.py [LISTING]; the program lists the draft on its standard input, by default crates/listing/out/listing.
- The rows below `| Draft | Answer | Why |`: `N at P`, a refusal and its place, or `accepted: ..` with the kinds of the last records of the tree. `\\n`,
  `\\r` and `\\xHH` in a draft are that byte.
- The block `tokens`, the table of words, and numbers and limits, beside Classes.antt, ClassTexts.antt and Limits.antt of lexer/specs, words/specs/Words.antt,
  num/specs/Value.antt and text/specs/Widths.antt.
- The block `ebnf`: each nonterminal is defined once and used, each terminal is a token or a set of names of Classes.antt, and the grammar goes on and ends as
  the table of grammar/specs/Shapes does.
- What the page points to is there, and its last table has every heading and order that the code cites.
"""
import re

from compare_grammar import GRAMMAR, TEXTS, Earley, Machine, class_of
from ebnf import Grammar
from program import ROOT, finish, listing

PAGE = (ROOT / "docs/LANGUAGE.md").read_text(encoding="ascii")
CLASS_TEXTS = (ROOT / "crates/lexer/specs/ClassTexts.antt").read_text(encoding="utf-8")
WORD_LISTS = (ROOT / "crates/words/specs/Words.antt").read_text(encoding="utf-8")
EXAMPLES = re.compile(r"^\| Draft \| Answer \| Why \|\n\|---\|---\|---\|\n((?:\|.*\n)+)", re.M)
EXAMPLE = re.compile(r"\| `([^`|]+)` \| (?:(?P<number>\d+) at (?P<place>\d+)|accepted: (?P<kinds>[\d ]+)) \| [^|]+ \|")
# The sets of names, by the list of Classes.antt; the kinds of tokens that stand in the grammar by their name are sets of texts too.
NAMES = {"name": "t.identifiers", "function-name": "t.function_names", "new-type": "t.alias_names"}
KINDS = "DecLiteral HexLiteral BinLiteral Bool Jet Witness Param".split()
# The definitions that name the numbers of the page, and the header of C, which has the bytes of a line in each form.
NUMBERS = ("crates/lexer/specs/Limits.antt", "crates/num/specs/Value.antt", "crates/text/specs/Widths.antt", "c/togmelic.h")
# So many symbols that the table has yet to read tell where reading is.
SYMBOLS = 5
# The rows of the table of words, by the list of Words.antt.
WORDS = {"keywords": "KEYWORDS", "reserved function names": "FUNCTION_RESERVED", "macros": "MACROS", "modules": "MODULE_RESERVED",
         "names in the grammar": "RULE_NAMES", "Boolean type": "BOOL", "unsigned types": "UINT_TYPES", "built-in types": "BUILTIN_ALIASES"}


def block(name):
    """The text of the one block of this language."""
    found = re.findall(rf"^```{name}\n(.*?)^```$", PAGE, re.M | re.S)
    return found[0] if len(found) == 1 else ""


# ---- drafts
def bytes_of(shown):
    """The draft that a span shows."""
    return re.sub(r"\\(n|r|x[0-9A-F]{2})", lambda m: {"n": "\n", "r": "\r"}.get(m[1]) or chr(int(m[1][1:], 16)), shown).encode("latin-1")


def draft_fault(row):
    """What is wrong with a row of a table of drafts, if anything."""
    found = EXAMPLE.fullmatch(row)
    if not found:
        return f"not written as a draft and its answer: {row}"
    lines = [line.split() for line in listing(bytes_of(found[1])).decode().splitlines()]
    kinds = [int(line[0], 16) for line in lines]
    if found["number"]:
        place = f"{int(found['place']):04X}"
        told = lines == [["00", place, place, f"{int(found['number']):08X}", "00000000", "0001", "0000"]]
    else:
        expected = [int(kind) for kind in found["kinds"].split()]
        told = kinds[-len(expected):] == expected
    return "" if told else f"{row}: the program says {' '.join(lines[0]) if kinds == [0] else kinds}"


def drafts():
    """How many drafts there are, and what is wrong with them."""
    tables = EXAMPLES.findall(PAGE)
    rows = "".join(tables).splitlines()
    faults = [draft_fault(row) for row in rows]
    if not tables or len(tables) != PAGE.count("| Draft"):
        faults.append("a table of drafts is not written as the others are")
    return len(rows), [fault for fault in faults if fault]


# ---- words and tokens
def samples():
    """The texts of ClassTexts.antt, each with the name of the kind of its token."""
    of_words = {"name": "Ident", "macro": "Macro", "boolean": "Bool"}
    found = re.findall(r'^    (?:∷ )?(kind|name|macro|boolean) t\.(\S+) "([^"]+)"$', CLASS_TEXTS, re.M)
    return {text: of_words.get(sort) or name.strip("«»") for sort, name, text in found}


def token_faults(texts):
    """What is wrong with the table of tokens: 1 to 36, each with the number of its name, and a text of that kind."""
    found = sorted(re.findall(r"(\d+) (\w+) (\S+)", block("tokens")), key=lambda token: int(token[0]))
    faults = [] if [int(number) for number, _, _ in found] == [*range(1, 37)] else ["the kinds of tokens are not 1 to 36, in this order"]
    for number, name, text in found:
        named = GRAMMAR.value("t.«Type»" if name == "Type" else f"t.{name}")
        if named != int(number) or (texts | {"simc": "Simc"}).get(text) != name:
            faults.append(f"token {number} {name} {text}")
    return faults


def word_faults():
    """What is wrong with the table of words: those of Words.antt, in their order."""
    shown = {}
    for row, cell in re.findall(r"^\| ([\w -]+?)(?:, first|, last)? \| ((?:`[\w!]+` ?)+) \|$", PAGE, re.M):
        shown[row] = shown.get(row, []) + re.findall(r"`([^`]+)`", cell)
    faults = [f"there are no words of the row {row}" for row in shown.keys() ^ WORDS.keys()]
    for row, name in WORDS.items():
        body = re.search(rf"^{name} =(.*(?:\n    .+)*)", WORD_LISTS, re.M)[1]
        if shown.get(row) != re.findall(r'"([^"]+)"', body):
            faults.append(f"the words of the row {row} are not those of {name}")
    return faults


def limit_faults():
    """What is wrong with the numbers of the page: those of the definitions, and what they make."""
    texts = "".join((ROOT / name).read_text(encoding="utf-8") for name in NUMBERS)
    given = {name: int(number) for name, number in re.findall(r"^(?:#define )?(\w+)(?: =)? (\d+)$", texts, re.M)}
    few, many = given["small_tokens"], given["large_tokens"]
    shown = [f"| {given['small_bytes']:,} | {given['large_bytes']:,} | 1 |", f"| {few:,} | {many:,}, and a third of", f"| {given['most_open']} | {given['most_open']} | 7 |",
             f"| {given['most_in_row']} | {given['most_in_row']} | 7 |", f"{given['TOGMELIC_LINE'] * (few + 1):,} bytes for a listing are enough",
             f"{given['tok_wide'] * many:,} words for tokens, {given['rec_wide'] * (many + 1):,} words for the tree and "
             f"{given['TOGMELIC_LONG_LINE'] * (many + 1):,} bytes for a listing are enough", f"{given['TOGMELIC_START_WORDS'] * many:,} words for starts",
             f"of {given['TOGMELIC_LINE']} bytes, or all of {given['TOGMELIC_LONG_LINE']} where",
             f"| 0 to {given['largest']:,}, the largest", f"| 1 to {given['largest']:,} | 10 |", f"from 2 to {(given['largest'] + 1) // 2:,} | 9 |"]
    page = " ".join(PAGE.split())
    return [f"the page does not show {text}" for text in shown if text not in page]


# ---- the grammar
def kind_faults():
    """What is wrong with the kinds of records in the grammar's comments: each once, but for names, 2, and the number in a call, 40, which are tokens."""
    comments = " ".join(re.findall(r"\(\*(.*?)\*\)", block("ebnf")))
    kinds = [kind for first, last in re.findall(r"(\d+)(?: to (\d+))?", comments) for kind in range(int(first), int(last or first) + 1)]
    known = range(1, GRAMMAR.value("kind.TypeItem") + 1)
    return [] if sorted(kinds + [2, 40]) == [*known] else ["the comments of the grammar have not each kind once"]


def grammar(texts):
    """The grammar of the page. What stands for a set of names is the first column of the table below the words."""
    shown = re.findall(r"^\| `([a-z-]+)` \| every name", PAGE, re.M)
    classes = {name: GRAMMAR.value(NAMES[name]) for name in shown if name in NAMES} | {kind: [GRAMMAR.value(f"t.{kind}")] for kind in KINDS}
    sets = {name: {text for text in TEXTS if class_of(text) in numbers or texts.get(text) == name} for name, numbers in classes.items()}
    return Grammar(block("ebnf"), sets)


def walked(start, found, own):
    """Reads by the grammar from its nonterminal and by the table of the definitions, wherever reading may come to, told by the next symbols of the table:
    which tokens may come there, and whether it may end. How many lists of tokens were read, and the first difference."""
    seen, lists, waiting = set(), 0, [([], Machine.at(start))]
    for before, machine in waiting:
        reading = Earley(own, found.rules, found.sets)
        ways = [machine.next(class_of(text)) for text in TEXTS]
        if not all(reading.push(text) for text in before) or reading.whole() != machine.whole():
            return lists, [f"the grammar does not end as the table does: {' '.join(before)}"]
        for text, way in zip(TEXTS, ways):
            reading.cut(len(before))
            lists += 1
            if reading.push(text) != (way is not None):
                return lists, [f"the grammar does not go on as the table does: {' '.join(before)} >>{text}<<"]
            if way and way.stack[:SYMBOLS] not in seen:
                seen.add(way.stack[:SYMBOLS])
                waiting.append((before + [text], way))
    return lists, []


# ---- what is pointed to
def pointed_fault(file, heading):
    """What is wrong with a file and one of its headings, if one is given."""
    path = ROOT / file
    text = path.read_text(encoding="utf-8") if path.is_file() else ""
    found = text and (not heading or re.search(rf"^##+ {re.escape(heading)}$", text, re.M))
    return "" if found else f"there is no {file}" + f', "{heading}"' * bool(heading)


def pointed(cell):
    """The files and headings that a cell points to; a heading is one of this page where no file is named before it."""
    for part in cell.split(";"):
        file = "docs/LANGUAGE.md"
        for named, heading in re.findall(r'((?:docs|crates)/[\w./-]*\w|README\.md|NOTICE)|"([^"]+)"', part):
            file = named or file
            yield file, heading


def cited():
    """The headings of document 01 and the orders of document 02 that the code cites."""
    headings, orders = set(), set()
    for pattern in ("crates/*/**/*.antt", "crates/*/**/*.rt", "c/*.[ch]", "rust/*/**/*.rs", "tools/*.py"):
        for path in ROOT.glob(pattern):
            text = re.sub(r"\s+(?:--|//[/!]?|\*|#)?\s*", " ", path.read_text(encoding="utf-8"))
            for quoted in re.findall(r'ocument 01(?: \w+ it)?, ((?:"[^"]+"(?:,? and |, )?)+)', text):
                headings |= {heading for heading in re.findall(r'"([^"]+)"', quoted) if heading[0].isupper()}
            for numbers in re.findall(r"\borders? ([1-9]\d*(?:(?:, | and |, and )\d+)*)", text):
                orders |= set(re.findall(r"\d+", numbers))
    return headings, orders


def pointing_faults():
    """What is wrong with what the page points to, and with its table of the two papers."""
    rows = re.findall(r"^\| (document 0[12],[^|]+) \| [^|]+ \| ([^|]+) \|$", PAGE, re.M)
    targets = re.findall(r'((?:docs/)?[A-Z]+\.md), "([^"]+)"', PAGE) + [target for _, cell in rows for target in pointed(cell)]
    faults = [fault for fault in (pointed_fault(*target) for target in targets) if fault]
    papers, (headings, orders) = " ".join(row for row, _ in rows), cited()
    faults += [f'the code cites document 01, "{heading}"' for heading in sorted(headings - set(re.findall(r'"([^"]+)"', papers)))]
    return faults + [f"the code cites document 02, order {order}" for order in sorted(orders - set(re.findall(r"order (\d+)", papers)))]


def main():
    texts, count_lists = samples(), 0
    count, faults = drafts()
    found = grammar(texts)
    faults += token_faults(texts) + word_faults() + limit_faults() + kind_faults() + found.wrong("file", set(texts)) + pointing_faults()
    if not faults:  # a grammar without an error in itself
        for start, own in (("File", "file"), ("Function", "function")):
            lists, more = walked(start, found, own)
            count_lists, faults = count_lists + lists, faults + more
    finish("language", f"{count} drafts, {len(found.named)} rules of a grammar, {count_lists} lists of tokens", faults)


if __name__ == "__main__":
    main()
