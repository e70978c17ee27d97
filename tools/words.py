#!/usr/bin/env python3
"""Writes the constants of crate words (src/layout.rt; the same lists for its proofs, proofs/Constants.antt) and their description
(specs/Layout.antt) from the lists of specs/Words.antt.

Nothing here needs trust: the crate's proofs compute each rule of the constants against those lists.
    tools/words.py            write the files
    tools/words.py --check    exit 1 if a file is not what would be written
A word is looked up by one candidate: its length, and its first, second and last byte where they are needed, give a slot of its table, which names the only
word that it can be. Of the ways to tell a table's words apart, that one is taken which reads the fewest bytes and multiplies least.
"""
import itertools, pathlib, re, sys

from formatted import formatted

root = pathlib.Path(__file__).resolve().parent.parent / "crates/words"


def lists(text):
    """The lists of words of specs/Words.antt by name, and the order of the tables."""
    found = {}
    for name, body in re.findall(r"^(\w+) =(.*(?:\n    .+)*)", text, re.M):
        words = []
        for quoted, ref in re.findall(r'"([^"]+)"|(?<![\w"])([A-Z]\w+)(?![\w"])', body):
            words += [quoted] if quoted else found.get(ref, [])
        if words:
            found[name] = words
    tables = re.findall(r"^words_of (\w+) = (\w+)", text, re.M)
    return found, tables


def slot(word, m):
    b = word.encode()
    return len(b) + m[0] * b[0] + m[1] * b[1] + m[2] * b[-1]


# So many slots each table has. One of 64 or fewer the compiler would turn into a mask of bits, which takes more instructions than the table.
SLOTS = 256

# A byte times one of these takes no multiplication.
SHIFTS = (0, 1, 2, 4, 8)


def hashing(table):
    """The multipliers of the first, the second and the last byte with which no two words share a slot."""
    for read in range(4):  # so many bytes, the last of a word only where the first two do not do
        for multiplied in range(read + 1):
            each = [range(1, 64) if i < read else (0,) for i in range(3)]
            for m in itertools.product(*each):
                if sum(x not in SHIFTS for x in m) == multiplied and len({slot(w, m) % SLOTS for w in table}) == len(table):
                    return m
    sys.exit("no slots tell the words apart")


def main():
    found, order = lists((root / "specs/Words.antt").read_text())
    tables = [found[name] for _, name in order]
    entries, bases = [], []
    for t in sorted(tables, key=len, reverse=True):  # a table that lies in a longer one takes no entries of its own
        if not any(entries[i:i + len(t)] == t for i in range(len(entries))):
            entries += t
    for t in tables:
        bases.append(next(i for i in range(len(entries)) if entries[i:i + len(t)] == t))
    letters, starts = "", []
    for w in sorted(entries, key=len, reverse=True):
        letters += "" if w in letters else w
    starts = [letters.index(w) for w in entries]
    names = [name for _, name in order]
    hashes = [hashing(t) for t in tables]
    slots = []
    for t, m in zip(tables, hashes):
        row = [255] * SLOTS
        for k, w in enumerate(t):
            row[slot(w, m) % SLOTS] = k
        slots.append(row)
    lengths = [len(w) for w in entries]
    longest = [max(map(len, t)) for t in tables]

    def bytes_of(values):
        return '*b"\\\n    ' + "\\\n    ".join("".join(f"\\x{v:02x}" for v in values[i:i + 32]) for i in range(0, len(values), 32)) + '"'

    code = "// The words in one constant byte string, where each lies, and how those of each table are found. Made by tools/words.py from the lists of specs/Words.antt.\n"
    code += "use crate::lookup::Words;\n\n"
    code += "// How many entries, letters and slots there are, and how many bytes the shortest word has.\n"
    for name, value in (("ENTRIES", len(entries)), ("LETTERS", len(letters)), ("SLOTS", SLOTS), ("FEWEST", min(lengths))):
        code += f"pub(crate) const {name}: usize = {value};\n\n"
    code += f'pub(crate) static BYTES: [u8; LETTERS] =\n    *b"{letters}";\n\n'
    places = ", ".join(map(str, zip(starts, lengths)))
    code += f"// Where each entry starts in BYTES, and its length.\npub(crate) static PLACES: [(u16, u8); ENTRIES] = [{places}];\n"
    for name, base, t, longest_, m, row in zip(names, bases, tables, longest, hashes, slots):
        code += f"\npub(crate) static {name}: Words = Words {{\n    first: {base},\n    count: {len(t)},\n    longest: {longest_},\n    multipliers: [{', '.join(map(str, m))}],\n"
        code += f"    slots: {bytes_of(row)},\n}};\n"

    lists_of_entries, at = [], 0
    while at < len(entries):
        t, n = max(((tables[i], names[i]) for i in range(len(tables)) if bases[i] == at), key=lambda x: len(x[0]))
        lists_of_entries.append(n)
        at += len(t)
    spec = f"""-- How the words of Words.antt lie in the constants of the crate. Only the crate's own proofs need it. Made by tools/words.py.
-- Assumes nothing.
use Rattle.std.specs.Prelude.{{List, ◌++◌, ℕ, ◌+◌, ◌*◌, ◌-◌, ◌%◌, length, get_or}}
use Rattle.text.specs.Ascii.{{ascii}}
use Rattle.words.specs.Words.{{{", ".join(lists_of_entries)}}}

-- the entries: every word of every table, a table within another once
unfoldable pub entries : List (List ℕ)
entries = {" ++ ".join(lists_of_entries)}

-- the bytes that hold every entry
unfoldable pub letters : List ℕ
letters = ascii "{letters}"

-- the slot of a word, by the multipliers of its first, second and last byte
unfoldable pub slot_of : List ℕ → List ℕ → ℕ
slot_of m w = (length w + get_or m 0 0 * get_or w 0 0 + get_or m 1 0 * get_or w 1 0 + get_or m 2 0 * get_or w (length w - 1) 0) % {SLOTS}
"""
    pairs = [f"({start}, {size})" for start, size in zip(starts, lengths)]
    rows = " ∷\n    ".join(" ∷ ".join(pairs[i:i + 16]) for i in range(0, len(pairs), 16))
    lists_ = f"""-- Where the entries lie, by src/layout.rt, as a list. Made by tools/words.py.
-- Assumes nothing.
use Rattle.std.specs.Prelude.{{List, [], ◌∷◌, ℕ}}

-- where each entry starts among the letters, and its length
unfoldable pub places : List (ℕ × ℕ)
places =
    {rows} ∷ []
"""
    status = 0
    made = formatted({f"crates/words/{path}": text for path, text in (("proofs/Constants.antt", lists_), ("src/layout.rt", code), ("specs/Layout.antt", spec))})
    for path, text in made.items():
        path = root.parent.parent / path
        if "--check" in sys.argv:
            if not path.exists() or path.read_text() != text:
                print(f"{path.name} is not what tools/words.py writes")
                status = 1
        else:
            path.write_text(text)
    print(f"{len(entries)} entries, {len(letters)} letters, multipliers {hashes}, lengths {min(lengths)} to {max(lengths)}")
    sys.exit(status)


main()
