"""Cases of drafts, each with the lengths of the buffers that are lent for it and what the papers say of it: for tools/reader_cases.py."""

import pathlib, subprocess, sys

from record_trees import LINE, WORDS

PARTNER = pathlib.Path(__file__).resolve().parent.parent / "rust/partner"

# Enough for every draft within the small limits: three words for each of 2,048 tokens, seven words for each of 2,049 records, one more than tokens in a file,
# and 41 bytes for each of them.
TOKENS, TREE, BYTES = 3 * 2048, 2049 * WORDS, 2049 * LINE
HEAD = "fn f()"


def body(text):
    """The text in braces after the head; `~` is the fat arrow."""
    return HEAD + "{" + text + "}"


def encoded(draft):
    """The bytes of a draft. In a text `~` is the fat arrow, and a byte that is no character's stands as `surrogateescape` has it: U+DC80 for 80."""
    return draft.replace("~", "=>").encode(errors="surrogateescape") if isinstance(draft, str) else draft


def escaped(bytes_):
    """Bytes as a text that `encoded` turns back."""
    return bytes_.decode(errors="surrogateescape")


# The first number that 64 bits do not hold.
OVER = 2 ** 64


class Cases:
    def __init__(self):
        # For each case: its part of the stream, and texts that its answer must hold, each from the start of a line.
        self.parts, self.said = [], []

    def add(self, draft, tokens=TOKENS, tree=TREE, out=BYTES, said=()):
        draft = encoded(draft)
        self.parts.append(b"%d %d %d %d\n%s\n" % (tokens, tree, out, len(draft), draft))
        self.said.append(said)

    def add_refused(self, number, draft, entries=("function", "file")):
        """A draft that is refused with that number, at the mark `^`, whether it is read as one function or as a file."""
        draft = encoded(draft)
        place = draft.index(b"^")
        self.add(draft.replace(b"^", b""), said=[f"{entry} refused {number} {place} zeros\n" for entry in entries])

    def add_array(self, draft, number):
        """A draft that is accepted, with an array type of that length over one record, whose place is from mark `^` to mark `^`. Its way up is not said."""
        before, inside, _ = draft.replace("~", "=>").split("^")
        start, end = len(before), len(before) + len(inside)
        record = f"0B {start:04X} {end:04X} {number % 2 ** 32:08X} {number >> 32:08X} 0002 "
        self.add(draft.replace("^", ""), said=["function accepted ", "file accepted ", record])

    def add_bodies(self, *texts, **buffers):
        for text in texts:
            self.add(body(text), **buffers)


def random_drafts(seed, count, kind, longest):
    """So many random drafts of a kind, without the long ones."""
    asked = [sys.executable, PARTNER / "drafts.py", str(seed), str(2 * count), kind]
    stream = subprocess.run(asked, check=True, capture_output=True).stdout
    while stream and count > 0:
        length, _, stream = stream.partition(b"\n")
        draft, stream = stream[:int(length)], stream[int(length):]
        if len(draft) <= longest:
            yield draft
            count -= 1
