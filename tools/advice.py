#!/usr/bin/env python3
"""Writes rust/command/src/advice.rs, what the program `togmelic` says to do about each refusal of a draft: of each section of docs/REFUSALS.md the first sentence
of the first paragraph that begins with `Do: `, without its full stop; and of 8 that of the paragraph on a draft that ends too soon.

    tools/advice.py            write the file
    tools/advice.py --check    exit 1 if the file is not what would be written
"""
import pathlib, re, sys

ROOT = pathlib.Path(__file__).resolve().parent.parent
PAGE, WRITTEN = ROOT / "docs/REFUSALS.md", ROOT / "rust/command/src/advice.rs"
# The refusals of drafts; 16 to 18 are about listings, and 20 is not given.
NUMBERS = [*range(1, 16), 19, 21]
# What a line of a terminal shows, and words that lead elsewhere.
MOST, ELSEWHERE = 110, re.compile(r"\(see|see \d|below|these:|:$")

# How the two paragraphs begin.
DO, AT_THE_END = "Do: ", "Do, where the place is the draft's length: "

HEAD = """//! What to do about each refusal of a draft, in one sentence. Made by tools/advice.py from docs/REFUSALS.md.

/// What to do about refusal 8 where the draft ends too soon.
#[rustfmt::skip]
pub(crate) const AT_THE_END: &str = "%s";

/// What to do about a refusal; nothing where no draft is refused by that number.
#[rustfmt::skip]
pub(crate) fn advice(number: u32) -> &'static str {
    match number {
"""
TAIL = """        _ => "",
    }
}
"""


def sections():
    """The text of each numbered section, by its number."""
    parts = re.split(r"^## (?:(\d+): )?.*\n", PAGE.read_text(encoding="ascii"), flags=re.M)
    return {int(number): text for number, text in zip(parts[1::2], parts[2::2]) if number}


def sentence(text, begin=DO):
    """The first sentence of what a section says to do, on one line."""
    paragraph = re.search(rf"^{begin}(.*?)(?:\n\n|\Z)", text, re.M | re.S)
    if not paragraph:
        return ""
    line = " ".join(paragraph[1].split())
    # A full stop within a code span, or within a word, ends nothing.
    end = re.match(r"(?:`[^`]*`|[^`.]|\.(?! |$))*", line)
    return end[0]


def faults(number, said):
    """What keeps a sentence from helping by itself on one line."""
    if not said:
        yield f"refusal {number} has no paragraph that begins with `Do: `"
    if len(said) > MOST:
        yield f"refusal {number}: {len(said)} characters are over {MOST}: {said}"
    if ELSEWHERE.search(said):
        yield f"refusal {number}: the sentence leads elsewhere: {said}"


def main():
    found = sections()
    said = {number: sentence(found.get(number, "")) for number in NUMBERS} | {"8, at the end": sentence(found.get(8, ""), AT_THE_END)}
    wrong = [fault for number, text in said.items() for fault in faults(number, text)]
    if wrong:
        sys.exit("\n".join(f"advice: failed: {fault}" for fault in wrong))
    escaped = {number: text.replace("\\", "\\\\").replace('"', '\\"') for number, text in said.items()}
    written = HEAD % escaped.pop("8, at the end") + "".join(f'        {number} => "{text}",\n' for number, text in escaped.items()) + TAIL
    if "--check" in sys.argv[1:]:
        if not WRITTEN.exists() or WRITTEN.read_text(encoding="ascii") != written:
            sys.exit(f"{WRITTEN} is not what tools/advice.py writes")
    else:
        WRITTEN.write_text(written, encoding="ascii")


if __name__ == "__main__":
    main()
