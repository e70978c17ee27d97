#!/usr/bin/env python3
"""Runs every draft and every listing of docs/REFUSALS.md and compares what is said of it with what the document gives.

tools/refusals.py [LISTING [LOAD [COMMAND]]]; the first program lists the draft on its standard input, by default crates/listing/out/listing, the second, c/load.c,
loads a listing, by default target/load, and the third is `togmelic`, by default target/rust/release/togmelic.
A section `## N: title` has drafts, each a line `Draft:` with a code span or a `sh` block that writes it, and a `text` block with its line. ``Draft, with `--large`:``
stands for one that `togmelic list --large` lists.
`Call:` stands for a case of crates/reader_cases, which lends `read` and `read_file` their buffers. `Listing:`, or `Listing, with N words:`, has a `sh` block that writes a
listing, and a `text` block with what the second program says. `Smallest: N bytes` is the length of the next draft or listing.
"""
import re, subprocess, sys

from program import ROOT, finish, listing, loaded, program

DOCUMENT = ROOT / "docs/REFUSALS.md"
CASES = ROOT / "crates/reader_cases"
NUMBERS = {name: int(number) for name, number in re.findall(r"^    (\w+) = (\d+),$", (ROOT / "crates/text/src/refusal.rt").read_text(), re.M)}
ENTRY = re.compile(r"""^(?:
      Smallest:[ ](?P<bytes>[\d,]+)[ ]byte
    | Draft(?P<large>,[ ]with[ ]`--large`)?:(?:[ ]`(?P<span>[^`\n]+)`\n|\n\n```sh\n(?P<command>[^`]+)```\n)\n```text\n(?P<line>[^`]+)```$
    | Call:[ ]`(?P<entry>read|read_file)`[ ]with[ ](?:draft[ ]`(?P<lent>[^`\n]+)`|the[ ]empty[ ]draft),[ ]
      (?P<tokens>\d+)[ ]words[ ]for[ ]tokens,[ ](?P<tree>\d+)[ ]words[ ]for[ ]the[ ]tree\n\n
      ```text\nErr\(Refused[ ]{[ ]refusal:[ ](?P<refusal>\w+),[ ]place:[ ](?P<place>\d+)[ ]}\)\n```$
    | Listing(?:,[ ]with[ ](?P<words>\d+)[ ]words)?:\n\n```sh\n(?P<writer>[^`]+)```\n\n```text\n(?P<said>[^`]+)```$
    )""", re.M | re.X)


def sections():
    """The number and the text of each section."""
    parts = re.split(r"^## (?:(\d+): )?.*\n", DOCUMENT.read_text(encoding="ascii"), flags=re.M)
    return [(int(number), text) for number, text in zip(parts[1::2], parts[2::2]) if number]


def large_listing(draft):
    """The lines of a draft within the large limits; the status is 1, since it is refused."""
    command = program(3, "target/rust/release/togmelic")
    if not command.exists():
        sys.exit(f"refusals: failed: {command} is missing, which tools/build.sh builds")
    return subprocess.run([command, "list", "--large", "-"], input=draft, capture_output=True).stdout


def draft_fault(number, found, draft):
    """What is wrong with a draft and its line, if anything."""
    line = found["line"].encode()
    place = re.match(rb"00 ([0-9A-F]+) ", line)
    digits = 4 if place and int(place[1], 16) < 1 << 16 else 6
    if not re.fullmatch(rb"00 ([0-9A-F]{%d}) \1 %08X 00000000 %0*X %0*X\n" % (digits, number, digits, 1, digits, 0), line):
        return f"{line} is not a line of refusal {number}"
    answer = (large_listing if found["large"] else listing)(draft)
    return "" if answer == line else f"{draft[:60]} of {len(draft)} bytes: the program writes {answer[:72]}, the document has {line}"


def answers():
    """The answers to each case, by the entry, the words of its two buffers and its draft."""
    stream, found = (CASES / "stdin").read_bytes(), {}
    results = re.findall(rb"^function (.*)\nfile (.*)$", (CASES / "stdout").read_bytes(), re.M)
    for function, file in results:
        sizes, _, stream = stream.partition(b"\n")
        tokens, tree, _, length = map(int, sizes.split())
        found["read", tokens, tree, stream[:length]] = function
        found["read_file", tokens, tree, stream[:length]] = file
        stream = stream[length + 1:]
    if stream:
        sys.exit("refusals: failed: crates/reader_cases has more cases than answers")
    return found


def call_fault(number, found, draft, results):
    """What is wrong with a call of `read` or `read_file`, if anything."""
    given = NUMBERS.get(found["refusal"], 0)
    expected = b"refused %d %d zeros" % (given, int(found["place"]))
    if given != number:
        return f"the call has number {given}"
    answer = results.get((found["entry"], int(found["tokens"]), int(found["tree"]), draft), b"no such case")
    return "" if answer == expected else f"crates/reader_cases, {draft}: {answer}, the document has {expected}"


def listing_fault(number, found, lines):
    """What is wrong with a listing and what is said of it, if anything."""
    said = found["said"].encode()
    if not re.fullmatch(rb"refused with %d at line \d+\n" % number, said):
        return f"{said} is not what is said for refusal {number}"
    answer = loaded(lines, *[found["words"]] * (found["words"] is not None))
    return "" if answer == said else f"{lines[:72]} of {len(lines)} bytes: the program says {answer[:72]}, the document has {said}"


def draft_of(found):
    """The draft or listing that an entry shows, or that its command writes."""
    command = found["command"] or found["writer"]
    if command:
        return subprocess.run(["sh", "-c", command], cwd=ROOT, check=True, capture_output=True).stdout
    return (found["span"] or found["lent"] or "").encode()


def entry_fault(number, found, draft, results):
    """What is wrong with an entry, if anything."""
    if found["said"]:
        return listing_fault(number, found, draft)
    return draft_fault(number, found, draft) if found["line"] else call_fault(number, found, draft, results)


def section_faults(number, text, results):
    """How many drafts a section has, and what is wrong with them."""
    entries, length, faults = list(ENTRY.finditer(text)), None, []
    for found in entries:
        if found["bytes"]:
            length = int(found["bytes"].replace(",", ""))
            continue
        draft = draft_of(found)
        if length not in (None, len(draft)):
            faults.append(f"the draft has {len(draft)} bytes, not {length}")
        faults.append(entry_fault(number, found, draft, results))
        length = None
    # What the pattern does not know must not go unseen.
    sizes = sum(found["bytes"] is not None for found in entries)
    drafts = len(entries) - sizes
    if sizes == 0 or drafts == 0 or length is not None:
        faults.append("no draft, or none that is said to be the smallest")
    if sizes != text.count("Smallest:") or not drafts == len(re.findall("Draft:|Draft, with|Call:|Listing:|Listing, with", text)) == text.count("```text"):
        faults.append("a draft, its size or its line is not written as the others are")
    return drafts, [f"refusal {number}: {fault}" for fault in faults if fault]


def main():
    results, drafts, faults = answers(), 0, []
    found = sections()
    if [number for number, _ in found] != [*range(1, 20), 21]:
        faults.append(f"docs/REFUSALS.md has sections {[number for number, _ in found]}, not 1 to 19 and 21")
    for number, text in found:
        count, more = section_faults(number, text, results)
        drafts, faults = drafts + count, faults + more
    finish("refusals", f"{drafts} drafts and listings", faults)


if __name__ == "__main__":
    main()
