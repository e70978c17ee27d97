#!/usr/bin/env python3
"""Random drafts through `togmelic` and through the second reading of docs/COMMAND.md: what check, tree, tree --json and list write of each, to the byte.

tools/command_drafts.py [SEED [COUNT [PROGRAM [PARTNER]]]]    1, 60, target/rust/release/togmelic and target/rust/release/partner unless said

COUNT drafts of each kind of rust/partner/drafts.py, and as many again with blanks, line ends and bytes of all sorts strewn in; each by one call with --large
too. Some are grown beyond the smaller limits, and read by every call with --large and without.
"""
import random, subprocess, sys

import command_reading as reading
from program import ROOT, finish, program

SEED, COUNT = (int(word) for word in (sys.argv[1:3] + ["1", "60"][len(sys.argv[1:3]):]))
PROGRAM, PARTNER = program(3, "target/rust/release/togmelic"), program(4, "target/rust/release/partner")
KINDS = ["shaped", "damaged", "tokens", "files", "damaged-files", "comments"]
STREWN = [b"\n", b"\r\n", b"\t", b"    ", b"\r", b"\0", b"\x7f", b"/* \xce\xb1\xc5\xbc */", b"/*\xf0\x9f\x98\x80*/", b"/*\xe2\x80\xae*/", b"/*\xc2\x85*/",
          b"// \xe9\n", b" " * 90, b"\xff"]


def stream(kind):
    """The drafts of a stream, a decimal length and a line end before each."""
    left = subprocess.run([sys.executable, ROOT / "rust/partner/drafts.py", str(SEED), str(COUNT), kind], check=True, capture_output=True).stdout
    while left:
        length, _, left = left.partition(b"\n")
        yield left[:int(length)]
        left = left[int(length):]


def strewn(rng, draft):
    """The draft with a few pieces more, mostly blanks between words."""
    for _ in range(rng.randrange(6)):
        at = rng.choice([place for place, byte in enumerate(draft) if byte == 32] or [len(draft)])
        draft = draft[:at] + rng.choice(STREWN) + draft[at:]
    return draft


def grown(rng, draft):
    """The draft behind so many lines of one sort that it is beyond the smaller limits, and often beyond what four digits count."""
    line = rng.choice([b"// \xce\xb1\xc5\xbc\n", b"fn f(){a;}\n", b"type A=u8;\r\n", b"\n"])
    return rng.choice([16_000, 20_000, 66_000, 100_000]) // len(line) * line + draft


def wanted(draft, large):
    """What each call writes: standard output, standard error and status."""
    option = ("--large",) * large
    lines = subprocess.run([PARTNER, *option], input=draft, check=True, capture_output=True).stdout
    draft = draft[:reading.MOST_READ[large]]
    kind, place, _, number, *_ = (int(field, 16) for field in lines.splitlines()[0].split())
    told = "" if kind else reading.report("-", draft, number, place, large=large)
    tree = "".join(line + "\n" for line in reading.tree_lines(draft, reading.records(lines))) if kind else ""
    status = int(not kind)
    json = reading.json_line(b"-", draft, lines, large)
    answers = {("check",): (told, "", status), ("tree",): (tree, told, status), ("tree", "--json"): (json, "", status), ("list",): (lines.decode(), "", status)}
    return {call + option: answer for call, answer in answers.items()}


def draft_faults(draft, wanted):
    """What is wrong with the answers to a draft."""
    for call, expected in wanted.items():
        done = subprocess.run([PROGRAM, *call, "-"], input=draft, capture_output=True)
        found = done.stdout.decode("utf-8", "replace"), done.stderr.decode("utf-8", "replace"), done.returncode
        if found != expected:
            texts = [repr(text)[:4000] for text in (draft, expected, found)]
            yield "{} of {}:\n  expected {}\n  got      {}".format(" ".join(call), *texts)


def main():
    rng, faults, seen, accepted, calls = random.Random(SEED), [], 0, 0, 0
    for draft in (draft for kind in KINDS for draft in stream(kind)):
        drafts = [draft, strewn(rng, draft)]
        if rng.randrange(12) == 0:
            drafts.append(grown(rng, draft))
        for each in drafts:
            small, large = wanted(each, False), wanted(each, True)
            some = list(large) if len(each) > 16_000 else [rng.choice(list(large))]
            expected = small | {call: large[call] for call in some}
            faults += draft_faults(each, expected)
            seen, accepted, calls = seen + 1, accepted + (large["check", "--large"][2] == 0), calls + len(expected)
    finish("command_drafts", f"{seen} random drafts, {accepted} accepted with --large, {calls} calls", faults[:20])


if __name__ == "__main__":
    main()
