#!/usr/bin/env python3
"""Compares what the lexer takes as well-formed UTF-8 with Python's decoder, inside `//` and `/* */`: every string of at most two bytes, every string of
three telling bytes, and every two bytes that may begin a longer sequence with tails behind them.

tools/utf8.py [PROGRAM]; the program is crate lexer_cases, by default crates/lexer_cases/out/lexer_cases. The right answers are those of the lexer in
tools/paper_lexer.py, which asks the decoder.
"""
import itertools, subprocess

from lexer_cases import INPUT, Cases
from program import finish, program

# Bytes of marks and line ends, and both sides of each edge in RFC 3629's table.
TELLING = bytes.fromhex("00 0A 0D 2A 2F 41 7F 80 8F 90 9F A0 BF C0 C1 C2 DF E0 E1 EC ED EE EF F0 F1 F3 F4 F5 FF")
LONGER = range(0xE0, 256)  # the first byte of a sequence of three or four, or of none
TAILS = b"\x80", b"\xbf\xbf"
ROOM = 9  # words of the token buffer, for more tokens than these drafts have
SHOWN = 5  # differences


def strings():
    every = range(256)
    for alphabet, length in ((every, 0), (every, 1), (every, 2), (TELLING, 3)):
        yield from map(bytes, itertools.product(alphabet, repeat=length))
    for two in itertools.product(LONGER, every):
        yield from (bytes(two) + tails for tails in TAILS)


def all_cases():
    cases = Cases()
    for text in strings():
        cases.add(ROOM, b"//" + text)
        cases.add(ROOM, b"/*" + text + b"*/")
    return cases


def parts(lines):
    """The lines in as few parts as the program can read, each at once."""
    part, size = [], 0
    for line in lines:
        if size + len(line) + 1 > INPUT:
            yield part
            part, size = [], 0
        part.append(line)
        size += len(line) + 1
    yield part


def said(lines):
    """What the program writes for these cases."""
    asked = "".join(line + "\n" for line in lines)
    return subprocess.run([program(1, "crates/lexer_cases/out/lexer_cases")], input=asked, check=True, capture_output=True, text=True).stdout.splitlines()


def main():
    cases = all_cases()
    found = [answer for part in parts(cases.lines) for answer in said(part)]
    faults = [f"the lexer says {here}, and by Python's decoder it is {right}" for here, right in zip(found, cases.answers) if here != right]
    if len(found) != len(cases.answers):
        faults.insert(0, f"{len(found)} answers for {len(cases.answers)} drafts")
    finish("utf8", f"{len(cases.lines)} drafts, {len(faults)} differences", faults[:SHOWN])


if __name__ == "__main__":
    main()
