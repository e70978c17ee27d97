#!/usr/bin/env python3
# Writes crates/num_cases/stdout, what the program num_cases is to write: by the rules of document 01
# ("Lexemes", refusals 9 and 10) and of document 02 (order 2, refusal 19) with Python's own arithmetic, never from a run of the program.
# To use it: python3 tools/num_cases.py > crates/num_cases/stdout
LARGEST = 18_446_744_073_709_551_615


def part(draft, start, end):
    """The text from start to end; the empty text where that is out of range."""
    return "" if start > end or end > len(draft) else draft[start:end]


def value(run):
    """The number of a decimal run with `_` dropped, None if it is too large."""
    digits = run.replace("_", "").lstrip("0")
    if len(digits) > 20:
        return None
    n = int(digits or "0")
    return n if n <= LARGEST else None


def number(name, run):
    n = value(run)
    print("number", name, "->", "too large" if n is None else n)


def digits(name, token, room):
    """The digit text of a token in a buffer of that many bytes; a dot stands for a byte 0."""
    text = (token[2:] if token[:2] in ("0x", "0b") else token).replace("_", "")
    answer, text = (str(len(text)), text) if len(text) <= room else ("short", "")
    print("digits", name, "->", answer, "[" + text.ljust(room, ".") + "]")


def good(name, run, test):
    n = value(run)
    print(name, run, "->", "good" if n is not None and test(n) else "bad")


for run in ["0", "7", "007", "1000", "1_000_", "1__0_0___0", "0_0_1_", "", "0" * 30 + "42"]:
    number(run, run)
for n in [LARGEST - 1, LARGEST, LARGEST + 1, LARGEST + 4, LARGEST + 5]:
    number(str(n), str(n))
for run in ["00018_446_744_073_709_551_615_", "00018_446_744_073_709_551_616_", "9" * 20, str(10**20)]:
    number(run, run)
# One digit more where eight, ten or two times the digits before it come near the largest number, or pass it.
for n in [10 * 2**60, 18 * 10**18, LARGEST - 6, LARGEST - 5, 20 * 10**18, 10 * 2**61 - 1, 10 * 2**61, 10 * 2**63]:
    number(str(n), str(n))

number("9000 zeros", "0" * 9000)
number("8998 zeros, then 42", "0" * 8998 + "42")
number("1, 8997 zeros, then 42", "1" + "0" * 8997 + "42")
number("9000 nines", "9" * 9000)
number("5, 8998 underscores, then 3", "5" + "_" * 8998 + "3")

for token in ["1000", "1_000_", "0_0_7", "5", "5_", "", "0xAB_cd", "0x0_", "0x89_AB_CD_EF", "0b1__0_1", "0b0", "00b", "0_x1", "0", "1x2"]:
    for room in range(10):
        digits(f"{token} into {room}", token, room)

for start, end in [(0, 6), (1, 4), (6, 6), (4, 1), (0, 7), (7, 7), (LARGEST, 0), (0, LARGEST)]:
    number(f"12_345 from {start} to {end}", part("12_345", start, end))
for start, end in [(2, 7), (4, 7), (0, 8), (7, 2), (2, 9)]:
    digits(f"a=0xF_0; from {start} to {end}", part("a=0xF_0;", start, end), 4)

for run in ["0", "1", "2", "3", "4", "5", "6", "1_024_", "1_025"] + [str(n) for n in (2**63 - 1, 2**63, 2**63 + 1, 2**64 - 1, 2**64, 2**65)]:
    good("bound", run, lambda n: n in [2**k for k in range(1, 64)])
for run in ["0", "0_0", "1", "2", str(LARGEST), str(LARGEST + 1)]:
    good("size", run, lambda n: n != 0)
for run in ["0", "0_0", "1", str(LARGEST), "0018_446_744_073_709_551_615_", str(LARGEST + 1), "0018_446_744_073_709_551_616_", str(LARGEST + 5), str(10**20)]:
    good("length", run, lambda n: True)
