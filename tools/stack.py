#!/usr/bin/env python3
"""How much stack the listing program, togmelic_list, togmelic_list_large and togmelic_list_lean take for the drafts that nest deepest.

    tools/stack.py STACK [LISTING]    the programs: c/stack.c over the library, and the listing program, by default crates/listing/out/listing

What the program takes is found by bisection of the limit that it is started under, with no environment and with nothing moved at random: a multiple of a page.
What the entries take is counted by c/stack.c. The most that is seen is written, and must be within what README.md, c/togmelic.h and the wrapper state. Under the
limit that README.md asks for, the program must answer each draft as it should; under less it may end by a signal, and must then have written nothing.
"""
import ctypes
import re
import resource
import subprocess
import sys
from typing import NamedTuple

from program import ROOT, finish, program


class Limits(NamedTuple):
    """Tokens and bytes of a draft."""
    tokens: int
    bytes: int


SMALL, LARGE = Limits(2048, 16384), Limits(131072, 1048576)
# What may be open at once: 48 brackets, and eight `match` in a row before each.
BRACKETS, MATCHES = 48, 8
# Brackets of an expression, with what stands before them. What closes again within is read by deeper calls first.
OPENERS = ("{", "(", "[", "list![", "f(", "jet::a(", "assert!(", "Left(", "Some(", "A::B(", "{1;", "{let x:u8=", "f(1,", "<u8>::into(", "is_none::<u8>(",
           "unwrap_left::<u8>(", "fold::B(", "for_while::<g>(", "fold::<g,2>(", "array_fold::<g,2>(", "fold::<g,2>(1,")
ADDR_NO_RANDOMIZE = 0x0040000
WRAPPER = "rust/togmelic/src/lib.rs"
# A page, and the limits in KiB between which a program is started on the way to enough: the least under which there is room for its arguments, and too much.
PAGE, LOW, HIGH = 4, 16, 4096


def tokens(text):
    """How many tokens a text has that is made of what stands in this file."""
    return len(re.findall(r"\w+!?|::|=>|\S", text))


def line(kind, start, end, low, *rest):
    """The line with these numbers, or how it begins, in the digits that its end needs."""
    digits = 4 if end < 1 << 16 else 6
    return " ".join([f"{kind:02X}", f"{start:0{digits}X}", f"{end:0{digits}X}", f"{low:08X}", f"{0:08X}", *(f"{number:0{digits}X}" for number in rest)])


def refused(opener, limits):
    """Drafts that go on to the last bracket and close none, with the lines that they have: as short as can be, and with as many tokens and bytes as may be, for
    which the largest buffers are needed. Refused is the end, or the number behind an enum construction, the deepest that needs no bracket."""
    deep = "fn f(){" + ("match " * MATCHES + opener) * (BRACKETS - 1) + "match " * MATCHES + "A::B"
    full = (deep + " 1" * (limits.tokens - tokens(deep))).ljust(limits.bytes)
    return [(draft, line(0, place, place, 8, 1, 0)) for draft, place in ((deep, len(deep)), (full, len(deep) + 1))]


def accepted(opener, limits, inner="1", brackets=0):
    """A draft with as many brackets one in the other, as many in the innermost expression as are said, and round them as many `match` as its tokens allow, the
    innermost first but for one that has no bracket left for its arms; behind it a function with the tokens that are left. With it how its first line begins."""
    arms, text, levels = "{A::B=>1,}", opener + inner + ")", BRACKETS - 2 - brackets
    left = (limits.tokens - tokens("fn f(){}" + text) - levels * tokens(opener + ")")) // tokens("match" + arms)
    for _ in range(levels):
        count = min(MATCHES, left)
        left -= count
        text = "match " * count + opener + text + ")" + arms * count
    text = "fn f(){" + text + "}"
    rest = limits.tokens - tokens(text + "fn f(){}")
    return [((text + ("fn f(){" + "1;" * (rest // 2) + "}") * (rest > 0)).ljust(limits.bytes), line(41, 0, limits.bytes, 0))]


def turned():
    """A match whose arms are exchanged, each of so many records that they are exchanged where they stand, and how many brackets it has open."""
    arm = "[" + "1," * 40 + "]"
    return f"match x{{true=>{arm},false=>{arm},}}", 2


def drafts(limits):
    """All drafts within the limits, each with how its lines begin."""
    both = [refused(it, limits) for it in OPENERS] + [accepted(it, limits, *inner) for it in ("fold::<g,2>(", "fold::B(") for inner in ((), turned())]
    return [(draft.encode(), begin.encode()) for some in both for draft, begin in some]


def lines_under(draft, limit):
    """The lines of a draft by the listing program under a limit of so many KiB of stack; nothing where a signal ends it."""
    def prepare():
        ctypes.CDLL(None).personality(ADDR_NO_RANDOMIZE)
        resource.setrlimit(resource.RLIMIT_STACK, (limit * 1024, limit * 1024))

    ran = subprocess.run([program(2, "crates/listing/out/listing")], input=draft, capture_output=True, env={}, preexec_fn=prepare)
    if ran.returncode > 0 or ran.returncode < 0 and ran.stdout:
        sys.exit(f"stack: failed: under {limit} KiB the listing program ended with {ran.returncode} and had written {len(ran.stdout):,} bytes")
    return ran.stdout


def front(draft, begin):
    """The fault of a program that writes something else than all or nothing under some limit below enough."""
    whole = lines_under(draft, HIGH)
    tried = {limit: lines_under(draft, limit) for limit in range(LOW, of_program(draft, begin) + PAGE, PAGE)}
    wrong = [limit for limit, lines in tried.items() if lines not in (b"", whole)]
    return [f"under {wrong} KiB of stack the listing program writes neither all nor nothing"] * bool(wrong)


def of_program(draft, begin):
    """The least limit in KiB under which the program answers as it should."""
    fails, passes = LOW - PAGE, HIGH
    while passes - fails > 1:
        middle = (fails + passes) // 2
        fails, passes = (fails, middle) if lines_under(draft, middle).startswith(begin) else (middle, passes)
    return passes


def of_entry(draft, begin, *name):
    """The bytes of stack that togmelic_list takes, or the entry of that name; far too many where it does not answer as it should."""
    used, _, lines = subprocess.run([program(1, "target/stack"), *name], input=draft, check=True, capture_output=True).stdout.partition(b" ")
    return int(used) if lines.startswith(begin) else sys.maxsize


def text_of(file, before=""):
    """The text of a file without line ends and marks of comments; of a header the comment before a declaration."""
    text = (ROOT / file).read_text(encoding="utf-8")
    if before:
        text = text.partition(before)[0].rpartition("/*")[2]
    return " ".join(re.sub(r"\n( \*|//!)", "\n", text).split())


def stated(text, pattern):
    """A number that a text states, without its commas; 0 where it states none."""
    found = re.search(pattern, text)
    return int(found[1].replace(",", "")) if found else 0


def over(what, took, file, words, before=""):
    """The fault of a program that took more than a text states behind these words: "up to" so many bytes, or "less than" so many."""
    text = text_of(file, before)
    most = max(stated(text, rf"{words} up to ([\d,]+) bytes"), stated(text, rf"{words} less than ([\d,]+) bytes") - 1)
    return [f"{what} took {took:,} bytes of stack, and {file} states {max(most, 0):,}"] if took > most else []


def lent(file):
    """The fault of a text that asks for a thread with another stack than the one of c/stack.c, in which all was tried."""
    asked, tried = stated(text_of(file), r"its thread (\d+) MiB") << 20, 1 << stated(text_of("c/stack.c"), r"#define STACK \(1 << (\d+)\)")
    return [f"{file} asks for a thread with {asked:,} bytes of stack, and {tried:,} were tried"] * (asked != tried)


def main():
    tried, long = drafts(SMALL), drafts(LARGE)
    entry, least = max(of_entry(*it) for it in tried), max(of_program(*it) for it in tried) * 1024
    large, lean = (max(of_entry(*it, name) for it in tried + long) for name in ("large", "lean"))
    limit = stated(text_of("README.md"), r"`ulimit -s (\d+)`")
    faults = over("togmelic_list", entry, "c/togmelic.h", "A call takes", "size_t togmelic_list(")
    faults += over("togmelic_list", entry, WRAPPER, "the deepest drafts take")
    for name, took in (("togmelic_list_large", large), ("togmelic_list_lean", lean)):
        faults += over(name, took, "c/togmelic.h", "A call takes", f"size_t {name}(")
        faults += over(name, took, WRAPPER, "tokens and tree are not on the stack, and it takes")
    faults += over("the listing program", least, "README.md", "it needs") + lent("c/togmelic.h") + lent(WRAPPER)
    for it in ((b"", b"00 "), (b"fn f(){1}", b"29 "), tried[0], tried[-1]):
        faults += front(*it)
    failing = [draft for draft, begin in tried if not lines_under(draft, limit).startswith(begin)]
    faults += [f"no answer to {len(failing)} drafts under the limit that README.md states, {limit} KiB"] * bool(failing)
    took = f"togmelic_list took up to {entry:,} bytes, togmelic_list_large {large:,}, togmelic_list_lean {lean:,}, the listing program {least:,}"
    finish("stack", f"{took}, for {len(tried)} drafts, and the two with the large limits for {len(long)} more", faults)


if __name__ == "__main__":
    main()
