#!/usr/bin/env python3
"""Writes what `togmelic tree` answers in the cases of rust/command/tests/golden whose trees are long, and reads all others a second time.

tools/command_cases.py [--check] [PARTNER]

Each case is evaluated by tools/command_reading.py, from docs/COMMAND.md alone: the program is not run. The listing of a draft comes from the partner, an
independent reader (target/rust/release/partner unless said), and the helps from docs/REFUSALS.md. The `stdout` of the cases in WRITTEN is written, or with
--check compared; all others are written by hand, and are always compared, but for those of wrong calls, and the messages of the system about a file that cannot
be read.
How a case is laid out stands in rust/command/tests/golden.rs.
"""
import pathlib, re, subprocess, sys

import command_reading as reading
from program import ROOT, finish

CASES = ROOT / "rust/command/tests/golden"
WRITTEN = ["tree-escrow", "tree-file", "tree-greek", "json-file", "json-every-kind"]
ARGUMENTS = [argument for argument in sys.argv[1:] if argument != "--check"]
PARTNER = pathlib.Path(ARGUMENTS[0] if ARGUMENTS else ROOT / "target/rust/release/partner").resolve()


def unescaped(text):
    """The bytes that a text of `args` or `setup` stands for."""
    letters = {b"n": b"\n", b"r": b"\r", b"t": b"\t", b"\\": b"\\"}
    return re.sub(rb"\\(?:x(..)|(.))", lambda found: bytes.fromhex(found[1].decode()) if found[1] else letters[found[2]], text)


class Case:
    """A folder's arguments, and the files that its program sees, by their names."""
    def __init__(self, folder):
        self.name = folder.name
        kept = {path.name: path.read_bytes() for path in folder.iterdir()}
        self.args = [unescaped(line) for line in kept.pop("args").splitlines()]
        self.expected = [kept.pop(file, None) for file in ("stdout", "stderr", "status")]
        self.files = {name.encode(): content for name, content in kept.items()} | {b"/dev/zero": bytes(reading.MOST_READ[True])}
        for line in kept.get("setup", b"").splitlines():
            self.set_up(line)
        self.files[b"-"], self.file_named_dash = self.files.pop(b"stdin", b""), self.files.get(b"-")

    def set_up(self, line):
        step, *words = line.split(b" ", 3)
        name = unescaped(words[0])
        if step == b"bytes":
            self.files[name] = self.files.get(name, b"") + unescaped(words[2]) * int(words[1])
        if step == b"copy":
            self.files[name] = (ROOT / name.decode()).read_bytes()

    def draft(self, name, large):
        """The bytes of a file, as many as are read; none where it cannot be read."""
        content = self.file_named_dash if name == b"./-" else self.files.get(name)
        return None if content is None else content[:reading.MOST_READ[large]]


def listing(draft, large):
    return subprocess.run([PARTNER, *["--large"] * large], input=draft, check=True, capture_output=True).stdout


def named(name):
    return name.decode("utf-8", "surrogateescape")


def refusal(name, draft, lines, colour, large):
    """What check says of a draft, nothing where it is accepted."""
    kind, place, _, number, *_ = (int(field, 16) for field in lines.splitlines()[0].split())
    return "" if kind else reading.report(named(name), draft, number, place, colour=colour, large=large)


def answer(command, options, name, draft):
    """Standard output, standard error and status of one draft."""
    large, colour = b"--large" in options, [word for word in options if word.startswith(b"--color=")][-1:] == [b"--color=always"]
    lines = listing(draft, large)
    refused = refusal(name, draft, lines, colour, large)
    status = int(refused != "")
    if command == b"list":
        return lines.decode(), "", status
    if command == b"check":
        return refused, "", status
    if b"--json" in options:
        return reading.json_line(name, draft, lines, large), "", status
    if refused:
        return "", refused, status
    tree = reading.records(lines)
    shown = reading.coloured_lines(draft, tree) if colour else reading.tree_lines(draft, tree)
    return "".join(line + "\n" for line in shown), "", status


def evaluated(case):
    """Standard output, standard error and status of a case, by the second reading."""
    command, *rest = case.args
    options, dashes, behind = rest, [], []
    if b"--" in rest:
        options, behind = rest[:rest.index(b"--")], rest[rest.index(b"--") + 1:]
    files = [word for word in options if word == b"-" or not word.startswith(b"-")] + behind
    out, error, status = "", "", 0
    for name in files:
        draft = case.draft(name, b"--large" in options)
        if draft is None:
            # The words of the system are the case's own; that there is one line, with the file's name, is seen.
            found = re.search(rb"^togmelic: " + re.escape(name) + rb": [A-Z][a-z ]+\n", case.expected[1], re.M)
            error, status = error + named(found[0] if found else b"no message"), 2
            continue
        more = answer(command, options, name, draft)
        out, error, status = out + more[0], error + more[1], max(status, more[2])
    return [text.encode("utf-8", "surrogateescape") for text in (out, error, f"{status}\n")]


def fault(case, check):
    """What is wrong with a case, if anything; the file of a case of WRITTEN is written unless it is only compared."""
    found = evaluated(case)
    if case.name in WRITTEN and not check:
        (CASES / case.name / "stdout").write_bytes(found[0])
        case.expected[0] = found[0]
    differ = [file for file, ours, theirs in zip(("stdout", "stderr", "status"), found, case.expected) if ours != theirs]
    return f"{case.name}: {', '.join(differ)}: the second reading has {found}, the case {case.expected}" if differ else ""


def main():
    folders = sorted(folder for folder in CASES.iterdir() if not folder.name.startswith("call-"))
    faults = [fault(Case(folder), "--check" in sys.argv) for folder in folders]
    finish("command_cases", f"{len(folders)} cases read a second time", [found for found in faults if found])


if __name__ == "__main__":
    main()
