#!/usr/bin/env python3
"""Runs `togmelic` on real pseudo-terminals, of 40 and of 100 columns and of others, on closed pipes and on a full device, and compares what comes out.

tools/terminal.py [PROGRAM [PARTNER]]    target/rust/release/togmelic and target/rust/release/partner unless said

What is expected comes from tools/command_reading.py, the second reading of docs/COMMAND.md, and the listings from the partner. The terminals pass on the bytes
as they are (no CR is put before LF), so bytes are compared wherever the page gives them; the line of progress, which may be written over in more than one way, is
looked at on a small screen.
"""
import collections, fcntl, os, pty, re, resource, select, struct, subprocess, tempfile, termios, threading, time

import command_reading as reading
from program import ROOT, finish, program

PROGRAM, PARTNER = program(1, "target/rust/release/togmelic"), program(2, "target/rust/release/partner")
ESCAPE = re.compile(r"\x1b\[[0-9;]*m")
KINDS = ROOT / "rust/command/tests/golden/tree-every-kind/kinds.simf"
ESCROW, BROKEN = ROOT / "examples/escrow.simf", ROOT / "examples/broken.simf"
Done = collections.namedtuple("Done", "out error status")
faults, checks = [], 0


def expect(what, found, wanted):
    """Notes what is wrong where the two differ."""
    global checks
    checks += 1
    if found != wanted:
        faults.append(f"{what}:\n  expected {wanted!r}\n  got      {found!r}")


def terminal(columns):
    """A pseudo-terminal of so many columns that passes bytes on as they are: both its ends."""
    master, slave = pty.openpty()
    fcntl.ioctl(slave, termios.TIOCSWINSZ, struct.pack("HHHH", 24, columns, 0, 0))
    modes = termios.tcgetattr(slave)
    modes[1] &= ~termios.OPOST
    modes[3] &= ~termios.ECHO
    termios.tcsetattr(slave, termios.TCSANOW, modes)
    return master, slave


def drained(end, kept):
    """Reads one end of a pipe or terminal until the other is closed."""
    try:
        while part := os.read(end, 65536):
            kept += part
    except OSError:  # a terminal says so when nobody holds the other end any more
        pass
    os.close(end)


def run(args, out=None, error=None, folder=ROOT, typed=None, **variables):
    """Runs the program; `out` and `error` are the columns of a terminal, or none for a pipe. Where both have the same number it is one terminal, and all stands
    in `out`."""
    ends = {columns: terminal(columns) for columns in {out, error} if columns is not None}
    pipes = [ends[columns] if columns is not None else os.pipe() for columns in (out, error)]
    environment = {name: value for name, value in {"TERM": "xterm", **variables}.items() if value is not None}
    source = subprocess.DEVNULL if typed is None else pipes[0][1]
    child = subprocess.Popen([PROGRAM, *args], cwd=folder, stdin=source, stdout=pipes[0][1], stderr=pipes[1][1], env=environment)
    kept = {ours: bytearray() for ours, _ in pipes}
    readers = [threading.Thread(target=drained, args=(ours, kept[ours])) for ours in kept]
    if typed is not None:
        os.write(pipes[0][0], typed)
    for theirs in {theirs for _, theirs in pipes}:
        os.close(theirs)
    for reader in readers:
        reader.start()
    status = child.wait(timeout=60)
    for reader in readers:
        reader.join()
    texts = [bytes(kept[ours]).decode() for ours, _ in pipes]
    return Done(texts[0], "" if out is not None and out == error else texts[1], status)


def lines_of(draft, *options):
    return subprocess.run([PARTNER, *options], input=draft, check=True, capture_output=True).stdout


def tree_of(draft, *options):
    return reading.records(lines_of(draft, *options))


def joined(lines):
    return "".join(line + "\n" for line in lines)


def screen(text, columns):
    """The lines that a terminal of so many columns shows in the end, without blanks behind them; None where it is sent what no terminal need know."""
    rows, row, column = collections.defaultdict(dict), 0, 0
    for part in re.findall(r"\x1b\[[0-9;]*[A-Za-z]|.", text, re.S):
        if part == "\r":
            column = 0
        elif part == "\n":
            row += 1  # a terminal's driver puts CR before it
            column = 0
        elif part in ("\x1b[K", "\x1b[0K", "\x1b[2K"):
            rows[row] = {at: char for at, char in rows[row].items() if at < column and part != "\x1b[2K"}
        elif part.startswith("\x1b") or part < " ":
            if not ESCAPE.fullmatch(part):
                return None
        else:
            if column == columns:
                row, column = row + 1, 0
            rows[row][column] = part
            column += 1
    shown = []
    for cells in (rows[at] for at in range(max(rows, default=-1) + 1)):
        shown.append("".join(cells.get(at, " ") for at in range(max(cells, default=-1) + 1)).rstrip())
    while shown and not shown[-1]:
        shown.pop()
    return shown


def deep_drafts():
    """Drafts of 48 brackets: blocks in blocks, and matches in the arms of matches."""
    blocks = "fn f()" + 48 * "{" + "x" + 48 * "}"
    matches = "x"
    for depth in range(47):
        matches = f"match a_{depth} {{false=>{matches},true=>0,}}"
    return blocks.encode(), f"fn f(){{{matches}}}".encode()


# Lines written by hand: of the escrow and of 48 blocks on 40 columns, some with nothing cut, some at the end, some in what is drawn, some in both.
BY_HAND = {
    0: ["program 1:1", "      │  ├─ name jet::bip_0340_verify 5…", "         ├─ witness SELLER_SIGNATURE 6:…",
        "               ├─ name jet::bip_0340_ve…", "         └─ arm Some 8:9"],
    4: ["      └─ block with a value 1:8", "               └─ block with a value 1:…", "…                └─ block with a value …",
        "…                └─ variable x 1:55"]}


def on_columns(what, path, draft, columns, *options):
    """The lines of one tree on a terminal of so many columns, and their colours; answers them without colours."""
    tree, done = tree_of(draft, *options), run(["tree", *options, path], out=columns)
    bare = ESCAPE.sub("", done.out)
    expect(f"{what} on {columns} columns", (bare, done.error, done.status), (joined(reading.tree_lines(draft, tree, columns)), "", 0))
    expect(f"{what} on {columns} columns: widths", [line for line in bare.split("\n") if len(line) > columns], [])
    # The bytes of the lines that are not cut at their end; in the others too every colour ends before the line does.
    pairs = zip(done.out.split("\n"), reading.coloured_lines(draft, tree, columns))
    differ = [(found, wanted) for found, wanted in pairs if found != wanted and len(ESCAPE.sub("", wanted)) <= columns]
    expect(f"{what} on {columns} columns: colours, as they are and as they should be", differ, [])
    left = [line for line in done.out.split("\n") if ESCAPE.findall(line)[-1:] not in ([], [reading.PLAIN])]
    expect(f"{what} on {columns} columns: colours that do not end", left, [])
    return bare.split("\n")


def trees(folder):
    """Width, cuts and colours of tree."""
    drafts = [ESCROW.read_bytes(), KINDS.read_bytes(), (ROOT / "examples/greek.simf").read_bytes(), b"", *deep_drafts()]
    for number, draft in enumerate(drafts):
        path = os.path.join(folder, f"tree{number}.simf")
        open(path, "wb").write(draft)
        on_columns(f"tree {number}", path, draft, 100)
        lines = on_columns(f"tree {number}", path, draft, 40)
        expect(f"tree {number} on 40 columns: lines by hand", [line for line in BY_HAND.get(number, []) if line not in lines], [])
        coloured = joined(reading.coloured_lines(draft, tree_of(draft)))
        expect(f"tree {number} in colours, to no terminal", run(["tree", "--color=always", path]), Done(coloured, "", 0))


def large(folder):
    """Drafts beyond the smaller limits on terminals: a tree with long places, and what is said where --large is given and where it is not."""
    path, name = os.path.join(folder, "large.simf"), "large.simf"
    kinds = 7000 * b"// abcdef\n" + KINDS.read_bytes()
    for draft, number, at in (kinds, 1, 16384), (7000 * b"type A=u8;\n" + b"fn f(){a; b c}\n", 1, 16384), (1100 * b"a;\n", 6, 3072):
        open(path, "wb").write(draft)
        _, place, _, why, *_ = (int(field, 16) for field in lines_of(draft, "--large").splitlines()[0].split())
        for columns in 40, 100:
            told = reading.report(name, draft[:16385], number, at, columns, True)
            expect(f"check of a large draft on {columns} columns", run(["check", name], out=columns, folder=folder), Done(told, "", 1))
            if draft is kinds:
                on_columns("a large tree", path, draft, columns, "--large")
                continue
            told = reading.report(name, draft, why, place, columns, True, large=True)
            expect(f"check --large on {columns} columns", run(["check", "--large", name], out=columns, folder=folder), Done(told, "", 1))
            expect(f"tree --large of a refused draft on {columns} columns",
                   run(["tree", "--large", name], error=columns, folder=folder), Done("", told, 1))


def colours():
    """When colours are on: only where standard output is a terminal, NO_COLOR is unset or empty, and TERM is not dumb."""
    draft = ESCROW.read_bytes()
    tree = tree_of(draft)
    coloured, bare = joined(reading.coloured_lines(draft, tree)), joined(reading.tree_lines(draft, tree, 100))
    for wanted, args, more in (
            (coloured, [], {}), (coloured, ["--color=auto"], {}), (bare, ["--color=never"], {}), (bare, [], {"NO_COLOR": "1"}),
            (coloured, [], {"NO_COLOR": ""}), (bare, [], {"TERM": "dumb"}), (coloured, [], {"TERM": None}), (coloured, [], {"COLUMNS": "20"}),
            (coloured, ["--color=always"], {"NO_COLOR": "1", "TERM": "dumb"})):
        expect(f"tree {args} {more}", run(["tree", *args, ESCROW], out=100, **more), Done(wanted, "", 0))
    for number, out, error in (1, None, 100), (2, None, None):
        expect(f"tree to no terminal, {number}", run(["tree", ESCROW], out=out, error=error), Done(joined(reading.tree_lines(draft, tree)), "", 0))
    expect("tree --json on a terminal", run(["tree", "--json", "examples/escrow.simf"], out=40),
           Done(reading.json_line(b"examples/escrow.simf", draft, lines_of(draft)), "", 0))
    expect("list on a terminal", run(["list", ESCROW], out=40), Done(lines_of(draft).decode(), "", 0))


def refused(folder):
    """What check says on a terminal, and tree of a refused draft."""
    long_line = "\n" * 11 + "/*" + 70 * "α" + "*/ ; // " + 200 * "z"
    cases = [("examples/broken.simf", BROKEN.read_bytes(), 8, 640), ("long.simf", long_line.encode(), 8, 11 + 2 + 140 + 3), ("end.simf", b"type A=u8\n", 8, 10)]
    for name, draft, number, at in cases:
        path = os.path.join(folder, name)
        os.makedirs(os.path.dirname(path), exist_ok=True)
        open(path, "wb").write(draft)
        for columns in 40, 100:
            told, bare = (reading.report(name, draft, number, at, columns, colour) for colour in (True, False))
            expect(f"check {name} on {columns} columns", run(["check", name], out=columns, folder=folder), Done(told, "", 1))
            expect(f"check {name} on {columns} columns, NO_COLOR", run(["check", name], out=columns, folder=folder, NO_COLOR="1"), Done(bare, "", 1))
            expect(f"check {name} on {columns} columns, dumb", run(["check", name], out=columns, folder=folder, TERM="dumb"), Done(bare, "", 1))
            expect(f"check {name} on {columns} columns, never", run(["check", "--color=never", name], out=columns, folder=folder), Done(bare, "", 1))
            expect(f"tree of refused {name} on {columns} columns", run(["tree", name], out=columns, error=columns, folder=folder), Done(told, "", 1))
        bare = reading.report(name, draft, number, at)
        expect(f"check {name} to a pipe", run(["check", name], folder=folder), Done(bare, "", 1))
        # The width and the colours are those of where it is written.
        expect(f"check {name} to a pipe, errors to a terminal", run(["check", name], error=40, folder=folder), Done(bare, "", 1))
        expect(f"tree of refused {name}, errors to a pipe", run(["tree", name], out=40, folder=folder), Done("", bare, 1))
        told = reading.report(name, draft, number, at, 40, True)
        expect(f"tree of refused {name}, errors to a terminal", run(["tree", name], error=40, folder=folder), Done("", told, 1))
        bare = reading.report(name, draft, number, at, 40)
        expect(f"tree of refused {name}, errors to a terminal, NO_COLOR", run(["tree", name], error=40, folder=folder, NO_COLOR="1"), Done("", bare, 1))


def progress(folder):
    """The line of progress: on a terminal only, of several files only, and away in the end."""
    long_name = "a" * 70 + ".simf"
    for name, draft in ("good.simf", b"fn f(){}"), ("bad.simf", b";"), (long_name, b"+"):
        open(os.path.join(folder, name), "wb").write(draft)
    names = ["good.simf", "bad.simf", "missing.simf", long_name, "good.simf"]
    told = [reading.report("bad.simf", b";", 8, 0), reading.report(long_name, b"+", 3, 0)]
    missing = "togmelic: missing.simf: No such file or directory\n"
    for columns in 40, 100:
        done = run(["check", *names], error=columns, folder=folder)
        found = done.out, screen(done.error, columns), done.status
        expect(f"check of several files, errors on {columns} columns", found, ("".join(told), screen(missing, columns), 2))
        lines = [f"checking {number} of 5: {name}" for number, name in enumerate(names, 1)]
        # A line that does not fit in one column less than the terminal has ends in a mark.
        lines = [line if len(line) < columns else line[:columns - 2] + "…" for line in lines]
        expect(f"progress on {columns} columns", [line for line in lines if f"\r{line}" not in done.error], [])
        # It is away before anything else is written.
        expect(f"progress before a message on {columns} columns", screen(done.error[:done.error.index("togmelic:")], columns), [])
        both = run(["check", "--color=never", *names], out=columns, error=columns, folder=folder)
        shown = [reading.report("bad.simf", b";", 8, 0, columns), missing, reading.report(long_name, b"+", 3, 0, columns)]
        expect(f"check of several files, all on {columns} columns", (screen(both.out, columns), both.status), (screen("".join(shown), columns), 2))
        expect(f"progress among the rest on {columns} columns", "checking 5 of 5: good.simf" in both.out, True)
        expect(f"progress before a refusal on {columns} columns", screen(both.out[:both.out.index("bad.simf:1:1")], columns), [])
        some = run(["check", *names], out=columns, folder=folder)
        expect(f"no progress where standard error is no terminal, {columns} columns", some.error, missing)
        expect(f"no progress of one file, {columns} columns", run(["check", "good.simf"], error=columns, folder=folder), Done("", "", 0))
        expect(f"no progress of tree, {columns} columns", run(["tree", "missing.simf"], error=columns, folder=folder), Done("", missing, 2))
    expect("no progress without a terminal", run(["check", *names], folder=folder), Done("".join(told), missing, 2))


def next_one(folder):
    """One line of progress is written over by the next: of a longer name nothing is left, and no name ends or colours the line."""
    names = ["a" * 30 + ".simf", "b.simf", "c\n\x1b[31m.simf", "d.simf"]
    for name in names:
        open(os.path.join(folder, name), "wb").close()
    text = run(["check", *names], error=60, folder=folder).error
    for number, name in enumerate(names, 1):
        at = text.index(f"checking {number} of 4")
        # The line is whole where the next begins, or where it is taken away.
        shown = screen(text[:text.index("\r", at)], 60)
        # How a control character is shown there is free, but for what it does to a terminal.
        wanted = [f"checking {number} of 4: {name}"]
        expect(f"progress, {number} alone", [re.sub(r" c[^ ]*\.simf$", " " + names[2], line) for line in shown or []], wanted)
    expect("progress of accepted drafts in the end", screen(text, 60), [])


def names_shown(folder):
    """On a terminal a name neither ends a line nor colours it; elsewhere its bytes are written as they are."""
    name = "a\n\x1b[31m\u202eb.simf"
    shown = "a\u240a\u241b[31m\ufffdb.simf"
    open(os.path.join(folder, name), "wb").write(b";")
    for columns, wanted in (100, shown), (None, name):
        args = ["check", "--color=never", name]
        expect(f"a name with control characters on {columns} columns", run(args, out=columns, folder=folder), Done(reading.report(wanted, b";", 8, 0), "", 1))
        args = ["check", "missing" + name]
        told = f"togmelic: missing{wanted}: No such file or directory\n"
        expect(f"the name of a missing file on {columns} columns", run(args, error=columns, folder=folder), Done("", told, 2))
        told = f"togmelic: unknown option '-{wanted}'\nTry 'togmelic check --help'.\n"
        expect(f"a wrong call on {columns} columns", run(["check", "-" + name], error=columns, folder=folder), Done("", told, 2))


def in_turn(folder):
    """A refused draft is told before the next file is read: the next is a pipe that is written to only then."""
    path = os.path.join(folder, "pipe")
    os.mkfifo(path)
    open(os.path.join(folder, "bad.simf"), "wb").write(b";")
    child = subprocess.Popen([PROGRAM, "check", "bad.simf", "pipe"], cwd=folder, stdout=subprocess.PIPE, env={"TERM": "xterm"})
    first = reading.report("bad.simf", b";", 8, 0).encode()
    ready = select.select([child.stdout], [], [], 60)[0]
    told = os.read(child.stdout.fileno(), len(first)) if ready else b""
    with open(path, "wb") as pipe:
        pipe.write(b"+")
    rest = child.communicate(timeout=60)[0]
    expect("a refused draft is told before the next is read", (told, rest, child.returncode), (first, reading.report("pipe", b"+", 3, 0).encode(), 1))


def narrow(folder):
    """No width makes a line of tree wider than the terminal, or the program fail. A terminal of 0 columns is one that does not tell its width, and has 80."""
    for columns in 0, 1, 2, 3, 4, 5, 7, 12:
        for number, draft in enumerate(deep_drafts()):
            path = os.path.join(folder, f"narrow{number}.simf")
            open(path, "wb").write(draft)
            done = run(["tree", "--color=never", path], out=columns)
            expect(f"deep tree {number} on {columns} columns", done, Done(joined(reading.tree_lines(draft, tree_of(draft), columns or 80)), "", 0))
        draft = b"// " + 60 * b"a" + b"\n" + 60 * b"b" + b" + " + 60 * b"c"
        name = os.path.join(folder, "narrow.simf")
        open(name, "wb").write(draft)
        done = run(["check", "--color=never", name], out=columns)
        expect(f"check on {columns} columns", done, Done(reading.report(name, draft, 3, draft.index(b"+"), columns or 80), "", 1))


def closed(args, most, typed=b"", error=False):
    """What comes of a run whose reader reads so many bytes and goes; with `error`, that of standard error."""
    ours, theirs = os.pipe()
    fcntl.fcntl(theirs, fcntl.F_SETPIPE_SZ, 4096)
    if not most:
        os.close(ours)
    child = subprocess.Popen([PROGRAM, *args], cwd=ROOT, stdin=subprocess.PIPE, env={"TERM": "xterm"},
                             stdout=subprocess.PIPE if error else theirs, stderr=theirs if error else subprocess.PIPE)
    os.close(theirs)
    if most:
        os.read(ours, most)
        os.close(ours)
    out, told = child.communicate(typed, timeout=60)
    return (out if error else told).decode(), child.returncode


def pipes(folder):
    """Where the reader has gone away, nothing is said, and the status is 2."""
    path = os.path.join(folder, "large.simf")
    # Its tree has over 2,000 lines, far more than a pipe of 4,096 bytes holds.
    open(path, "wb").write(("fn f(){" + 1000 * "a;" + "}").encode())
    for args in ["tree"], ["tree", "--color=always"], ["tree", "--json"], ["list"], ["list", "--large"], ["tree", "--large"]:
        expect(f"{args} to a reader of one line", closed([*args, path], 12), ("", 2))
        expect(f"{args} to no reader", closed([*args, path], 0), ("", 2))
        expect(f"{args} of an escrow to no reader", closed([*args, ESCROW], 0), ("", 2))
    expect("check of a refused draft to no reader", closed(["check", BROKEN], 0), ("", 2))
    expect("check of accepted drafts to no reader", closed(["check", ESCROW, ESCROW], 0), ("", 0))
    many = 400 * [BROKEN]
    expect("check of many refused drafts to a reader of one line", closed(["check", *many], 12), ("", 2))
    for args in ["--help"], ["check", "--help"], ["--version"]:
        expect(f"{args} to no reader", closed(args, 0), ("", 2))
    for args in ["check", "missing.simf"], ["check"], ["tree", BROKEN], []:
        expect(f"{args} with errors to no reader", closed(args, 0, error=True), ("", 2))


def full():
    """A device that takes nothing: a message, and 2."""
    for args in ["tree", ESCROW], ["tree", "--json", ESCROW], ["list", ESCROW], ["check", BROKEN], ["--help"], ["--version"]:
        with open("/dev/full", "wb") as device:
            done = subprocess.run([PROGRAM, *args], stdout=device, stderr=subprocess.PIPE, env={"TERM": "xterm"}, timeout=60)
        expect(f"{args} on a full device", (done.stderr, done.returncode), (b"togmelic: standard output: No space left on device\n", 2))
    with open("/dev/full", "wb") as device:
        done = subprocess.run([PROGRAM, "check", "missing.simf"], stdout=subprocess.PIPE, stderr=device, env={"TERM": "xterm"}, timeout=60)
    expect("errors on a full device", (done.stdout, done.returncode), (b"", 2))


def wrong_way():
    """Standard output that may only be read, and standard input that may only be written: a message each, and 2."""
    with open(os.devnull, "rb") as readable, open(os.devnull, "wb") as writable:
        for args in ["tree", ESCROW], ["list", ESCROW], ["check", BROKEN], ["--version"]:
            done = subprocess.run([PROGRAM, *args], stdout=readable, stderr=subprocess.PIPE, env={"TERM": "xterm"}, timeout=60)
            expect(f"{args} to a stream that may only be read", (done.stderr, done.returncode), (b"togmelic: standard output: Bad file descriptor\n", 2))
        done = subprocess.run([PROGRAM, "tree", BROKEN], stdout=subprocess.PIPE, stderr=readable, env={"TERM": "xterm"}, timeout=60)
        expect("errors to a stream that may only be read", (done.stdout, done.returncode), (b"", 2))
        done = subprocess.run([PROGRAM, "check", "-"], stdin=writable, capture_output=True, env={"TERM": "xterm"}, timeout=60)
        expect("input from a stream that may only be written", (done.stdout, done.stderr, done.returncode), (b"", b"togmelic: -: Bad file descriptor\n", 2))


def stack(folder):
    """With the stack that docs/COMMAND.md states, the drafts that nest deepest are read: one that is refused at its end, and one that is accepted."""
    kib = int(re.search(r"`ulimit -s (\d+)`", (ROOT / "docs/COMMAND.md").read_text(encoding="utf-8"))[1])
    # As tools/stack.py has it, with numbers and blanks behind, for which the largest buffers are needed.
    deepest = b"fn f(){" + 47 * (8 * b"match " + b"fold::<g,2>(") + 8 * b"match " + b"A::B"
    refused_at, long = len(deepest) + 1, (deepest + 1200 * b" 1").ljust(16384)
    pairs = b"fn f(){" + 47 * b"(" + b"1" + 47 * b",1)" + b"}"
    longest = (deepest + 120_000 * b" 1").ljust(1048576)
    for draft, options, wanted in ((long, [], (reading.report("deep.simf", long, 8, refused_at), "", 1)), (pairs, [], ("", "", 0)),
                                   (pairs, ["--large"], ("", "", 0)), (12_000 * b"fn f(){a;}" + pairs, ["--large"], ("", "", 0)),
                                   (longest, ["--large"], (reading.report("deep.simf", longest, 8, refused_at, large=True), "", 1))):
        open(os.path.join(folder, "deep.simf"), "wb").write(draft)
        done = subprocess.run([PROGRAM, "check", *options, "deep.simf"], cwd=folder, capture_output=True, env={"TERM": "xterm"}, timeout=60,
                              preexec_fn=lambda: resource.setrlimit(resource.RLIMIT_STACK, (1024 * kib, 1024 * kib)))
        expect(f"a deep draft with {kib} KiB of stack {options}", (done.stdout.decode(), done.stderr.decode(), done.returncode), wanted)


def inputs():
    """Standard input from a terminal, until its end is typed; in two pieces; and one that cannot be read."""
    expect("a draft that is typed", run(["tree", "--color=never", "-"], out=100, typed=b"fn f(){}\n\x04"),
           Done(joined(reading.tree_lines(b"fn f(){}\n", tree_of(b"fn f(){}\n"))), "", 0))
    folder = os.open("/", os.O_RDONLY)
    done = subprocess.run([PROGRAM, "check", "-"], stdin=folder, capture_output=True, env={"TERM": "xterm"}, timeout=60)
    os.close(folder)
    child = subprocess.Popen([PROGRAM, "check", "-"], stdin=subprocess.PIPE, stdout=subprocess.PIPE, env={"TERM": "xterm"})
    child.stdin.write(b"fn f(")
    child.stdin.flush()
    time.sleep(0.2)
    expect("a draft in two pieces", (child.communicate(b"){}", timeout=60)[0], child.returncode), (b"", 0))
    waiting, other = os.pipe()
    os.set_blocking(waiting, False)
    idle = subprocess.run([PROGRAM, "check", "-"], stdin=waiting, capture_output=True, env={"TERM": "xterm"}, timeout=60)
    os.close(waiting), os.close(other)
    expect("a stream with nothing yet", (idle.stdout, idle.stderr, idle.returncode), (b"", b"togmelic: -: Resource temporarily unavailable\n", 2))
    expect("a folder as standard input", (done.stdout, done.stderr, done.returncode), (b"", b"togmelic: -: Is a directory\n", 2))


def main():
    with tempfile.TemporaryDirectory() as folder:
        trees(folder)
        large(folder)
        colours()
        refused(folder)
        progress(folder)
        next_one(folder)
        names_shown(folder)
        in_turn(folder)
        narrow(folder)
        pipes(folder)
        full()
        wrong_way()
        inputs()
        stack(folder)
    finish("terminal", f"{checks} checks on terminals, closed pipes and a full device", faults)


if __name__ == "__main__":
    main()
