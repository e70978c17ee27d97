#!/usr/bin/env python3
"""What the listing program does with streams that fail or would have to be waited for.

    tools/streams.py [LISTING [LOAD]]    the programs, as tools/program.py has them

A stream that is set not to block and has nothing yet is refused plainly, and nothing is written as if it were an answer. A write that fails part way leaves
the front of the listing: how many lines there should be is told by the size in the first of them, and no such part can be loaded.
"""
import contextlib
import errno
import fcntl
import os
import re
import resource
import signal
import socket
import subprocess

from program import ROOT, finish, loaded, program
from readme import indented

ESCROW = (ROOT / "examples/escrow.simf").read_bytes()
# A draft of 500 statements, each a number in brackets: two records for each, and four around them (program, function, name, block).
LONG = b"fn f(){" + b"(1);" * 500 + b"}"
LONG_LINES = 4 + 2 * 500
PIPE_BYTES = 4096
LISTING = "crates/listing/out/listing"
seen, faults = [], []


def expect(what, holds, got):
    """Counts what is seen, and notes it as a fault where it does not hold."""
    seen.append(what)
    if not holds:
        faults.append(f"{what}: {got}")


def says(step, number):
    """What stands on standard error where a step fails by an error of the system."""
    return f"listing: {step}: {os.strerror(number)}\n".encode()


def run(stdin, stdout=subprocess.PIPE, **how):
    """Runs the program on a draft or a stream: its status, what it wrote if that is caught, and what it said."""
    given = {"input": stdin} if isinstance(stdin, bytes) else {"stdin": stdin}
    ran = subprocess.run([program(1, LISTING)], **given, stdout=stdout, stderr=subprocess.PIPE, timeout=60, **how)
    return ran.returncode, ran.stdout, ran.stderr


def is_whole(lines):
    """Whether an output has as many lines as the size in its first line says; a refusal's line has the size 1."""
    size = re.fullmatch(rb"[0-9A-F]{4}", lines[31:35])
    return bool(size) and len(lines) == 41 * int(size[0], 16)


def is_front(part, whole):
    """Whether bytes are the front of a listing, without all of it, and are refused as a listing."""
    return whole.startswith(part) and not is_whole(part) and loaded(part).startswith(b"refused with 1")


@contextlib.contextmanager
def ends(kind):
    """The two ends of a pipe or of a pair of sockets as files, the one to read from and the one to write to, of which either may be closed early."""
    numbers = os.pipe() if kind == "pipe" else [it.detach() for it in socket.socketpair()]
    with open(numbers[0], "rb", buffering=0) as stream, open(numbers[1], "wb", buffering=0) as writer:
        yield stream, writer


def small(kind, writer):
    """Gives a pipe, or the end of a socket, the room of a page or so."""
    if kind == "pipe":
        return fcntl.fcntl(writer, fcntl.F_SETPIPE_SZ, PIPE_BYTES)
    with socket.socket(fileno=os.dup(writer.fileno())) as it:
        it.setsockopt(socket.SOL_SOCKET, socket.SO_SNDBUF, PIPE_BYTES)


def reads(kind):
    """Input that is set not to block: with nothing in it, with a part of a draft, and with a whole draft and its end."""
    refused = (0, b"", says("read", errno.EAGAIN))
    for name, part in (("nothing", b""), ("a part", ESCROW[:100]), ("a draft that may go on", ESCROW)):
        with ends(kind) as (stream, writer):
            os.set_blocking(stream.fileno(), False)
            writer.write(part)
            got = run(stream)
            expect(f"a {kind} that does not block with {name}", got == refused, got)
    with ends(kind) as (stream, writer):
        os.set_blocking(stream.fileno(), False)
        writer.write(ESCROW)
        writer.close()
        status, lines, said = run(stream)
        shown = indented(lines.decode()) in (ROOT / "README.md").read_text(encoding="utf-8")
        expect(f"a {kind} that does not block with a draft and its end", (status, said) == (0, b"") and is_whole(lines) and shown, lines)


def full():
    """Output to a pipe that does not block and is full: nothing more is written."""
    with ends("pipe") as (stream, writer):
        os.set_blocking(writer.fileno(), False)
        before = b"x" * small("pipe", writer)
        writer.write(before)
        got = run(LONG, writer)
        writer.close()
        expect("a full pipe that does not block", got == (0, None, says("write", errno.EAGAIN)), got)
        expect("what is in it", stream.read() == before, "not what was there before")


def part_of(kind, whole):
    """Output to a stream that does not block and has room for a part: the front of the listing."""
    with ends(kind) as (stream, writer):
        os.set_blocking(writer.fileno(), False)
        small(kind, writer)
        got = run(LONG, writer)
        writer.close()
        part = stream.read()
        expect(f"a {kind} that does not block with some room", got == (0, None, says("write", errno.EAGAIN)), got)
        expect("the front of the listing in it", part and is_front(part, whole), part)


def gone(whole, count):
    """A reader that goes away behind so many bytes."""
    with ends("pipe") as (stream, writer):
        small("pipe", writer)
        with subprocess.Popen([program(1, LISTING)], stdin=subprocess.PIPE, stdout=writer, stderr=subprocess.PIPE) as ran:
            if count == 0:
                stream.close()
            ran.stdin.write(LONG)
            ran.stdin.close()
            part = stream.read(count) if count else b""
            stream.close()
            said = ran.stderr.read()
        expect(f"a reader that goes away behind {count} bytes", (ran.returncode, said) == (0, says("write", errno.EPIPE)), (ran.returncode, said))
        expect("what it has read", len(part) == count and whole.startswith(part), part)


def limited(whole, action, wanted):
    """A file that may have 1,000 bytes, and what the signal that goes with it does."""
    def limit():
        signal.signal(signal.SIGXFSZ, action)
        resource.setrlimit(resource.RLIMIT_FSIZE, (1000, 1000))

    with os.fdopen(os.memfd_create("lines"), "r+b") as file:
        status, _, said = run(LONG, file, preexec_fn=limit, restore_signals=False)
        file.seek(0)
        part = file.read()
    expect("a file that may not grow", (status, said) == wanted, (status, said))
    expect("the front of the listing in it", len(part) == 1000 and is_front(part, whole), part)


def main():
    status, whole, said = run(LONG)
    expect("a long listing", (status, said, len(whole)) == (0, b"", 41 * LONG_LINES) and is_whole(whole), (status, said, whole[:41]))
    for kind in ("pipe", "socket"):
        reads(kind)
        part_of(kind, whole)
    full()
    for count in (0, 100):
        gone(whole, count)
    # Where the signal is not ignored it ends the program, and then alone the status is not 0.
    limited(whole, signal.SIG_IGN, (0, says("write", errno.EFBIG)))
    limited(whole, signal.SIG_DFL, (-signal.SIGXFSZ, b""))
    finish("streams", f"{len(seen)} things seen of streams that fail or do not block", faults)


if __name__ == "__main__":
    main()
