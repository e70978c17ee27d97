#!/usr/bin/env python3
"""Tries tools/progress.py, and what tools/build.sh asks of cargo, in a small repository, with a stand-in for `rt` that notes how it is called.

    tools/progress_tests.py
"""
import itertools
import os
import pathlib
import pty
import re
import select
import signal
import subprocess
import sys
import tempfile
import time

from program import ROOT, finish

CRATES = """# A comment.
low:
long: low  # so long that it is checked first
app: long low
ffi staticlib: low
other: low
"""
# Proves one function of `low`, none of `ffi` and three of the others. A check says how far it is, and waits as long as SLOW says; what is built behind it begins
# with none again. `app` is run, and reads all its input. A crate with a file `src/wrong-check` or `-lib` is refused there, with what that file holds.
STAND_IN = r"""#!/usr/bin/env bash
if [ "$1" = version ]; then cat "${0%/*}/kit"; exit; fi
name=$(basename "$PWD")
echo "$name $1" >> ../../calls
if [ -e "src/wrong-$1" ]; then cat "src/wrong-$1"; exit 1; fi
case $name in low) proved=a;; ffi) proved=;; *) proved="a b c";; esac
echo "p.antt:1:1: note: advice"
if [ "$1" = check ]; then echo "checked $name::a, 1 of 3"; sleep "${SLOW:-0}"; echo "checked $name::b, 3 of 3"; fi
if [ "$proved" = "a b c" ] && [ "$1" != check ]; then echo "so far: 0 of 3 functions checked; the verdict comes last"; fi
for function in $proved; do
    echo "fn $name::$function: proved where its callers give what it asks"
    if [ "$function" = a ]; then echo "p.antt:2:1: note: advice"; fi
done
case $name in
    app) cat > /dev/null; mkdir -p out; echo app > out/app;;
    ffi) mkdir -p out; echo ffi > out/libffi.a;;
    *) mkdir -p "out/rlib/$name.rlib";;
esac
"""
# What a refused crate writes: lines that say what is not proved, more than are shown, between others, and no newline at the end.
UNPROVED = ["note: src/lib.rt:5:1: it is not proved that a sum fits", "fn long::b: no proof: a reason", "./specs/A.antt:7:1: error: `a` is not in scope",
            *(f"fn long::c{number}: not proved" for number in range(40))]
WRONG = ["fn long::a: proved", *UNPROVED, "note: advice", *(f"line {number}" for number in range(60))]
NAMES = ("low", "long", "app", "ffi")
# The columns of the terminal: as many as the line of a check at work needs, and one more, which stays free.
COLUMNS = 42
FIRST = "build: what rt writes goes to target/build/rt.log; its lines with 'note:' are harmless: advice on text that is proved all the same"
DONE = {"low": "1 function proved", "long": "3 functions proved", "app": "3 functions proved", "ffi": "proved"}
seen, faults = [], []


def expect(what, got, wanted):
    seen.append(what)
    if got != wanted:
        faults.append(f"{what}: {got!r}, not {wanted!r}")


def line(name, proofs, seconds="N"):
    return f"{name}: crate {NAMES.index(name) + 1} of 4, {proofs}, {seconds} s"


def done(*names):
    return [line(name, DONE[name]) for name in names]


def kept(count, of=4):
    return f"build: {count} of {of} crates have not changed since they were built here"


class Repository:
    """A repository of its own, with the scripts under test. Their standard input is a pipe that nothing comes from, and stays open."""

    def __init__(self, top):
        self.top = pathlib.Path(top)
        self.input, self.kept_open = os.pipe()
        for name in (*NAMES, "other"):
            self.write(f"crates/{name}/src/{'main' if name == 'app' else 'lib'}.rt", "\n" * (1000 if name == "long" else 10))
        for path in ("tools/progress.py", "tools/build.sh", "rust/command/Cargo.toml"):
            self.write(path, (ROOT / path).read_text(encoding="utf-8"))
        self.write("crates.txt", CRATES)
        self.write("bin/kit", "kit\n")
        for name, text in (("rt", STAND_IN), ("cargo", '#!/bin/sh\ncat "${0%/*}/version"\n')):
            self.write(f"bin/{name}", text)
            (self.top / "bin" / name).chmod(0o755)

    def write(self, path, text):
        (self.top / path).parent.mkdir(parents=True, exist_ok=True)
        (self.top / path).write_text(text)

    def start(self, *words, env=None, **how):
        self.write("calls", "")
        ours = {"PATH": f"{self.top}/bin:{os.environ['PATH']}", "COLUMNS": str(COLUMNS), "PYTHONUNBUFFERED": ""}
        return subprocess.Popen(words, cwd=self.top, stdin=self.input, start_new_session=True, env={**os.environ, **ours, **(env or {})}, **how)

    def calls(self):
        return (self.top / "calls").read_text().splitlines()

    def command(self, *words, env=None):
        """The status of a command, its lines with the seconds as N, those of standard error, and the calls of rt."""
        with self.start(*words, env=env, stdout=subprocess.PIPE, stderr=subprocess.PIPE, text=True) as run:
            try:
                out, err = run.communicate(timeout=10)
            except subprocess.TimeoutExpired:
                os.killpg(run.pid, signal.SIGKILL)
                sys.exit(f"progress: failed: no end of {words} behind {self.calls()}")
        return run.returncode, re.sub(r"\d+ s$", "N s", out, flags=re.M).splitlines(), err.splitlines(), self.calls()

    def run(self, *names, **how):
        return self.command(sys.executable, "tools/progress.py", *names, **how)

    def on_terminal(self, *names, slow, until=None):
        """The status of a run and what it writes on a terminal, where Ctrl-C is pressed as soon as it has written `until`."""
        ours, theirs = pty.openpty()
        written, end = "", time.monotonic() + 10
        with self.start(sys.executable, "tools/progress.py", *names, env={"SLOW": slow}, stdout=theirs, stderr=theirs) as run:
            os.close(theirs)
            while select.select([ours], [], [], max(0, end - time.monotonic()))[0] and (more := read(ours)):
                written += more
                if until and until in written:
                    os.killpg(run.pid, signal.SIGINT)
                    until = None
            if run.poll() is None and time.monotonic() > end:
                os.killpg(run.pid, signal.SIGKILL)
        os.close(ours)
        return run.returncode, written


def read(terminal):
    """What a terminal has; nothing where no one writes to it any more."""
    try:
        return os.read(terminal, 1 << 16).decode()
    except OSError:
        return ""


def built(repository):
    """From nothing, then again, and after changes of all that a crate is built of."""
    steps = {"low": ["low lib"], "long": ["long check", "long lib"], "app": ["app run"], "ffi": ["ffi lib"]}

    def anew(what, *names):
        first = [kept(4 - len(names))] * (len(names) < 4) + [FIRST] * bool(names)
        wanted = (0, [*first, *done(*names)], [], [step for name in names for step in steps[name]])
        expect(what, repository.run("app", "ffi"), wanted)

    anew("from nothing", *NAMES)
    anew("again")
    for path in ("src/lib.rt", "specs/A", "proofs/A", "proofs/deep/A"):
        repository.write(f"crates/long/{path}", "\n" * 1001)
        anew(f"after a change of {path}", "long", "app")
    repository.write("bin/kit", "another kit\n")
    anew("by another kit", *NAMES)
    for change in ("other", ""):
        repository.write("crates/ffi/out/libffi.a", change)
        anew("with another library", "ffi")
    (repository.top / "crates/app/out/app").unlink()
    anew("with no program", "app")


def refused(repository):
    """A crate that fails stops it, is tried again by the next run, and says first what is not proved; wrong names; a kit that fails."""
    repository.write("crates/long/src/wrong-check", "\n".join(WRONG))
    begin = "build: failed: long, by rt check; "
    shown = [f"{begin}what is not proved:", *(f"    {it}" for it in UNPROVED[:40])]
    shown += [f"{begin}the end of target/build/rt.log:", *(f"    {it}" for it in WRONG[-40:])]
    for _ in range(2):
        expect("a crate that fails", repository.run("app"), (1, [kept(1, 3), FIRST], shown, ["long check"]))
    expect("its log", (repository.top / "target/build/rt.log").read_text().splitlines(), ["== long: rt check", *WRONG])
    written = repository.on_terminal("app", "ffi", slow="0")[1]
    expect("how far it was, above what failed", f"\r{line('long', '1 function proved, building')[:COLUMNS - 1]}\033[K\r\n{begin}" in written, True)
    (repository.top / "crates/long/src/wrong-check").unlink()
    repository.write("crates/long/src/wrong-lib", "killed\n")
    shown = ["build: failed: long, by rt lib; the end of target/build/rt.log:", "    killed"]
    expect("a crate of which nothing is said", repository.run("app"), (1, [kept(1, 3), FIRST], shown, ["long check", "long lib"]))
    (repository.top / "crates/long/src/wrong-lib").unlink()
    for names in ((), ("low", "none")):
        status, out, err, calls = repository.run(*names)
        expect(f"the names {names}", (status, out, len(err) > 5, calls), (1, [], True, []))
    (repository.top / "bin/kit").unlink()
    expect("no kit", (repository.run("low")[:2], len(repository.run("low")[2])), ((1, []), 1))
    repository.write("bin/kit", "a third kit\n")


def shown(repository):
    """On a terminal one line is written over, and none is wider; elsewhere there is one now and then, or no output at all."""
    status, written = repository.on_terminal("app", "ffi", slow="1.5")
    proofs = {"low": ["begun", "1 function proved, building"], "ffi": ["begun"]}
    proofs["app"] = ["begun", "0 of 3 functions", "1 function proved, building", "3 functions proved, building"]
    proofs["long"] = ["begun", "1 of 3 functions", "3 of 3 functions", "3 functions proved, building", "3 of 3 functions", "3 functions proved, building"]
    wanted = [(FIRST, "\r\n")]
    for name in NAMES:
        wanted += [*((line(name, it)[:COLUMNS - 1], "") for it in proofs[name]), (line(name, DONE[name]), "\r\n")]
    each = re.findall(r"\r([^\r\n]*)\033\[K(\r\n)?", written)
    masked = [(re.sub(r"\d+ s$", "N s", text), end) for text, end in each]
    expect("the lines on a terminal", [it for it, _ in itertools.groupby(masked)], wanted)
    expect("that its status is 0", status, 0)
    waited = line("long", "1 of 3 functions", 1)
    expect("the seconds while nothing comes", (waited, "") in each, True)

    repository.write("bin/kit", "a fourth kit\n")
    out = repository.run("app", "ffi", env={"SLOW": "1.5", "PROGRESS_EVERY": "0.9"})[1]
    expect("the line now and then", [it for it in out if "of 3" in it], [line("long", "1 of 3 functions")])
    for where, wanted in ((">&-", (0, [], [], ["low lib"])), ("> /dev/full", (1, [], ["build: failed: [Errno 28] No space left on device"], []))):
        repository.write("bin/kit", f"a kit for {where}\n")
        expect(where, repository.command("bash", "-c", f'"$@" {where}', "bash", sys.executable, "tools/progress.py", "low"), wanted)
    status, written = repository.on_terminal("app", "ffi", slow="20", until="1 of 3 functions")
    expect("Ctrl-C: the status", status, 130)
    end = f"\r{line('long', '1 of 3 functions')}\033[K\r\n"
    expect("Ctrl-C: the end", re.sub(r"\d s", "N s", written)[-len(end):], end)
    expect("Ctrl-C: what is kept", repository.run("low", "long")[1][0], kept(1, 2))


def older(repository):
    """tools/build.sh asks for a cargo that knows what rust/ asks for, before anything is proved."""
    for version, needed in (("1.87.0", True), ("1.9.0", True), ("1.88.0", False), ("1.100.1", False)):
        repository.write("bin/version", f"cargo {version} (abc 2026-01-01)\n")
        status, out, err, calls = repository.command("bash", "tools/build.sh")
        said = f"build: failed: cargo of Rust 1.88 or newer is needed, and this is cargo {version} (abc 2026-01-01)"
        # This repository has no crates of the names that are built, so where the cargo is right it ends there.
        expect(f"cargo {version}", (status, out, [it for it in err if "cargo" in it], calls), (1, [], [said] * needed, []))


def main():
    # Set, so that it reaches those that are started also where this is run in the background.
    signal.signal(signal.SIGINT, signal.default_int_handler)
    with tempfile.TemporaryDirectory() as top:
        repository = Repository(top)
        for tried in (built, refused, shown, older):
            tried(repository)
    finish("progress", f"{len(seen)} things seen of tools/progress.py and tools/build.sh", faults)


if __name__ == "__main__":
    main()
