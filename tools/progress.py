#!/usr/bin/env python3
"""Proves and builds programs and libraries by `rt`, with all that they stand on, one crate behind the other, and says how far it is.

    tools/progress.py NAME..    crates of crates.txt

Each crate has a line: which it is, how many of its functions are proved, and the seconds. On a terminal the line of the crate at work is written over;
elsewhere one is written every 15 s, or as many as PROGRESS_EVERY says. What rt writes goes to target/build/rt.log; where a crate fails, standard error
has what was not proved and the last lines, and the status is 1. Ctrl-C ends it with the status 130.

A crate is left alone where target/build/NAME.sum says that it was built here of the same files, over the same crates and by the same kit.
"""
import dataclasses
import hashlib
import os
import pathlib
import re
import select
import shutil
import subprocess
import sys
import time

ROOT = pathlib.Path(__file__).resolve().parent.parent
KEPT = ROOT / "target/build"
LOG = KEPT / "rt.log"
# Lines of the log that are shown where a crate fails, of each sort, and seconds between two lines where none is written over.
SHOWN, EVERY = 40, float(os.environ.get("PROGRESS_EVERY", "15"))
# What rt writes of an item that is not proved, and why: the verdict, a note with the place, an error of a file.
NOT_PROVED = re.compile(r"\w+ \S+: (?:no proof|not proved)\b|note: \S+:\d+:\d+: it is not proved\b|\S+:\d+:\d+: error\b")
# `rt check` writes a line a function, where a build has one now and then, and what it proved is kept for the build. Both take some ten seconds more than the
# build alone, so it is for crates of so many lines.
LONG = 1000


@dataclasses.dataclass
class Crate:
    name: str
    is_static: bool
    deps: list

    @property
    def folder(self):
        return ROOT / "crates" / self.name

    @property
    def is_program(self):
        return (self.folder / "src/main.rt").is_file()

    @property
    def product(self):
        """What is built of the crate, below the repository."""
        kinds = {(True, False): self.name, (False, True): f"lib{self.name}.a", (False, False): f"rlib/{self.name}.rlib"}
        return f"crates/{self.name}/out/{kinds[self.is_program, self.is_static]}"

    def files(self):
        return sorted(it for part in ("src", "specs", "proofs") for it in (self.folder / part).rglob("*") if it.is_file())

    def steps(self):
        """The words of rt that prove and build the crate; a program is run on an empty input."""
        is_long = sum(it.read_bytes().count(b"\n") for it in (self.folder / "src").rglob("*.rt")) >= LONG
        return [*["check"] * is_long, "run" if self.is_program else "lib"]


def crates():
    """The crates of crates.txt, each with those that it stands on."""
    found = {}
    for line in (ROOT / "crates.txt").read_text(encoding="utf-8").splitlines():
        if head := line.partition("#")[0].strip():
            words, _, deps = head.partition(":")
            found[words.split()[0]] = Crate(words.split()[0], "staticlib" in words.split()[1:], deps.split())
    return found


def below(known, names):
    """The crates with these names and those that they stand on, each behind its own."""
    found = []
    for name in names:
        found += [it for it in [*below(known, [it for it in known[name].deps if it in known]), known[name]] if it not in found]
    return found


def sum_of_files(known, crate, kit):
    """A sum of all that a crate is built of."""
    made = hashlib.sha256(kit.encode())
    for it in below(known, [crate.name]):
        made.update(f"{it}\n".encode())
        for file in it.files():
            made.update(f"{file.relative_to(ROOT)} {hashlib.sha256(file.read_bytes()).hexdigest()}\n".encode())
    return made.hexdigest()


def sum_of_product(crate):
    """A sum of what was built, where that is a file; a library is a folder, which rt itself looks after."""
    product = ROOT / crate.product
    if product.is_dir():
        return "built"
    return hashlib.sha256(product.read_bytes()).hexdigest() if product.is_file() else "missing"


def is_built(known, crate, kit):
    kept = KEPT / f"{crate.name}.sum"
    product = sum_of_product(crate)
    return product != "missing" and kept.is_file() and kept.read_text() == f"{sum_of_files(known, crate, kit)} {product}\n"


class Screen:
    """The standard output: lines that stay, and the one of the crate at work."""

    def __init__(self):
        # Where the standard output is closed there is none, and nothing is written.
        self.is_terminal = bool(sys.stdout) and sys.stdout.isatty()
        self.last, self.shown = time.monotonic(), ""

    def stays(self, text):
        print(f"\r{text}\033[K" if self.is_terminal else text, flush=True)
        self.last = time.monotonic()

    def passes(self, text):
        if self.is_terminal and text != self.shown:
            print(f"\r{text[:shutil.get_terminal_size().columns - 1]}\033[K", end="", flush=True)
            self.shown = text
        elif not self.is_terminal and time.monotonic() - self.last >= EVERY:
            self.stays(text)

    def ends(self):
        """Leaves the line that passes as it is, so that what comes next has one of its own."""
        if self.is_terminal:
            print(flush=True)


def lines(run):
    """The lines of a run as they come, and an empty one after each second in which none came."""
    held = b""
    while True:
        if not select.select([run.stdout], [], [], 1)[0]:
            yield ""
            continue
        more = os.read(run.stdout.fileno(), 1 << 16)
        *whole, held = (held + (more or b"\n")).split(b"\n")
        yield from (it.decode(errors="replace") for it in whole)
        if not more:
            return


class Work:
    """The building of one crate."""

    def __init__(self, crate, place, screen):
        self.crate, self.place, self.screen = crate, place, screen
        self.began, self.proved, self.of = time.monotonic(), 0, 0
        # What rt was asked last, and wrote.
        self.word, self.said = "", []

    def proofs(self, is_done):
        """How many functions are proved."""
        count = self.of or self.proved
        functions = "1 function" if count == 1 else f"{count} functions"
        if self.of:
            return f"{self.proved} of {functions}"
        if not self.proved:
            return "proved" if is_done else "begun"
        return f"{functions} proved" if is_done else f"{functions} proved, building"

    def text(self, is_done=False):
        return f"{self.crate.name}: {self.place}, {self.proofs(is_done)}, {time.monotonic() - self.began:.0f} s"

    def see(self, line):
        """Counts by a line of rt: of a check or a long build that goes on, or of the verdict on a function."""
        if found := re.match(r"(?:checked .+, |so far: )(\d+) of (\d+)\b", line):
            self.proved, self.of = max(self.proved, int(found[1])), int(found[2])
        elif re.match(r"fn \S+: proved", line):
            self.verdicts += 1
            self.proved, self.of = max(self.proved, self.verdicts), 0

    def step(self, word, log):
        """Runs rt with this word in the crate's folder, and gives whether it passed."""
        self.word, self.said, self.verdicts = word, [], 0
        log.write(f"== {self.crate.name}: rt {word}\n")
        how = {"stdin": subprocess.DEVNULL, "stdout": subprocess.PIPE, "stderr": subprocess.STDOUT}
        with subprocess.Popen(["rt", word], cwd=self.crate.folder, **how) as run:
            for line in lines(run):
                if line:
                    self.said.append(line)
                    log.write(f"{line}\n")
                    log.flush()
                    self.see(line)
                # The verdicts come all at once.
                if not line.startswith("fn "):
                    self.screen.passes(self.text())
        return run.returncode == 0

    def build(self, log):
        passed = all(self.step(word, log) for word in self.crate.steps())
        if passed:
            self.screen.stays(self.text(is_done=True))
        return passed


def failed(work):
    """What rt wrote of a crate that failed: first what was not proved, since that stands far above the end."""
    work.screen.ends()
    unproved = [it for it in work.said if NOT_PROVED.match(it)]
    begin = f"build: failed: {work.crate.name}, by rt {work.word}"
    if unproved:
        print(f"{begin}; what is not proved:", *unproved[:SHOWN], sep="\n    ", file=sys.stderr)
    print(f"{begin}; the end of {LOG.relative_to(ROOT)}:", *work.said[-SHOWN:], sep="\n    ", file=sys.stderr)
    return 1


def main(names, screen):
    known = crates()
    if not names or not {*names} <= {*known}:
        sys.exit(__doc__)
    kit = subprocess.run(["rt", "version"], check=True, capture_output=True, text=True).stdout
    KEPT.mkdir(parents=True, exist_ok=True)
    needed = below(known, names)
    left = [it for it in needed if not is_built(known, it, kit)]
    if len(left) < len(needed):
        screen.stays(f"build: {len(needed) - len(left)} of {len(needed)} crates have not changed since they were built here")
    if left:
        screen.stays(f"build: what rt writes goes to {LOG.relative_to(ROOT)}; its lines with 'note:' are harmless: advice on text that is proved all the same")
    with open(LOG if left else os.devnull, "w", encoding="utf-8") as log:
        for crate in left:
            # Taken before, so that an edit in the meantime is not taken for what was built.
            files = sum_of_files(known, crate, kit)
            work = Work(crate, f"crate {needed.index(crate) + 1} of {len(needed)}", screen)
            if not work.build(log):
                return failed(work)
            (KEPT / f"{crate.name}.sum").write_text(f"{files} {sum_of_product(crate)}\n")
    return 0


def guarded(names):
    """The status, also where the work is interrupted, or a file, the output or rt itself fails."""
    screen = Screen()
    try:
        return main(names, screen)
    except KeyboardInterrupt:
        screen.ends()
        return 130
    except (OSError, subprocess.CalledProcessError) as fault:
        print(f"build: failed: {fault}", file=sys.stderr)
        # What the output did not take is not tried again at the end.
        os.dup2(os.open(os.devnull, os.O_WRONLY), 1)
        return 1


if __name__ == "__main__":
    sys.exit(guarded(sys.argv[1:]))
