"""The programs that tests run. Those of the documents take two as their arguments: the listing program, by default crates/listing/out/listing, and c/load.c, by
default target/load."""
import pathlib, subprocess, sys

ROOT = pathlib.Path(__file__).resolve().parent.parent


def program(number, default):
    """The path of a program: the argument with this number, if there is one."""
    return pathlib.Path(sys.argv[number] if len(sys.argv) > number else ROOT / default).resolve()


def listing(draft):
    """The lines that the listing program writes for a draft."""
    return subprocess.run([program(1, "crates/listing/out/listing")], input=draft, check=True, capture_output=True).stdout


def loaded(lines, *words):
    """What c/load.c writes for a listing, with a buffer of so many words if they are given. Its status is 1 where it is refused."""
    run = subprocess.run([program(2, "target/load"), *map(str, words)], input=lines, capture_output=True)
    return run.stdout if run.returncode in (0, 1) else b""


def finish(name, seen, faults):
    """Writes what is wrong and how many texts were seen, and ends with the status."""
    for fault in faults:
        print(f"{name}: failed: {fault}")
    print(f"{name}: {seen}")
    sys.exit(bool(faults))
