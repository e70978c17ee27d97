#!/usr/bin/env python3
"""No function of a library has a multiply or a divide in its machine code (document 02, order 4).

    tools/multiply.py ARCHIVE FUNCTION..    the FUNCTIONs must be in it, and nothing in it may multiply or divide, or call what could
    tools/multiply.py --list ARCHIVE        every multiply and divide of the archive, after its function

First it must find those of two functions in C. Needs objdump, nm and gcc.
"""
import re
import subprocess
import sys
import tempfile

# Whole numbers, floats and vectors; also what multiplies and adds at once.
MULTIPLIES = re.compile(r"mul|div|m(add|sub)|dpp|dpb|dpw")
# What may be called outside: clearing bytes.
CALLED = {"memset"}
KNOWN = "unsigned long product(unsigned long a, unsigned long b) { return a * b; }\nunsigned long tenth(unsigned long a) { return a / 10; }\n"


def output(*command):
    return subprocess.run(command, check=True, capture_output=True, text=True).stdout


def instructions(path):
    """The functions of an object or archive, each with its instructions."""
    functions, name = {}, None
    for line in output("objdump", "-d", "--no-show-raw-insn", path).splitlines():
        if start := re.fullmatch(r"[0-9a-f]+ <(.+)>:", line):
            name = start[1]
            functions.setdefault(name, [])
        elif instruction := re.match(r"\s*[0-9a-f]+:\t(.+)", line):
            functions[name].append(instruction[1])
    return functions


def found(functions):
    """The instructions that multiply or divide; the names of what is called are no part of one."""
    return [(name, i) for name, body in functions.items() for i in body if MULTIPLIES.search(re.sub(r"<.*>", "", i))]


def outside(path):
    """What is called that the object or archive does not have."""
    symbols = [line.split()[-2:] for line in output("nm", path).splitlines() if re.match(r"[0-9a-f ]{16} \w ", line)]
    return {name for kind, name in symbols if kind in "Uw"} - {name for kind, name in symbols if kind not in "Uw"}


def sees():
    """Whether the multiplies of the two functions in C are found."""
    with tempfile.TemporaryDirectory() as work:
        with open(f"{work}/known.c", "w") as file:
            file.write(KNOWN)
        output("gcc", "-O2", "-c", "-o", f"{work}/known.o", f"{work}/known.c")
        return {name for name, _ in found(instructions(f"{work}/known.o"))} == {"product", "tenth"}


def main(words):
    if len(words) == 2 and words[0] == "--list":
        for name, instruction in found(instructions(words[1])):
            print(f"{name}: {instruction}")
        return 0
    if len(words) < 2:
        sys.exit(__doc__)
    archive, names = words[0], words[1:]
    wrong = [] if sees() else ["the multiplies of two functions in C were not found"]
    functions = instructions(archive)
    wrong += [f"{name}: {instruction}" for name, instruction in found(functions)]
    wrong += [f"no function {name}" for name in names if not functions.get(name)]
    wrong += [f"calls {name}" for name in sorted(outside(archive) - CALLED)]
    for line in wrong:
        print(f"multiply: failed: {archive}: {line}")
    if not wrong:
        print(f"multiply: {archive}: {sum(map(len, functions.values()))} instructions in {len(functions)} functions, no multiply and no divide")
    return int(bool(wrong))


if __name__ == "__main__":
    sys.exit(main(sys.argv[1:]))
