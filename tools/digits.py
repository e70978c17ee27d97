#!/usr/bin/env python3
"""Writes the table of digit values of crate load (src/digits.rt): the value of each byte as an upper-case hexadecimal digit, 16 for the rest.

Nothing here needs trust: the crate's proofs compute the table's rule against the definition (specs/Listing/Read.antt) over all 256 entries.
    tools/digits.py            write the file
    tools/digits.py --check    exit 1 if the file is not what would be written
"""
import pathlib, sys

root = pathlib.Path(__file__).resolve().parent.parent / "crates/load"
digits = "0123456789ABCDEF"

table = [digits.find(chr(byte)) if chr(byte) in digits else len(digits) for byte in range(256)]
rows = ["".join(f"\\x{v:02x}" for v in table[i:i + 32]) for i in range(0, 256, 32)]
text = ("// The value of each of the 256 byte values as an upper-case hexadecimal digit, 16 for the rest, 32 to a line. Made by tools/digits.py.\n"
        "pub(crate) const BYTE_VALUES: usize = 256;\n\n"
        'pub(crate) static DIGITS: [u8; BYTE_VALUES] = *b"\\\n    ' + "\\\n    ".join(rows) + '";\n')
path = root / "src/digits.rt"
if "--check" in sys.argv[1:]:
    if not path.exists() or path.read_text() != text:
        sys.exit(f"{path} is not what tools/digits.py writes")
else:
    path.write_text(text)
