#!/usr/bin/env python3
"""Writes the table of pairs of digits of crate lines (src/pairs.rt): the two upper-case hexadecimal digits of each number below 256.

Nothing here needs trust: the crate's proofs compute the table's rule against the definition (specs/Hex.antt) over all 256 rows.
    tools/pairs.py            write the file
    tools/pairs.py --check    exit 1 if the file is not what would be written
"""
import pathlib, sys

root = pathlib.Path(__file__).resolve().parent.parent / "crates/lines"

ROW = 12  # as many rows to a line as `rt fmt` puts there

rows = [f'*b"{v:02X}"' for v in range(256)]
lines = [", ".join(rows[i:i + ROW]) for i in range(0, len(rows), ROW)]
text = ("// The two upper-case hexadecimal digits of each number below 256, a row for each. Made by tools/pairs.py.\n"
        "pub(crate) const PAIR_VALUES: usize = 256;\n\n"
        "pub(crate) const PAIR: usize = 2;\n\n"
        "pub(crate) static PAIRS: [[u8; PAIR]; PAIR_VALUES] = [\n    " + ",\n    ".join(lines) + ",\n];\n")
path = root / "src/pairs.rt"
if "--check" in sys.argv[1:]:
    if not path.exists() or path.read_text() != text:
        sys.exit(f"{path} is not what tools/pairs.py writes")
else:
    path.write_text(text)
