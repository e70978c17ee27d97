#!/usr/bin/env python3
"""Writes the table of 256 lexeme classes of crate lexer (src/table.rt) from the sets of bytes that document 01, "Lexemes", names.

Nothing here needs trust: the crate's proofs compute the table's rule against the definition (specs/Bytes.antt) over all 256 entries.
    tools/bytes.py            write the file
    tools/bytes.py --check    exit 1 if the file is not what would be written
The numbers of the classes are those of specs/Bytes.antt and, for a mark of one byte, its kind's of src/classes.rt.
"""
import pathlib, re, string, sys

root = pathlib.Path(__file__).resolve().parent.parent / "crates/lexer"


def numbers(file, form):
    return dict(re.findall(form, (root / file).read_text(), re.M))


kinds = numbers("src/classes.rt", r"const (\w+): u32 = (\d+);")
classes = numbers("specs/Bytes.antt", r"^(\w+) = (\d+)$")
# the marks of one byte
marks = {":": "COLON", ";": "SEMI", ",": "COMMA", "=": "EQ", "(": "LPAREN", ")": "RPAREN", "[": "LBRACKET", "]": "RBRACKET", "{": "LBRACE", "}": "RBRACE",
         "<": "LANGLE", ">": "RANGLE"}


def class_of(byte):
    """The first set that has the byte gives its class."""
    b = chr(byte)
    if byte > 127:
        return classes["NotAscii"]
    if b in "\r\n":
        return classes["LineEnd"]
    if 9 <= byte <= 13 or byte == 32:  # "Whitespace is bytes 9 to 13 and 32."
        return classes["Space"]
    if b == "_":
        return classes["Underscore"]
    if b in "01":
        return classes["BinaryDigit"]
    if b in string.digits:
        return classes["Digit"]
    if b in string.hexdigits:
        return classes["HexLetter"]
    if b in string.ascii_letters:
        return classes["Letter"]
    if b == "/":
        return classes["Slash"]
    if b == "-":
        return classes["Minus"]
    return kinds[marks[b]] if b in marks else classes["Other"]


table = [int(class_of(byte)) for byte in range(256)]
rows = ["".join(f"\\x{c:02x}" for c in table[i:i + 32]) for i in range(0, 256, 32)]
text = ("// The class of each of the 256 byte values, 32 to a line. Made by tools/bytes.py from the sets of document 01, \"Lexemes\".\n"
        'pub(crate) const CLASSES: [u8; 256] = *b"\\\n    ' + "\\\n    ".join(rows) + '";\n')
path = root / "src/table.rt"
if "--check" in sys.argv[1:]:
    if not path.exists() or path.read_text() != text:
        sys.exit(f"{path} is not what tools/bytes.py writes")
else:
    path.write_text(text)
