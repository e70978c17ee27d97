"""A second reading of docs/COMMAND.md, in Python: what `togmelic` writes of a draft, from the draft and the lines of its listing alone. For
tools/command_cases.py, tools/command_drafts.py and tools/terminal.py; the lines come from the partner, which shares no code with the proved reader."""
import json, re

from program import ROOT

# The names of kinds 1 to 42, of calls 1 to 14, of arms 1 to 6 and of built-in types from 0, in the order of document 01.
KINDS = ["", *re.split(r",\s+", """function, name, parameter, alias, builtin, bool type, unsigned, Either type, Option type, tuple type, array type, list type,
    identifier pattern, ignore pattern, tuple pattern, array pattern, let, block, Left, Right, Some, None, boolean, decimal, hexadecimal, binary, witness,
    parameter value, variable, parenthesised, tuple, array, list, enum construction, match, enum match, built-in arm, enum arm, call, number, program,
    type item""")]
CALLS = ["", *"jet unwrap_left unwrap_right unwrap is_none assert! panic! dbg! into function fold array_fold for_while raw_hash".split()]
ARMS = ["", *"Left Right None Some false true".split()]
ALIASES = """Ctx8 Pubkey Message Message64 Signature Scalar Fe Ge Gej Point Height Time Distance Duration Lock Outpoint Confidential1 ExplicitAsset Asset1
    ExplicitAmount Amount1 ExplicitNonce Nonce TokenAmount1""".split()
# Kinds whose place is one token, and those whose label has its text.
ONE_TOKEN = [2, 4, 5, 6, 7, 13, 14, *range(22, 30), 40]
WITH_TEXT = [2, 4, 5, 7, 13, 23, 24, 25, 26, 29, 40]
NAME, BUILTIN, ARRAY_TYPE, LIST_TYPE, BUILTIN_ARM, CALL, NUMBER = 2, 5, 11, 12, 37, 39, 40
REASONS = {
    1: "the draft is over 16,384 bytes", 2: "a byte outside comments is over 127", 3: "no lexeme starts here", 4: "a block comment is never closed",
    5: "the word simc is reserved", 6: "there are over 2,048 tokens", 7: "over 48 brackets are open, or over 8 match stand in a row",
    8: "the draft cannot go on with this token", 9: "the bound is not a power of two from 2 to 9,223,372,036,854,775,808",
    10: "the size is 0 or over 18,446,744,073,709,551,615", 11: "the match has no arms", 12: "the match has enum arms and built-in arms",
    13: "the match does not have two built-in arms", 14: "the two built-in arms do not belong together",
    19: "the array length is over 18,446,744,073,709,551,615", 21: "the comment is not well-formed UTF-8"}
# With --large, and what stands before the help without it.
LARGE_REASONS = {1: "the draft is over 1,048,576 bytes", 6: "there are over 131,072 tokens"}
RAISED = {1: "with --large up to 1,048,576 bytes are read; else ", 6: "with --large up to 131,072 tokens are read; else "}
# How many bytes are read of a file, without --large and with it.
MOST_READ, COLUMNS = {False: 16_385, True: 1_048_577}, 100
DIM, CYAN, RED, BLUE, PLAIN = "\x1b[2m", "\x1b[36m", "\x1b[1;31m", "\x1b[1;34m", "\x1b[0m"


def text_of(raw):
    """One character a well-formed sequence, and one of U+DC80 to U+DCFF for each other byte."""
    return raw.decode("utf-8", "surrogateescape")


def place(draft, at):
    """Line and column of a place."""
    begin = draft.rfind(b"\n", 0, at) + 1
    end, column = begin, 1
    for char in text_of(draft[begin:].partition(b"\n")[0]):
        end += len(char.encode("utf-8", "surrogateescape"))
        column += end <= at
    return draft.count(b"\n", 0, at) + 1, column


# Control characters, bytes that are not UTF-8, and characters that are not seen, turn the direction of text or end the line.
HIDDEN = ((0x80, 0x9F), (0xDC80, 0xDCFF), (0xAD, 0xAD), (0x61C, 0x61C), (0x200B, 0x200F), (0x2028, 0x202E), (0x2060, 0x206F), (0xFEFF, 0xFEFF))


def picture(char):
    """A character of a source line as it is shown."""
    code = ord(char)
    if char == "\t":
        return "    "
    if code < 32 or code == 127:
        return chr(0x2400 + code if code < 32 else 0x2421)
    hidden = any(first <= code <= last for first, last in HIDDEN)
    return "\ufffd" if hidden else char


def source(draft, at, width):
    """The source line of a place as it is shown in so many columns, and the column of the caret, from 0."""
    line, column = place(draft, at)
    raw = draft.split(b"\n")[line - 1]
    if line <= draft.count(b"\n"):
        raw = raw.removesuffix(b"\r")
    pictures = [picture(char) for char in text_of(raw)]
    shown, caret = "".join(pictures), len("".join(pictures[:column - 1]))
    # A caret behind the last character counts as one too, and no fewer than three are shown.
    width = max(width, 3)
    if max(len(shown), caret + 1) <= width:
        return shown.rstrip(" "), caret
    begin = max(0, caret - width // 2)
    part = shown[begin:begin + width]
    if begin > 0:
        part = "…" + part[1:]
    if begin + width < len(shown):
        part = part[:-1] + "…"
    return part.rstrip(" "), caret - begin


def helps():
    """The first sentence of what docs/REFUSALS.md says to do, by number, and at the draft's end."""
    found = {}
    for number, body in re.findall(r"^## (\d+): [^\n]*\n(.*?)(?=^## |\Z)", (ROOT / "docs/REFUSALS.md").read_text(), re.M | re.S):
        do = " ".join(re.search(r"^Do: (.*?)(?:\n\n|\Z)", body, re.M | re.S)[1].split())
        found[int(number)] = re.split(r"\.(?: |$)", do)[0]
        if ends := re.search(r"^Do, where the place is the draft's length: (.*?)\.$", body, re.M):
            found[number, "end"] = ends[1]
    return found


def help_of(draft, number, at, large):
    said = helps()[("8", "end") if (number, at) == (8, len(draft)) else number]
    return said if large else RAISED.get(number, "") + said


def reason(draft, number, at, large):
    if (number, at) == (8, len(draft)):
        return "the draft cannot end here"
    return LARGE_REASONS[number] if large and number in LARGE_REASONS else REASONS[number]


def report(name, draft, number, at, width=COLUMNS, colour=False, large=False):
    """What check says of a refused draft."""
    def dyed(escape, text):
        return f"{escape}{text}{PLAIN}" if colour else text
    line, column = place(draft, at)
    digits = str(line)
    shown, caret = source(draft, at, width - len(digits) - 3)
    bar, gap = dyed(BLUE, "|"), len(digits) * " "
    return "\n".join([
        f"{name}:{line}:{column}: " + dyed(RED, f"refused ({number})") + ": " + reason(draft, number, at, large),
        f"{gap} {bar}", f"{dyed(BLUE, digits)} {bar} {shown}".removesuffix(" "), f"{gap} {bar} {' ' * caret}{dyed(RED, '^')}",
        f"{gap} {dyed(BLUE, '= help:')} {help_of(draft, number, at, large)}", ""])


class Record:
    """A line of a listing, with its number, its parent's and those of its children."""
    def __init__(self, number, line):
        self.kind, self.start, self.end, self.low, self.high, self.size, self.up = (int(field, 16) for field in line.split())
        self.number, self.children = number, []
        self.parent = number - self.up if self.up else None


def records(lines):
    found = [Record(number, line) for number, line in enumerate(lines.splitlines())]
    for record in found[1:]:
        found[record.parent].children.append(record)
    return found


def text(draft, record):
    return draft[record.start:record.end].decode("ascii")


def counted(number, word):
    return f"{number} {word}" + "s" * (number != 1)


def call_label(draft, record):
    """What is called: its word, and the text of a name child."""
    names = [text(draft, child).removeprefix("jet::") for child in record.children[:1] if child.kind == NAME]
    return " ".join([CALLS[record.low], *names])


def path(draft, record):
    """The names of an enum's construction or arm."""
    return "::".join(text(draft, child) for child in record.children[:record.low])


def number(record):
    return record.low | record.high << 32


def label(draft, record):
    """The label: the words before, what comes from the draft, and the words behind it."""
    name = KINDS[record.kind]
    if record.kind in WITH_TEXT:
        return name, text(draft, record), ""
    match record.kind:
        case 1:
            return "pub " * (record.low & 1) + "function, " + counted(record.high, "parameter") + ", result" * (record.low >> 1), "", ""
        case 27 | 28:
            return name, text(draft, record).partition("::")[2], ""
        case 11:
            return "array", f"[_; {number(record)}]", ""
        case 12:
            return "list", f"List<_, {number(record)}>", ""
        case 18:
            return name + " with a value" * record.low, "", ""
        case 34:
            return name, path(draft, record), ""
        case 37:
            return "arm", ARMS[record.low], ""
        case 38:
            return name, path(draft, record), f", {counted(record.high, 'pattern')}" * (record.high > 0)
        case 39:
            return name, call_label(draft, record), ""
    return name, "", ""


def plain(parts):
    """A label without colours."""
    words, detail, behind = parts
    return f"{words} {detail}{behind}" if detail else words + behind


def drawn(tree):
    """What is drawn before each record."""
    found = [""]
    stems = {0: ""}
    for record in tree[1:]:
        last = tree[record.parent].children[-1] is record
        found.append(stems[record.parent] + ("└─ " if last else "├─ "))
        stems[record.number] = stems[record.parent] + ("   " if last else "│  ")
    return found


def within_half(before, width):
    """What is drawn before a label, where a terminal of this width has room for its right half alone."""
    half = width // 2 if width else len(before)
    return before if len(before) <= half else "…" + before[len(before) - half + 1:]


def tree_lines(draft, tree, width=None):
    """The lines of tree, cut to a terminal's width where there is one, without colours."""
    for before, record in zip(drawn(tree), tree):
        line = "%s%s %d:%d" % (within_half(before, width), plain(label(draft, record)), *place(draft, record.start))
        yield line if not width or len(line) <= width else line[:width - 1] + "…"


def coloured_lines(draft, tree, width=None):
    """The same in colours, none cut at its end: the page does not say in which colour that mark is."""
    for before, record in zip(drawn(tree), tree):
        words, detail, behind = label(draft, record)
        detail = f" {CYAN}{detail}{PLAIN}" if detail else ""
        before = f"{DIM}{within_half(before, width)}{PLAIN}" if before else ""
        yield "%s%s%s%s %s%d:%d%s" % (before, words, detail, behind, DIM, *place(draft, record.start), PLAIN)


def record_object(draft, record):
    line, column = place(draft, record.start)
    found = {"kind": record.kind, "name": KINDS[record.kind], "start": record.start, "end": record.end, "line": line, "column": column, "low": record.low,
             "high": record.high, "size": record.size, "up": record.up, "parent": record.parent, "label": plain(label(draft, record))}
    if record.kind in ONE_TOKEN:
        found["text"] = text(draft, record)
    if record.kind in (ARRAY_TYPE, LIST_TYPE, NUMBER):
        found["number"] = str(number(record))
    for kind, key, names in (CALL, "call", CALLS), (BUILTIN_ARM, "arm", ARMS), (BUILTIN, "alias", ALIASES):
        if record.kind == kind:
            found[key] = names[record.low]
    return found


def json_line(name, draft, lines, large=False):
    """What `tree --json` writes."""
    found = {"file": text_of(name).encode("utf-8", "surrogateescape").decode("utf-8", "replace"), "length": len(draft)}
    tree = records(lines)
    if tree[0].kind:
        found["records"] = [record_object(draft, record) for record in tree]
    else:
        why, at = tree[0].low, tree[0].start
        line, column = place(draft, at)
        found["refused"] = {"number": why, "place": at, "line": line, "column": column, "reason": reason(draft, why, at, large),
                            "help": help_of(draft, why, at, large)}
    written = json.dumps(found, ensure_ascii=False, separators=(",", ":"))
    return re.sub(r"\\(?:u(....)|.)", lambda escape: "\\u" + escape[1].upper() if escape[1] else escape[0], written) + "\n"
