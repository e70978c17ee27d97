"""What the picture of tools/architecture.py is drawn with: boxes with a name and a text, and lines between them of which each piece is along an axis."""
from xml.sax.saxutils import escape

SLANT = 8
NAME_SIZE, TEXT_SIZE, LEADING = 13, 11.5, 14.5

# Widths of characters in parts of the font's size, as wide as the widest of the usual fonts has them.
NARROW, WIDE = dict.fromkeys("ijlftrI.,:;()/ ", 0.42), dict.fromkeys("mwMW", 0.98)


def wide(words, size, bold=False):
    return sum(NARROW.get(c) or WIDE.get(c) or (0.76 if c.isupper() else 0.62) for c in words) * size * (1.08 if bold else 1)


def wrapped(words, room):
    """The words in lines that have room; a line end of the text stays."""
    lines = []
    for part in words.split("\n"):
        lines.append("")
        for word in part.split():
            longer = f"{lines[-1]} {word}".strip()
            lines = [*lines[:-1], longer] if wide(longer, TEXT_SIZE) <= room else [*lines, word]
    return lines


def balanced(words, room):
    """The same in as few lines, but as narrow as these can be, so that no line is left with a single word."""
    lines = wrapped(words, room)
    while room > 40 and len(narrower := wrapped(words, room - 4)) == len(lines):
        lines, room = narrower, room - 4
    return lines


class Box:
    """A name and a text in a form: `code`, `definitions`, `tests`, `around`, `data` or `meant`."""

    def __init__(self, name, kind, text, x, y, w, h):
        self.name, self.kind, self.x, self.y, self.w, self.h = name, kind, x, y, w, h
        self.lines = balanced(text, w - (30 if kind in ("data", "meant") else 16))

    def port(self, said):
        """A place on a side: L12 is on the left, 12 below the top."""
        side, along = said[0], int(said[1:])
        assert 0 < along < (self.h if side in "LR" else self.w), f"{self.name}: no place {said}"
        if side in "LR":
            return (self.x if side == "L" else self.x + self.w), self.y + along
        return self.x + along, (self.y if side == "T" else self.y + self.h)

    def meets(self, x1, y1, x2, y2):
        """Whether its inside meets that of a rectangle or of a line."""
        return min(x1, x2) < self.x + self.w and max(x1, x2) > self.x and min(y1, y2) < self.y + self.h and max(y1, y2) > self.y

    def faults(self):
        if NAME_SIZE + 5 + LEADING * len(self.lines) > self.h or max(wide(line, TEXT_SIZE) for line in self.lines) > self.w - 16:
            yield f"{self.name}: the text is too long for its box: {self.lines}"
        if wide(self.name, NAME_SIZE, True) > self.w - 16:
            yield f"{self.name}: the name is too long for its box"


def way(drawn, ends, said):
    """The points of an edge: from one box to the other, each piece along an axis."""
    first, *turns, last = said.split()
    points, (end_x, end_y) = [drawn[ends[0]].port(first)], drawn[ends[1]].port(last)
    across = first[0] in "LR"
    for turn in turns:
        x, y = points[-1]
        points.append((int(turn[1:]), y) if turn[0] == "x" else (x, int(turn[1:])))
        across = turn[0] != "x"
    x, y = points[-1]
    if x != end_x and y != end_y:
        points.append((end_x, y) if across else (x, end_y))
    return [*points, (end_x, end_y)]


def parting(one, other):
    """Where two lines part that begin at one place, if they have a piece in common."""
    for (a, b), (_, c) in zip(zip(one, one[1:]), zip(other, other[1:])):
        if b != c:
            ahead = [((p[0] - a[0] > 0) - (p[0] - a[0] < 0), (p[1] - a[1] > 0) - (p[1] - a[1] < 0)) for p in (b, c)]
            part = a if ahead[0] != ahead[1] else min(b, c, key=lambda p: abs(p[0] - a[0]) + abs(p[1] - a[1]))
            return None if part == one[0] else part
    return None


def joints(ways):
    """The places where lines part or come together. They get a dot, so that where there is none they only cross."""
    found = {parting(one, other) for _, one in ways for _, other in ways if one != other and one[0] == other[0]}
    found |= {parting(one[::-1], other[::-1]) for _, one in ways for _, other in ways if one != other and one[-1] == other[-1]}
    return sorted(found - {None})


def crossed(drawn, ends, points):
    for (x1, y1), (x2, y2) in zip(points, points[1:]):
        if x1 != x2 and y1 != y2:
            yield f"{ends[0]} to {ends[1]}: a piece of the line is aslant, {x1},{y1} to {x2},{y2}"
        yield from (f"{ends[0]} to {ends[1]}: the line runs through {box.name}" for box in drawn.values() if box.meets(x1, y1, x2, y2))


STYLE = """
text{font-family:sans-serif;font-size:11.5px;fill:#26303c} .name{font-size:13px;font-weight:bold} .title{font-size:18px;font-weight:bold} .soft{fill:#5b6674}
.code{fill:#e6eefb;stroke:#2f5597;stroke-width:1.5} .definitions{fill:#efe6fa;stroke:#6a3fa0;stroke-width:1.5} .fold{fill:none;stroke:#6a3fa0;stroke-width:1.5}
.tests{fill:#eef0f2;stroke:#79838f} .around{fill:#fff;stroke:#5b6674;stroke-dasharray:5 3} .data{fill:#fdeec4;stroke:#a66a00;stroke-width:1.5}
.meant{fill:#fff;stroke:#a66a00;stroke-width:1.5;stroke-dasharray:5 3} .on{fill:none;stroke:#68727e;stroke-width:1.2;marker-end:url(#thin)}
.calls{fill:none;stroke:#68727e;stroke-width:1.2;stroke-dasharray:5 3;marker-end:url(#thin)}
.flow{fill:none;stroke:#c77700;stroke-width:5;marker-end:url(#thick)}
.meaning{fill:none;stroke:#c77700;stroke-width:2.5;stroke-dasharray:6 4;marker-end:url(#middle)}
"""
MARKER = ('<marker id="{0}" viewBox="0 0 8 8" refX="{1}" refY="4" markerWidth="{2}" markerHeight="{2}" markerUnits="userSpaceOnUse" orient="auto">'
          '<path d="M0 0L8 4L0 8z" fill="{3}"/></marker>')
# The tip of a thin line is at its end. A broad one ends where its tip begins, or it would show beside the tip.
MARKERS = (("thin", 8, 8, "#68727e"), ("middle", 1, 12, "#c77700"), ("thick", 1, 16, "#c77700"))
TIPS = {"meaning": 10.5, "flow": 14}


def markers():
    return "".join(MARKER.format(*marker) for marker in MARKERS)


def outline(box):
    """The outline of a box, by what it is: a rectangle, a sheet with its corner folded, a rectangle with round ends, or the slanted box of data."""
    x, y, right, low = box.x, box.y, box.x + box.w, box.y + box.h
    if box.kind in ("data", "meant"):
        return f'<path class="{box.kind}" d="M{x + SLANT} {y}H{right}L{right - SLANT} {low}H{x}z"/>'
    if box.kind == "definitions":
        return f'<path class="definitions" d="M{x} {y}H{right - 14}L{right} {y + 14}V{low}H{x}z"/><path class="fold" d="M{right - 14} {y}V{y + 14}H{right}"/>'
    return f'<rect class="{box.kind}" x="{x}" y="{y}" width="{box.w}" height="{box.h}" rx="{16 if box.kind == "tests" else 0}"/>'


def written(words, x, y, more=""):
    return f'<text x="{x:g}" y="{y:g}"{more}>{escape(words)}</text>'


def box_drawn(box):
    middle, top = box.x + box.w / 2, box.y + (box.h - NAME_SIZE - LEADING * len(box.lines)) / 2
    yield outline(box)
    yield written(box.name, middle, top + NAME_SIZE - 2, ' class="name" text-anchor="middle"')
    for i, line in enumerate(box.lines):
        yield written(line, middle, top + NAME_SIZE - 1 + LEADING * (i + 1), ' text-anchor="middle"')


def line_drawn(kind, points):
    """The line, shorter by the tip of a broad one."""
    (x, y), (end_x, end_y), tip = points[-2], points[-1], TIPS.get(kind, 0)
    far = abs(end_x - x) + abs(end_y - y)
    end = (end_x - tip * (end_x - x) / far, end_y - tip * (end_y - y) / far)
    return f'<path class="{kind}" d="M' + "L".join(f"{a:g} {b:g}" for a, b in [*points[:-1], end]) + '"/>'
