#!/usr/bin/env python3
"""Draws what `bench tokens` or `bench depth` measured, from standard input, as an SVG on standard output: one line of the plot for each column.

    plot.py tokens|depth
"""
import sys

WIDTH, HEIGHT = 760, 420
LEFT, RIGHT, TOP, BOTTOM = 64, 112, 44, 56
# Each colour, and the grey of text and axes, can be told from white and from black.
GREY, BLUE, ORANGE = "#7a7a7a", "#2f81d6", "#d9601a"
# Title, name of the horizontal axis, and name, colour and dashes of each line.
PLOTS = {
    "tokens": ("Statements", "tokens", [("here", BLUE, ""), ("partner", ORANGE, "")]),
    "depth": ("Pairs nested in first place, and flat text with as many tokens", "open brackets", [
        ("pairs, here", BLUE, ""), ("pairs, partner", ORANGE, ""), ("flat, here", BLUE, "5 4"), ("flat, partner", ORANGE, "5 4")]),
}


def step(most):
    """The distance of marks on an axis: 1, 2 or 5 times a power of ten, for at most eight of them."""
    size = 1
    while True:
        for times in (1, 2, 5):
            if most <= 8 * times * size:
                return times * size
        size *= 10


class Axis:
    """Numbers from 0 to the first mark that none of them is over, between two places of the plot."""

    def __init__(self, numbers, low, high):
        self.step = step(max(numbers))
        self.top = -(-max(numbers) // self.step) * self.step
        self.low, self.high = low, high

    def place(self, number):
        return self.low + (self.high - self.low) * number / self.top

    def marks(self):
        return [self.step * i for i in range(int(self.top / self.step) + 1)]


def text(x, y, words, anchor="middle", fill=GREY, more=""):
    return f'<text x="{x:.1f}" y="{y:.1f}" text-anchor="{anchor}" fill="{fill}"{more}>{words}</text>'


def line(x1, y1, x2, y2, opacity):
    return f'<line x1="{x1:.1f}" y1="{y1:.1f}" x2="{x2:.1f}" y2="{y2:.1f}" stroke="{GREY}" stroke-opacity="{opacity}"/>'


def axes(across, up, name):
    for mark in across.marks():
        yield line(across.place(mark), up.low, across.place(mark), up.low + 5, 1)
        yield text(across.place(mark), up.low + 20, f"{mark:,}")
    for mark in up.marks():
        yield line(across.low, up.place(mark), across.high, up.place(mark), 0.3 if mark else 1)
        yield text(across.low - 8, up.place(mark) + 4, f"{mark:,}", "end")
    yield line(across.low, up.low, across.low, up.high, 1)
    yield text((across.low + across.high) / 2, HEIGHT - 12, name)
    middle = (up.low + up.high) / 2
    yield text(16, middle, "microseconds for one reading", more=f' transform="rotate(-90 16 {middle:.1f})"')


def apart(places, distance):
    """The places of labels, moved down where they are too near to the one above."""
    moved = list(places)
    order = sorted(range(len(places)), key=lambda i: places[i])
    for above, below in zip(order, order[1:]):
        moved[below] = max(moved[below], moved[above] + distance)
    return moved


def drawn(rows, title, name, names):
    across = Axis([row[0] for row in rows], LEFT, WIDTH - RIGHT)
    up = Axis([time for row in rows for time in row[1:]], HEIGHT - BOTTOM, TOP)
    yield f'<svg xmlns="http://www.w3.org/2000/svg" viewBox="0 0 {WIDTH} {HEIGHT}" width="{WIDTH}" height="{HEIGHT}" font-family="sans-serif" font-size="13">'
    yield text(LEFT, 22, title, "start", more=' font-size="15"')
    yield from axes(across, up, name)
    labels = apart([up.place(time) for time in rows[-1][1:]], 16)
    for i, (label, colour, dashes) in enumerate(names):
        points = " ".join(f"{across.place(row[0]):.1f},{up.place(row[1 + i]):.1f}" for row in rows)
        dashed = f' stroke-dasharray="{dashes}"' if dashes else ""
        yield f'<polyline points="{points}" fill="none" stroke="{colour}" stroke-width="2"{dashed}/>'
        yield text(across.high + 8, labels[i] + 4, label, "start", colour)
    yield "</svg>"


def main():
    title, name, names = PLOTS[sys.argv[1]]
    rows = [[float(number) for number in row.split()] for row in sys.stdin]
    assert rows and all(len(row) == 1 + len(names) for row in rows), "one time for each line of the plot"
    print("\n".join(drawn(rows, title, name, names)))


main()
