"""Draws the figures of how the cost grows: growth.py NUMBERS FOLDER

NUMBERS is what growth.rs prints. Writes FOLDER/growth-run.svg and FOLDER/growth-verdict.svg, which name no font and nothing else that would have to be fetched.
"""

import math
import sys
import textwrap
from html import escape

# The library blue, the rules word by word orange; the first line of each whole with discs, the second dashed with squares.
COLOURS = {"library": "#0060a8", "rules": "#c84e00"}
WIDTH, HEIGHT = 400, 300
LEFT, TOP = 78, 60
UNITS = [(1e9, "s"), (1e6, "ms"), (1e3, "µs"), (1, "ns")]


def read(path):
    """The points by panel and line: x, and the nanoseconds or None."""
    panels = {}
    with open(path, encoding="utf-8") as numbers:
        for row in numbers:
            panel, line, x, ns = row.rstrip("\n").split("\t")
            point = (int(x), None if ns == "-" else float(ns))
            panels.setdefault(panel, {}).setdefault(line, []).append(point)
    return panels


def said(ns):
    unit, name = next(unit for unit in UNITS if ns >= unit[0])
    return f"{ns / unit:g} {name}"


def text(x, y, words, anchor="middle", size=12, more=""):
    return f'<text x="{x:.1f}" y="{y:.1f}" text-anchor="{anchor}" font-size="{size}" {more}>{escape(words)}</text>'


def mark(x, y, second, colour):
    if second:
        return f'<rect x="{x - 3.5:.1f}" y="{y - 3.5:.1f}" width="7" height="7" fill="{colour}"/>'
    return f'<circle cx="{x:.1f}" cy="{y:.1f}" r="4" fill="{colour}"/>'


def stroke(second, colour):
    dashes = ' stroke-dasharray="6 4"' if second else ""
    return f'fill="none" stroke="{colour}" stroke-width="2"{dashes}'


class Panel:
    """One pair of axes, with its lines and its legend; time is on a log scale."""

    def __init__(self, left, title, x_label, lines, log_x):
        self.left, self.title, self.x_label, self.lines, self.log_x = left, title, x_label, lines, log_x
        self.xs = sorted({x for points in lines.values() for x, _ in points})
        times = [ns for points in lines.values() for _, ns in points if ns is not None]
        self.low, self.high = math.floor(math.log10(min(times))), math.ceil(math.log10(max(times)))
        self.parts = []

    def x(self, x):
        scale = math.log if self.log_x else float
        first, last = scale(self.xs[0]), scale(self.xs[-1])
        return self.left + 12 + (WIDTH - 24) * (scale(x) - first) / (last - first)

    def y(self, ns):
        return TOP + HEIGHT * (self.high - math.log10(ns)) / (self.high - self.low)

    def axes(self):
        right, bottom = self.left + WIDTH, TOP + HEIGHT
        for power in range(self.low, self.high + 1):
            y = self.y(10**power)
            self.parts.append(f'<path d="M{self.left} {y:.1f}H{right}" stroke="#dddddd"/>')
            self.parts.append(text(self.left - 8, y + 4, said(10**power), "end"))
        for x in self.xs:
            at = self.x(x)
            self.parts.append(f'<path d="M{at:.1f} {bottom}v5" stroke="#333333"/>')
            self.parts.append(text(at, bottom + 19, f"{x:,}"))
        self.parts.append(f'<rect x="{self.left}" y="{TOP}" width="{WIDTH}" height="{HEIGHT}" fill="none" stroke="#333333"/>')
        self.parts.append(text(self.left + WIDTH / 2, TOP - 12, self.title, size=14, more='font-weight="bold"'))
        self.parts.append(text(self.left + WIDTH / 2, bottom + 40, self.x_label, size=13))
        at = f"{self.left - 60} {TOP + HEIGHT / 2}"
        self.parts.append(text(self.left - 60, TOP + HEIGHT / 2, "time of one call (log scale)", size=13, more=f'transform="rotate(-90 {at})"'))

    def line(self, name, points, second):
        colour = COLOURS[name.split(",")[0]]
        at = [(self.x(x), self.y(ns)) for x, ns in points if ns is not None]
        self.parts.append(f'<polyline points="{" ".join(f"{x:.1f},{y:.1f}" for x, y in at)}" {stroke(second, colour)}/>')
        self.parts.extend(mark(x, y, second, colour) for x, y in at)

    def legend(self, number, name, second):
        colour = COLOURS[name.split(",")[0]]
        x, y = self.left + 10 + number % 2 * WIDTH / 2, TOP + HEIGHT + 64 + number // 2 * 20
        self.parts.append(f'<path d="M{x:.1f} {y - 4}h34" {stroke(second, colour)}/>')
        self.parts.append(mark(x + 17, y - 4, second, colour))
        self.parts.append(text(x + 42, y, name, "start"))

    def drawn(self):
        self.axes()
        seen = {}
        for number, (name, points) in enumerate(self.lines.items()):
            side = name.split(",")[0]
            second = side in seen
            seen[side] = True
            self.line(name, points, second)
            self.legend(number, name, second)
        return self.parts


def left_out(panels):
    """Which points the rules word by word would take too long for, in words."""
    rows = []
    for panel in panels:
        for name, points in panel.lines.items():
            out = [f"{x:,}" for x, ns in points if ns is None]
            if out:
                rows.append(f"{name}, at {' and '.join(out)} {panel.x_label}")
    if not rows:
        return "No point is left out: the rules word by word took less than a second at each."
    return f"Left out, since the rules word by word would take over a second: {'; '.join(rows)}."


def figure(path, title, panels, caption):
    """Writes a figure: its panels side by side, and the caption below."""
    width = LEFT + len(panels) * (WIDTH + LEFT + 20) - 50
    rows = [row for words in caption + [left_out(panels)] for row in textwrap.wrap(words, (width - 40) // 7)]
    height = TOP + HEIGHT + 112 + 17 * len(rows)
    parts = [
        f'<svg xmlns="http://www.w3.org/2000/svg" width="{width}" height="{height}" viewBox="0 0 {width} {height}" font-family="sans-serif" fill="#222222">',
        f"<title>{escape(title)}</title>",
        f'<rect width="{width}" height="{height}" fill="#ffffff"/>',
        text(width / 2, 24, title, size=16, more='font-weight="bold"'),
    ]
    for panel in panels:
        parts.extend(panel.drawn())
    for number, row in enumerate(rows):
        parts.append(text(20, TOP + HEIGHT + 118 + 17 * number, row, "start"))
    with open(path, "w", encoding="utf-8") as out:
        out.write("\n".join(parts) + "\n</svg>\n")


def main():
    numbers, folder = sys.argv[1:]
    panels = read(numbers)
    second = LEFT + WIDTH + LEFT + 20
    figure(
        f"{folder}/growth-run.svg",
        "How the time of a run grows",
        [
            Panel(LEFT, "Drawn calls", "calls of the list (log scale)", panels["run by calls"], True),
            Panel(second, "1,024 calls", "sites", panels["run by sites"], False),
        ],
        [
            "library: siren_run. rules: the rules word by word (outside/model), every pass over all calls. Same inputs, same run, best of several.",
            "Drawn calls: tables of 20 slices a site; one call in eight a proposal. n + 3 passes: the list that takes the most passes that there can be.",
        ],
    )
    figure(
        f"{folder}/growth-verdict.svg",
        "How the time of a verdict grows",
        [Panel(LEFT, "All slices hold the last site", "sites", panels["verdict by sites"], False)],
        [
            "library: siren_shared, siren_intact with nobody faulty.",
            "rules: the rules word by word (outside/model), over all sets of sites.",
            "Up to 62 slices a site; same inputs, same run, best of several.",
        ],
    )


main()
