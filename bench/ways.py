#!/usr/bin/env python3
"""Draws what bench/ways.sh prints: what a packet and a sync cost by the number of Services, three ways
side by side. Both axes are logarithmic.

    bench/ways.sh | bench/ways.py > docs/pictures/ways.svg

Any other line of the input is passed over, but for the one that names the machine and the date.
"""

import math
import re
import sys
from html import escape

FIGURE = re.compile(r"a (packet|sync), (.*), (\d+) Services: (-?\d+) ns")
MACHINE = re.compile(r"machine: (.*)")
# each way with its color, its dashes and its mark
WAYS = {
    "rules in order": ("#b3400f", "7 4", "square"),
    "rules by destination": ("#1f5fa8", "2 3", "circle"),
    "the map": ("#1b7837", "", "triangle"),
}
CHARTS = {
    "packet": "A packet to the last Service",
    "sync": "A sync after one Pod's event",
}
ABOVE, BELOW, LEFT, RIGHT, BETWEEN = 76, 98, 78, 36, 96
WIDTH, HEIGHT = 330, 300  # of the inside of a chart
MARK = 4
UNITS = [(1, "ns"), (10**3, "µs"), (10**6, "ms"), (10**9, "s")]


def decades(values):
    """The powers of ten from below the least value to above the greatest one."""
    low = math.floor(math.log10(min(values)))
    high = math.ceil(math.log10(max(values)))
    return list(range(low, max(high, low + 1) + 1))


def time_text(nanoseconds):
    """A power of ten of nanoseconds, in the greatest unit of which it is one at least."""
    size, unit = next(it for it in reversed(UNITS) if nanoseconds >= it[0] or it[0] == 1)
    return f"{nanoseconds / size:g} {unit}"


class Chart:
    """One chart: its figures by way and number of Services, and where it stands."""

    def __init__(self, title, figures, left):
        self.title, self.left, self.figures = title, left, figures
        points = [it for points in figures.values() for it in points]
        self.across = decades([it[0] for it in points])
        self.up = decades([it[1] for it in points])

    def x(self, services):
        return self.left + WIDTH * share(services, self.across)

    def y(self, nanoseconds):
        return ABOVE + HEIGHT * (1 - share(nanoseconds, self.up))

    def elements(self):
        yield text(self.left + WIDTH / 2, ABOVE - 16, self.title, "middle", 15, "bold")
        yield from self.grid()
        for way in WAYS:
            yield from self.line(way)
        named = "number of Services, logarithmic"
        yield text(self.left + WIDTH / 2, ABOVE + HEIGHT + 42, named, "middle", 13)
        place = f"{self.left - 58} {ABOVE + HEIGHT / 2}"
        named = "processor time of one, logarithmic"
        yield text(0, 0, named, "middle", 13, more=f' transform="translate({place}) rotate(-90)"')

    def grid(self):
        bottom, right = ABOVE + HEIGHT, self.left + WIDTH
        for power in self.across:
            at = self.x(10**power)
            yield stroke(at, ABOVE, at, bottom)
            yield text(at, bottom + 20, f"{10**power:,}", "middle")
        for power in self.up:
            at = self.y(10**power)
            yield stroke(self.left, at, right, at)
            yield text(self.left - 8, at + 4, time_text(10**power), "end")

    def line(self, way):
        points = [(self.x(it), self.y(cost)) for it, cost in sorted(self.figures.get(way, []))]
        color, dashes, mark = WAYS[way]
        joined = " ".join(f"{x:.1f},{y:.1f}" for x, y in points)
        yield (
            f'<polyline points="{joined}" fill="none" stroke="{color}" stroke-width="2"'
            f' stroke-dasharray="{dashes or "none"}"/>'
        )
        for (x, y), (services, cost) in zip(points, sorted(self.figures.get(way, []))):
            told = f"{way}, {services:,} Services: {cost:,} ns"
            yield f"<g><title>{escape(told)}</title>{marked(mark, x, y, color)}</g>"


def share(value, powers):
    """How far a value is from the first of some powers of ten to the last."""
    return (math.log10(value) - powers[0]) / (powers[-1] - powers[0])


def stroke(x, y, other_x, other_y):
    return f'<line x1="{x:.1f}" y1="{y:.1f}" x2="{other_x:.1f}" y2="{other_y:.1f}" stroke="#d0d0d0"/>'


def text(x, y, said, anchor="start", size=12, weight="normal", more=""):
    return (
        f'<text x="{x:.1f}" y="{y:.1f}" text-anchor="{anchor}" font-size="{size}"'
        f' font-weight="{weight}"{more}>{escape(said)}</text>'
    )


def marked(mark, x, y, color):
    if mark == "circle":
        return f'<circle cx="{x:.1f}" cy="{y:.1f}" r="{MARK}" fill="{color}"/>'
    if mark == "square":
        size = f'width="{2 * MARK}" height="{2 * MARK}"'
        return f'<rect x="{x - MARK:.1f}" y="{y - MARK:.1f}" {size} fill="{color}"/>'
    corners = [(x - MARK - 1, y + MARK), (x + MARK + 1, y + MARK), (x, y - MARK - 1)]
    return f'<polygon points="{" ".join(f"{a:.1f},{b:.1f}" for a, b in corners)}" fill="{color}"/>'


def legend(width):
    """What each line is, above both charts."""
    step = (width - LEFT - RIGHT) / len(WAYS)
    for place, (way, (color, dashes, mark)) in enumerate(WAYS.items()):
        x, y = LEFT + place * step, 26
        yield (
            f'<line x1="{x:.1f}" y1="{y}" x2="{x + 44:.1f}" y2="{y}" stroke="{color}"'
            f' stroke-width="2" stroke-dasharray="{dashes or "none"}"/>'
        )
        yield marked(mark, x + 22, y, color)
        yield text(x + 52, y + 4, way, size=13)


def figures_of(lines):
    """The figures by what is measured and by way, and the machine with the date."""
    found, machine = {name: {} for name in CHARTS}, ""
    for line in lines:
        figure, told = FIGURE.match(line), MACHINE.match(line)
        machine = told[1] if told else machine
        if figure and int(figure[4]) > 0:
            point = int(figure[3]), int(figure[4])
            found[figure[1]].setdefault(figure[2], []).append(point)
    return found, machine


def picture(lines):
    """The lines of the picture."""
    found, machine = figures_of(lines)
    if not all(found.values()):
        raise SystemExit("bench/ways.py: there are no figures of packets or of syncs")
    width = LEFT + 2 * WIDTH + BETWEEN + RIGHT
    height = ABOVE + HEIGHT + BELOW
    yield (
        f'<svg xmlns="http://www.w3.org/2000/svg" viewBox="0 0 {width} {height}" width="{width}"'
        f' height="{height}" font-family="sans-serif" font-size="12" fill="#222222">'
    )
    yield "<title>What a packet and a sync cost by the number of Services, three ways</title>"
    yield f'<rect width="{width}" height="{height}" fill="#ffffff"/>'
    yield from legend(width)
    for place, (name, title) in enumerate(CHARTS.items()):
        left = LEFT + place * (WIDTH + BETWEEN)
        yield from Chart(title, found[name], left).elements()
    yield text(LEFT, height - 32, "Rules in order have no sync; a sync of the map keeps the node's tables, too.")
    yield text(LEFT, height - 12, f"bench/ways.sh on {machine}")
    yield "</svg>"


if __name__ == "__main__":
    print(*picture(sys.stdin), sep="\n")
