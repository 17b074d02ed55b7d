#!/usr/bin/env -S python3 -B
"""plot.py: draws docs/growth.svg from what bench/run has measured: time and visits of a count against the number of marks."""
import math
import os

from figures import COUNTS, SIDES, bound, by_peer, log_squared, mean_visits, sizes

TARGET = os.path.join(os.path.dirname(os.path.abspath(__file__)), "..", "docs", "growth.svg")
WIDTH, HEIGHT = 1140, 600
TOP, BASE = 64, 440  # of the panels
PANEL = 430  # width
INK, FAINT, GUIDE, LIMIT = "#222222", "#dddddd", "#777777", "#b3261e"
COLOURS = ["#1b6ca8", "#d9730d", "#2a8f5b"]  # by pane size
THIN, DASHED, DOTTED = "stroke-width='1.4' stroke-dasharray='6 4'", "stroke-width='2' stroke-dasharray='9 5'", "stroke-width='2' stroke-dasharray='2 4'"
SOLID = "stroke-width='2.2'"


def text(x, y, words, anchor="middle", size=13, extra=""):
    return f"<text x='{x:.1f}' y='{y:.1f}' text-anchor='{anchor}' font-size='{size}' fill='{INK}' {extra}>{words}</text>"


def line(x1, y1, x2, y2, colour, extra=""):
    return f"<line x1='{x1:.1f}' y1='{y1:.1f}' x2='{x2:.1f}' y2='{y2:.1f}' stroke='{colour}' {extra}/>"


def ns_label(value):
    return f"{value:g} ns" if value < 1000 else f"{value / 1000:g} µs"


def ticks(least, most):
    """1, 2 and 5 times the powers of ten, from the last that is not above the least to the first that is not below the most."""
    every = [digit * 10 ** power for power in range(9) for digit in (1, 2, 5)]
    first = max(i for i, value in enumerate(every) if value <= least)
    last = min(i for i, value in enumerate(every) if value >= most)
    return every[first:last + 1]


class Panel:
    """Two logarithmic axes, its lines, and a legend beneath."""

    def __init__(self, left, title, ns, values, label, upright):
        self.left, self.ns, self.ticks = left, ns, ticks(min(values), max(values))
        self.out, self.keys = [text(left + PANEL / 2, TOP - 20, title, size=16, extra="font-weight='bold'")], []
        self.axes(label, upright)

    def x(self, n):
        return self.left + PANEL * (math.log2(n) - math.log2(self.ns[0])) / (math.log2(self.ns[-1]) - math.log2(self.ns[0]))

    def y(self, value):
        return BASE - (BASE - TOP) * math.log(value / self.ticks[0]) / math.log(self.ticks[-1] / self.ticks[0])

    def axes(self, label, upright):
        for value in self.ticks:
            self.out.append(line(self.left, self.y(value), self.left + PANEL, self.y(value), FAINT))
            self.out.append(text(self.left - 8, self.y(value) + 4, label(value), "end"))
        for i, n in enumerate(self.ns):
            self.out.append(line(self.x(n), TOP, self.x(n), BASE, FAINT))
            if i % 2 == 0:
                self.out.append(text(self.x(n), BASE + 20, f"{n:,}"))
        self.out.append(f"<rect x='{self.left}' y='{TOP}' width='{PANEL}' height='{BASE - TOP}' fill='none' stroke='{INK}'/>")
        self.out.append(text(self.left + PANEL / 2, BASE + 42, "marks n"))
        x, y = self.left - 72, (TOP + BASE) / 2
        self.out.append(text(x, y, upright, extra=f"transform='rotate(-90 {x} {y})'"))

    def draw(self, name, values, colour, style=SOLID, dots=False):
        points = [(self.x(n), self.y(value)) for n, value in zip(self.ns, values)]
        path = " ".join(f"{x:.1f},{y:.1f}" for x, y in points)
        self.out.append(f"<polyline points='{path}' fill='none' stroke='{colour}' {style}/>")
        if dots:
            self.out += [f"<circle cx='{x:.1f}' cy='{y:.1f}' r='3.2' fill='{colour}'/>" for x, y in points]
        self.keys.append((name, colour, style, dots))

    def legend(self, columns):
        """Keys beneath the panel, column by column, so that no text meets a line."""
        rows = math.ceil(len(self.keys) / columns)
        for i, (name, colour, style, dots) in enumerate(self.keys):
            x, y = self.left + (i // rows) * PANEL / columns, BASE + 76 + (i % rows) * 22
            self.out.append(line(x, y - 4, x + 34, y - 4, colour, style))
            if dots:
                self.out.append(f"<circle cx='{x + 17:.1f}' cy='{y - 4:.1f}' r='3.2' fill='{colour}'/>")
            self.out.append(text(x + 42, y, name, "start"))
        return self.out


def times(growth, ns):
    of = {(peer, stage): [growth[n, stage, peer]["ns"] for n in ns] for peer in ("register", "twin") for stage in COUNTS}
    start = of["register", "count 300 cm"][0]
    curve = [start * log_squared(n) / log_squared(ns[0]) for n in ns]
    every = [value for values in of.values() for value in values] + curve
    panel = Panel(100, "Time of a count", ns, every, ns_label, "mean time of a count")
    for side, stage, colour in zip(SIDES, COUNTS, COLOURS):
        panel.draw(f"register, {side} cm panes", of["register", stage], colour, dots=True)
    panel.draw("c · log2(n)² through the register's first 300 cm point", curve, GUIDE, DOTTED)
    for side, stage, colour in zip(SIDES, COUNTS, COLOURS):
        panel.draw(f"twin, {side} cm panes", of["twin", stage], colour, THIN)
    return panel.legend(2)


def visits(growth, ns):
    of = {stage: [growth[n, stage, "register"] for n in ns] for stage in COUNTS}
    means = [[mean_visits(row) for row in of[stage]] for stage in COUNTS]
    most = [max(of[stage][i]["most"] for stage in COUNTS) for i in range(len(ns))]
    bounds = [bound(n) for n in ns]
    panel = Panel(670, "Visits of a count", ns, means[0] + bounds, lambda value: f"{value:,g}", "visits of a count")
    for side, values, colour in zip(SIDES, means, COLOURS):
        panel.draw(f"mean, {side} cm panes", values, colour, dots=True)
    panel.draw("most seen", most, INK, SOLID, dots=True)
    panel.draw("bound (4D + 1)(2D + 1)", bounds, LIMIT, DASHED)
    panel.draw("log2(n)²", [log_squared(n) for n in ns], GUIDE, DOTTED)
    return panel.legend(2)


def main():
    growth = by_peer("growth.csv")
    ns = sizes(growth)
    body = [f"<rect width='{WIDTH}' height='{HEIGHT}' fill='white'/>"] + times(growth, ns) + visits(growth, ns)
    size = f"viewBox='0 0 {WIDTH} {HEIGHT}' width='{WIDTH}' height='{HEIGHT}'"
    head = f"<svg xmlns='http://www.w3.org/2000/svg' {size} font-family='DejaVu Sans, Arial, sans-serif'>"
    with open(TARGET, "w") as file:
        file.write("\n".join([head] + body + ["</svg>"]) + "\n")


main()
