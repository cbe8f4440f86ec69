# SPDX-License-Identifier: MIT
"""Curves on one picture, as SVG: shares from 0 to 100 % over a setting or an amount."""
import math
from typing import NamedTuple
from xml.sax.saxutils import escape

WIDTH, HEIGHT = 720, 420
LEFT, RIGHT, TOP, BOTTOM = 64, 190, 48, 60
COLORS = ("#1b6ca8", "#c8553d", "#4f7f3a", "#8a4f9e", "#b8860b", "#3a3a3a", "#0b8a8a", "#a83279")
DASHES = ("", "7 4", "2 3", "9 3 2 3")
FONT = 'font-family="sans-serif" font-size="12" fill="#222"'
GAP = 15
# Round numbers that are marked on an axis of amounts, and their short units.
ROUND = [digit * 10**power for power in range(18) for digit in (1, 2, 5)]
UNITS = ((10**9, "G"), (10**6, "M"), (10**3, "k"))
STEPS_MOST = 6


class Curve(NamedTuple):
    """A name, and points: a value of the horizontal axis, and a share from 0 to 1."""

    name: str
    points: list


class Scale:
    """Where the values of a setting are drawn: by their logarithms, if they span much. Each of them
    is marked."""

    def __init__(self, values):
        self.marks = sorted(set(values))
        low, high = self.marks[0], self.marks[-1]
        self.of = math.log2 if low > 0 and high / low >= 8 else float
        self.low, self.span = self.of(low), self.of(high) - self.of(low)

    def x(self, value):
        part = (self.of(value) - self.low) / self.span if self.span else 0.5
        return LEFT + part * (WIDTH - LEFT - RIGHT)

    def label(self, value):
        return f"{value:,}"


class AmountScale(Scale):
    """Where amounts are drawn. Round numbers between them are marked, in thousands (k), millions
    (M) and thousands of millions (G)."""

    def __init__(self, values):
        super().__init__(values)
        low, high = self.marks[0], self.marks[-1]
        if self.of is math.log2:
            self.marks = [it for it in ROUND if low <= it <= high]
        else:
            step = next(it for it in ROUND if high - low <= STEPS_MOST * it)
            self.marks = list(range(-(-low // step) * step, high + 1, step))

    def label(self, value):
        size, unit = next((it for it in UNITS if value >= it[0]), (1, ""))
        return f"{value / size:.12g}{unit}"


def y(share):
    return HEIGHT - BOTTOM - share * (HEIGHT - TOP - BOTTOM)


def text(x, at, words, anchor="start", more=""):
    return (f'<text x="{x:.1f}" y="{at:.1f}" text-anchor="{anchor}" {FONT}{more}>'
            f'{escape(words)}</text>')


def line(x1, y1, x2, y2, color):
    return (f'<line x1="{x1:.1f}" y1="{y1:.1f}" x2="{x2:.1f}" y2="{y2:.1f}" '
            f'stroke="{color}" stroke-width="1"/>')


def axes(scale, over):
    """The lines and the words at both axes."""
    right, last = WIDTH - RIGHT, -math.inf
    for percent in range(0, 101, 20):
        yield line(LEFT, y(percent / 100), right, y(percent / 100), "#ddd")
        yield text(LEFT - 8, y(percent / 100) + 4, f"{percent} %", "end")
    for value in scale.marks:
        x = scale.x(value)
        yield line(x, y(0), x, y(0) + 5, "#444")
        if x - last >= 34:
            yield text(x, y(0) + 19, scale.label(value), "middle")
            last = x
    yield line(LEFT, y(0), right, y(0), "#444")
    yield text((LEFT + right) / 2, HEIGHT - 16, over, "middle")


def drawn(curve, number, scale):
    """A curve: its points and the lines between."""
    color, dash = COLORS[number % len(COLORS)], DASHES[number // len(COLORS) % len(DASHES)]
    points = [(scale.x(value), y(share)) for value, share in curve.points]
    path = " ".join(f"{x:.1f},{at:.1f}" for x, at in points)
    dashed = f' stroke-dasharray="{dash}"' if dash else ""
    yield f'<polyline points="{path}" fill="none" stroke="{color}" stroke-width="2"{dashed}/>'
    yield from (f'<circle cx="{x:.1f}" cy="{at:.1f}" r="3" fill="{color}"/>' for x, at in points)


def names(curves, scale):
    """The curves' names at their right ends, moved apart if they would overlap."""
    last, right = -math.inf, WIDTH - RIGHT
    for at, number in sorted((y(it.points[-1][1]), number) for number, it in enumerate(curves)):
        last, color = max(at, last + GAP), COLORS[number % len(COLORS)]
        yield line(scale.x(curves[number].points[-1][0]) + 4, at, right + 14, last, "#bbb")
        yield text(right + 18, last + 4, curves[number].name, more=f' style="fill:{color}"')


def svg(title, over, curves, scale_of=Scale):
    """The picture."""
    scale = scale_of([value for it in curves for value, _ in it.points])
    lines = [f'<svg xmlns="http://www.w3.org/2000/svg" width="{WIDTH}" height="{HEIGHT}" '
             f'viewBox="0 0 {WIDTH} {HEIGHT}">',
             f'<rect width="{WIDTH}" height="{HEIGHT}" fill="#fff"/>',
             text(LEFT, 26, title, more=' font-weight="bold"'), *axes(scale, over)]
    for number, curve in enumerate(curves):
        lines += drawn(curve, number, scale)
    return "\n".join([*lines, *names(curves, scale), "</svg>"]) + "\n"
