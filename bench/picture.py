"""Draws lines over sizes that grow by factors as an SVG picture, for light and dark pages."""

from math import floor, log10
from typing import Dict, Iterator, List, Optional, Sequence, Tuple

WIDTH = 640
HEIGHT = 330
LEFT = 60
RIGHT = 470
TOP = 60
BOTTOM = 270
COLORS = (("#0550ae", "#79b8ff"), ("#a40e26", "#ff8f8f"), ("#116329", "#7ee787"))
LABEL_HEIGHT = 16

Line = Sequence[Optional[float]]


def _style() -> str:
    light = " ".join(
        f".line{index} {{ stroke: {color} }} .label{index} {{ fill: {color} }}"
        for index, (color, _) in enumerate(COLORS)
    )
    dark = " ".join(
        f".line{index} {{ stroke: {color} }} .label{index} {{ fill: {color} }}"
        for index, (_, color) in enumerate(COLORS)
    )
    return (
        "<style>\n.page { fill: #ffffff } .ink { fill: #1a1a1a } .grid { stroke: #dddddd }"
        f" .curve {{ fill: none; stroke-width: 2 }}\n{light}\n@media (prefers-color-scheme: dark)"
        " {\n.page { fill: #14171c } .ink { fill: #e8e8e8 } .grid { stroke: #3a404a"
        f" }}\n{dark}\n}}\n</style>"
    )


def _step(top: float) -> float:
    """The distance of the horizontal lines: 1, 2 or 5 times a power of ten, for at most six
    lines."""
    power = 10.0 ** floor(log10(top / 6))
    return next(power * factor for factor in (1, 2, 5, 10) if top / (power * factor) <= 6)


def _apart(heights: Sequence[float]) -> List[float]:
    """The heights of labels, moved down as far as they need to be readable."""
    placed = list(heights)
    order = sorted(range(len(heights)), key=heights.__getitem__)
    for before, index in zip(order, order[1:]):
        placed[index] = max(placed[index], placed[before] + LABEL_HEIGHT)
    return placed


class Axes:
    """Where sizes and values are in the picture: sizes by their logarithm, values from 0."""

    def __init__(self, sizes: Sequence[int], highest: float) -> None:
        self.step = _step(highest)
        self.top = self.step * -(-highest // self.step)
        self.first = log10(sizes[0])
        self.last = log10(sizes[-1])

    def across(self, size: int) -> float:
        """The column of a size."""
        return LEFT + (log10(size) - self.first) / (self.last - self.first) * (RIGHT - LEFT)

    def up(self, value: float) -> float:
        """The row of a value."""
        return BOTTOM - value / self.top * (BOTTOM - TOP)

    def lines(self, sizes: Sequence[int]) -> Iterator[str]:
        """The grid and its numbers."""
        for mark in range(round(self.top / self.step) + 1):
            y = self.up(mark * self.step)
            yield f'<line class="grid" x1="{LEFT}" x2="{RIGHT}" y1="{y:.1f}" y2="{y:.1f}"/>'
            yield (
                f'<text class="ink" x="{LEFT - 8}" y="{y + 4:.1f}"'
                f' text-anchor="end">{mark * self.step:g}</text>'
            )
        for size in sizes:
            yield (
                f'<text class="ink" x="{self.across(size):.1f}" y="{BOTTOM + 18}"'
                f' text-anchor="middle">{size}</text>'
            )


def picture(title: str, under: str, lines: Dict[str, Line], sizes: Sequence[int]) -> str:
    """`lines` maps a name to its values at the sizes; a value that could not be measured is
    None."""
    axes = Axes(
        sizes, max(value for values in lines.values() for value in values if value is not None)
    )
    known = [
        [(size, value) for size, value in zip(sizes, values) if value is not None]
        for values in lines.values()
    ]
    parts = [
        (
            f'<svg xmlns="http://www.w3.org/2000/svg" viewBox="0 0 {WIDTH} {HEIGHT}"'
            ' font-family="sans-serif" font-size="13">'
        ),
        _style(),
        f'<rect class="page" width="{WIDTH}" height="{HEIGHT}"/>',
        f'<text class="ink" x="{LEFT}" y="28" font-size="15">{title}</text>',
        (
            f'<text class="ink" x="{(LEFT + RIGHT) // 2}" y="{HEIGHT - 16}"'
            f' text-anchor="middle">{under}</text>'
        ),
        *axes.lines(sizes),
    ]
    labels = _apart([axes.up(points[-1][1]) for points in known])
    for index, (name, points, label) in enumerate(zip(lines, known, labels)):
        parts += _curve(
            index, name, [(axes.across(size), axes.up(value)) for size, value in points], label
        )
    return "\n".join([*parts, "</svg>"]) + "\n"


def _curve(
    index: int, name: str, points: Sequence[Tuple[float, float]], label: float
) -> Iterator[str]:
    color = index % len(COLORS)
    yield (
        f'<polyline class="curve line{color}"'
        f' points="{" ".join(f"{x:.1f},{y:.1f}" for x, y in points)}"/>'
    )
    for x, y in points:
        yield f'<circle class="label{color}" cx="{x:.1f}" cy="{y:.1f}" r="3"/>'
    yield (
        f'<text class="label{color}" x="{points[-1][0] + 12:.1f}" y="{label + 4:.1f}">{name}</text>'
    )
