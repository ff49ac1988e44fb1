"""Pictures of medians and extremes, as SVG."""

from __future__ import annotations

import math
from collections.abc import Sequence
from typing import NamedTuple
from xml.sax.saxutils import escape

# At one place of the lower axis: its number, and the least, the median and the most that was measured there.
Point = NamedTuple("Point", [("at", int), ("least", float), ("median", float), ("most", float)])

WIDTH, HEIGHT, COLUMNS = 240, 150, 3
LEFT, TOP, RIGHT, BOTTOM = 44, 34, 14, 40
LINE, BAND, GREY, BLACK = "#1f5fa8", "#bcd3ec", "#d8d8d8", "#222222"


def _step(most: float, count: int) -> int:
    """The least of 1, 2, 5, 10 and so on of which at most so many reach up to a number."""
    size = 1
    while True:
        for step in (size, 2 * size, 5 * size):
            if step * count >= most:
                return step
        size *= 10


def _text(x: float, y: float, anchor: str, text: object, size: int = 11) -> str:
    return f'<text x="{x:.1f}" y="{y:.1f}" text-anchor="{anchor}" font-size="{size}" fill="{BLACK}">{escape(str(text))}</text>'


def _line(x: float, y: float, to_x: float, to_y: float) -> str:
    return f'<line x1="{x:.1f}" y1="{y:.1f}" x2="{to_x:.1f}" y2="{to_y:.1f}" stroke="{GREY}"/>'


def _panel(name: str, under: str, points: Sequence[Point], x: float, y: float) -> list[str]:
    """One measure: a line through the medians, and a band from the least to the most."""
    first, last, most = points[0].at, points[-1].at, max(point.most for point in points)
    step = _step(most, 4)
    top = step * max(1, math.ceil(most / step))
    across = lambda at: x + LEFT + WIDTH * (at - first) / max(1, last - first)
    up = lambda value: y + TOP + HEIGHT * (top - value) / top
    found = [_text(x + LEFT, y + TOP - 12, "start", name, 13)]
    for value in range(0, top + 1, step):
        found += [_line(x + LEFT, up(value), x + LEFT + WIDTH, up(value)), _text(x + LEFT - 6, up(value) + 4, "end", value)]
    stride = _step(last - first, 8)
    found += [_text(across(at), up(0) + 16, "middle", at) for at in range(first, last + 1, stride)]
    found.append(_text(x + LEFT + WIDTH / 2, up(0) + 32, "middle", under))
    edge = [(point.at, point.most) for point in points] + [(point.at, point.least) for point in reversed(points)]
    spot = lambda at, value: f"{across(at):.1f},{up(value):.1f}"
    found.append(f'<polygon points="{" ".join(spot(*it) for it in edge)}" fill="{BAND}" stroke="{BAND}"/>')
    medians = " ".join(spot(point.at, point.median) for point in points)
    found.append(f'<polyline points="{medians}" fill="none" stroke="{LINE}" stroke-width="2"/>')
    return found + [f'<circle cx="{across(it.at):.1f}" cy="{up(it.median):.1f}" r="2.5" fill="{LINE}"/>' for it in points]


def picture(title: str, under: str, panels: dict[str, Sequence[Point]]) -> str:
    """A picture with a panel for each measure, over the numbers that `under` names. A measure has at least one point."""
    wide, high = LEFT + WIDTH + RIGHT, TOP + HEIGHT + BOTTOM
    width, height = wide * min(COLUMNS, len(panels)), 30 + high * -(-len(panels) // COLUMNS)
    found = [f'<svg xmlns="http://www.w3.org/2000/svg" viewBox="0 0 {width} {height}" width="{width}" height="{height}">']
    found += [f'<rect width="{width}" height="{height}" fill="white"/>', '<g font-family="sans-serif">']
    found.append(_text(LEFT, 22, "start", title, 14))
    for place, (name, points) in enumerate(panels.items()):
        found += _panel(name, under, points, wide * (place % COLUMNS), 30 + high * (place // COLUMNS))
    return "\n".join([*found, "</g>", "</svg>", ""])
