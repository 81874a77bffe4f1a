#!/usr/bin/env python3
"""Draws the pictures of times in docs/ from the tables of README.md beside this file.

usage: pictures.py

A row of a table is a curve, and a column a point. A cell has one figure, or two: then a bar reaches from the one to the other.
"""

import math
import re
from pathlib import Path
from typing import List, NamedTuple, Tuple

HERE = Path(__file__).resolve().parent
DOCS = HERE.parent.parent / "docs"

WIDTH, HEIGHT = 800, 400
LEFT, RIGHT, TOP, BOTTOM = 58, 530, 64, 346
COLOURS = ["#1b66c9", "#d9660a", "#2c8a3f", "#7b3fb5", "#b0256a"]
GREY = "#8a8a8a"
DASHES = ["", "6 4", "2 4", "8 3 2 3"]
LINE_HEIGHT = 17
DODGE = 8


class Picture(NamedTuple):
    """A picture: its file, the first cell of its table, how many columns are drawn and how many rows are ours, and its words."""

    file: str
    table: str
    columns: int
    ours: int
    title: str
    remark: str
    below: str


class Curve(NamedTuple):
    """A pool: its name, and the figures of each column, of which there may be none."""

    name: str
    cells: List[List[float]]


PICTURES = [
    Picture(
        "speed.svg",
        "Nanoseconds by items held",
        8,
        4,
        "Time of a pull and drop, in nanoseconds: lower is better",
        "One thread, Intel Xeon of 2.5 GHz, 2026-11-30; the least of five runs",
        "items held meanwhile",
    ),
    Picture(
        "threads.svg",
        "Nanoseconds by threads",
        3,
        5,
        "Time of a pull and drop in each thread, in nanoseconds: lower is better",
        "Nothing else held, Intel Xeon of 2.5 GHz, 2026-11-30; a point is the least of five runs, its bar ends at the middle one",
        "threads at work",
    ),
    Picture(
        "one_process.svg",
        "Nanoseconds, the middle one",
        4,
        3,
        "Time of a pull and return, in nanoseconds: lower is better",
        "One thread of one Rust process, Intel Xeon of 2.5 GHz, 2026-11-29, the middle one of 7 rounds",
        "items held meanwhile",
    ),
]


def split(line: str) -> List[str]:
    """The cells of a table's row."""
    return [cell.strip() for cell in line.strip().strip("|").split("|")]


def figures(cell: str) -> List[float]:
    """The figures of a cell."""
    return [float(figure.replace(",", "")) for figure in re.split(r",\s+", cell) if figure]


def read(picture: Picture) -> Tuple[List[str], List[Curve]]:
    """The names of a table's columns, and its curves."""
    lines = (HERE / "README.md").read_text(encoding="utf8").splitlines()
    start = next(at for at, line in enumerate(lines) if line.startswith(f"| {picture.table} |"))
    end = next(at for at in range(start, len(lines)) if not lines[at].startswith("|"))
    columns = [name.replace(" held", "") for name in split(lines[start])[1 : picture.columns + 1]]
    rows = [split(line) for line in lines[start + 2 : end]]
    curves = [
        Curve(name.replace("`", ""), [figures(cell) for cell in cells[: picture.columns]]) for name, *cells in rows
    ]
    return columns, curves


def text(x: float, y: float, words: str, more: str = "") -> str:
    safe = words.replace("&", "&amp;").replace("<", "&lt;")
    return f'<text x="{x:.1f}" y="{y:.1f}" {more}>{safe}</text>'


def line(x1: float, y1: float, x2: float, y2: float, more: str) -> str:
    return f'<line x1="{x1:.1f}" y1="{y1:.1f}" x2="{x2:.1f}" y2="{y2:.1f}" {more}/>'


class Axes:
    """Where a column and a figure stand: columns evenly, figures on a logarithmic axis. Curves with bars stand apart."""

    def __init__(self, columns: List[str], curves: List[Curve]):
        every = [figure for curve in curves for cell in curve.cells for figure in cell]
        self.columns = columns
        self.dodge = DODGE if any(len(cell) == 2 for curve in curves for cell in curve.cells) else 0
        self.low = math.log10(min(every)) - 0.1
        self.high = math.log10(max(every)) + 0.1

    def x(self, column: int) -> float:
        return LEFT + 24 + column * (RIGHT - LEFT - 48) / (len(self.columns) - 1)

    def y(self, figure: float) -> float:
        return BOTTOM - (math.log10(figure) - self.low) / (self.high - self.low) * (BOTTOM - TOP)

    def draw(self, below: str) -> List[str]:
        """The grid with its figures, and the names of the columns."""
        parts = []
        steps = [power * digit for power in (1, 10, 100, 1000) for digit in (1, 2, 5)]
        for step in steps:
            if self.low <= math.log10(step) <= self.high:
                y = self.y(step)
                parts.append(line(LEFT, y, RIGHT, y, 'stroke="#e3e3e3"'))
                parts.append(text(LEFT - 6, y + 4, f"{step:,}", 'text-anchor="end" fill="#555"'))
        for at, name in enumerate(self.columns):
            parts.append(text(self.x(at), BOTTOM + 18, name, 'text-anchor="middle" fill="#555"'))
        parts.append(text((LEFT + RIGHT) / 2, BOTTOM + 40, below, 'text-anchor="middle"'))
        return parts


def style(at: int, ours: int) -> Tuple[str, str]:
    """The colour and the dashes of a row's curve: what isn't ours is grey."""
    return (COLOURS[at], "") if at < ours else (GREY, DASHES[at - ours])


def curve_parts(axes: Axes, curve: Curve, aside: float, colour: str, dashes: str) -> List[str]:
    """A curve with its points and bars."""
    points = [(axes.x(at) + aside, axes.y(cell[0])) for at, cell in enumerate(curve.cells) if cell]
    path = " ".join(f"{x:.1f},{y:.1f}" for x, y in points)
    dashed = f' stroke-dasharray="{dashes}"' if dashes else ""
    parts = [f'<polyline points="{path}" fill="none" stroke="{colour}" stroke-width="2.5"{dashed}/>']
    bar = f'stroke="{colour}" stroke-width="6" stroke-opacity="0.45"'
    for at, cell in enumerate(curve.cells):
        if len(cell) == 2:
            x = axes.x(at) + aside
            parts.append(line(x, axes.y(cell[0]), x, axes.y(cell[1]), bar))
    parts += [f'<circle cx="{x:.1f}" cy="{y:.1f}" r="3.5" fill="{colour}"/>' for x, y in points]
    return parts


def apart(heights: List[float]) -> List[float]:
    """Heights for the names: at the curves' ends, or above them where two would meet."""
    order = sorted(range(len(heights)), key=lambda at: -heights[at])
    placed = list(heights)
    for below, at in zip(order, order[1:]):
        placed[at] = min(placed[at], placed[below] - LINE_HEIGHT)
    return placed


def draw(picture: Picture) -> None:
    """Writes a picture. Our curves are drawn last, so they lie in front."""
    columns, curves = read(picture)
    axes = Axes(columns, curves)
    parts = axes.draw(picture.below)
    for at in reversed(range(len(curves))):
        aside = (at - (len(curves) - 1) / 2) * axes.dodge
        parts += curve_parts(axes, curves[at], aside, *style(at, picture.ours))
    ends = [axes.y(next(cell[0] for cell in reversed(curve.cells) if cell)) for curve in curves]
    for at, y in enumerate(apart(ends)):
        colour, _ = style(at, picture.ours)
        weight = "bold" if at < picture.ours else "normal"
        parts.append(text(RIGHT + 8, y + 4, curves[at].name, f'fill="{colour}" font-weight="{weight}"'))
    parts.append(text(LEFT, 26, picture.title, 'font-size="16" font-weight="bold"'))
    parts.append(text(LEFT, 46, picture.remark, 'fill="#555" font-size="12"'))
    head = f'<svg xmlns="http://www.w3.org/2000/svg" width="{WIDTH}" height="{HEIGHT}" viewBox="0 0 {WIDTH} {HEIGHT}" '
    head += 'font-family="sans-serif" font-size="13" fill="#222">'
    whole = [head, '<rect width="100%" height="100%" fill="white"/>', *parts, "</svg>", ""]
    (DOCS / picture.file).write_text("\n".join(whole), encoding="utf8")


if __name__ == "__main__":
    for one in PICTURES:
        draw(one)
