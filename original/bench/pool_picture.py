#!/usr/bin/env python3
"""Draws docs/pool.svg: pools, their pages, and in each page a word of bits and as many places.

usage: pool_picture.py
"""

from pathlib import Path
from typing import Container, List

FILE = Path(__file__).resolve().parent.parent.parent / "docs" / "pool.svg"

WIDTH, HEIGHT = 800, 440
ITEMS = 32
CELL = 8
STRIP = ITEMS * CELL
FREE, OUT, EDGE = "#1b66c9", "white", "#6b6b6b"
ARROW = f'stroke="{EDGE}" stroke-width="1.5" fill="none" marker-end="url(#tip)"'
LEFT, FIRST, SECOND = 20, 190, 500
TITLE = 'font-weight="bold" font-size="15"'
REMARK = 'fill="#555"'
TIP = f"""<defs><marker id="tip" viewBox="0 0 8 8" refX="7" refY="4" markerWidth="7" markerHeight="7" orient="auto">
<path d="M 0 0 L 8 4 L 0 8 z" fill="{EDGE}"/></marker></defs>"""


def text(x: float, y: float, words: str, more: str = "") -> str:
    return f'<text x="{x}" y="{y}" {more}>{words}</text>'


def box(x: float, y: float, width: float, height: float, more: str = 'fill="#f4f6f9"') -> str:
    return f'<rect x="{x}" y="{y}" width="{width}" height="{height}" rx="4" stroke="{EDGE}" {more}/>'


def arrow(path: str) -> str:
    return f'<path d="{path}" {ARROW}/>'


def word(x: float, y: float, out: Container[int]) -> List[str]:
    """A strip of bits: one is filled if its item is free."""
    cell = f'y="{y}" width="{CELL}" height="14" stroke="#c4d3e8"'
    fills = [OUT if item in out else FREE for item in range(ITEMS)]
    return [f'<rect x="{x + CELL * item}" {cell} fill="{fill}"/>' for item, fill in enumerate(fills)]


def places(x: float, y: float, empty: Container[int]) -> List[str]:
    """A strip of places: one has a dot if a value lies there."""
    parts = []
    for item in range(ITEMS):
        left = x + CELL * item
        parts.append(f'<rect x="{left}" y="{y}" width="{CELL}" height="14" fill="white" stroke="#bbb"/>')
        if item not in empty:
            parts.append(f'<circle cx="{left + CELL / 2}" cy="{y + 7}" r="2.5" fill="#222"/>')
    return parts


def page(x: float, y: float, name: str, out: Container[int]) -> List[str]:
    """A page in its box."""
    head = [box(x, y, STRIP + 24, 78), text(x + 12, y + 19, name, 'font-weight="bold"')]
    return head + word(x + 12, y + 28, out) + places(x + 12, y + 52, out)


def linear() -> List[str]:
    """A linear pool of two pages, two of whose items are out. A guard holds the value of one."""
    out = {3, 4}
    item = FIRST + 12 + CELL * 3 + CELL / 2
    return [
        text(LEFT, 28, "A linear pool: pages of 32 items, linked one to the next", TITLE),
        box(LEFT, 60, 130, 58),
        text(LEFT + 12, 83, "LinearObjectPool"),
        text(LEFT + 12, 103, "init, reset, limit"),
        *page(FIRST, 50, "page 0", out),
        *page(SECOND, 50, "page 1", set()),
        arrow(f"M {LEFT + 130} 89 H {FIRST - 4}"),
        arrow(f"M {FIRST + STRIP + 24} 89 H {SECOND - 4}"),
        text(FIRST + 72, 69, "its word: a bit is filled if free", REMARK),
        text(SECOND + 72, 69, "after page 0 was found full", REMARK),
        text(SECOND + 12, 147, "its places: a dot is a value there", REMARK),
        box(FIRST, 196, STRIP + 24, 34, 'fill="#fff4e5"'),
        text(FIRST + 12, 218, "guard of page 0, id 3: it has the value"),
        arrow(f"M {item - 3} 118 V 192"),
        arrow(f"M {item + 9} 196 V 122"),
        text(LEFT, 166, "pull: clears the bit,", REMARK),
        text(LEFT, 183, "then moves the value out", REMARK),
        text(item + 18, 166, "drop: resets the value, moves it back,", REMARK),
        text(item + 18, 183, "then sets the bit", REMARK),
    ]


def table(y: int, name: str, remark: str, empty: Container[int], all_empty: Container[int]) -> List[str]:
    """A pool of 64 items, of which item 1 is out."""
    second = FIRST + 22 + STRIP
    return [
        box(LEFT, y, 130, 30),
        text(LEFT + 12, y + 20, name),
        text(LEFT, y + 47, remark, REMARK),
        arrow(f"M {LEFT + 130} {y + 15} H {FIRST - 4}"),
        box(FIRST, y, 2 * STRIP + 34, 54),
        *word(FIRST + 12, y + 8, {1}),
        *places(FIRST + 12, y + 32, empty),
        *word(second, y + 8, set()),
        *places(second, y + 32, all_empty),
    ]


def tables() -> List[str]:
    """A fixed pool, and a lazy one that has made nine values so far."""
    return [
        text(LEFT, 274, "A fixed and a lazy pool: all words side by side, all places too", TITLE),
        *table(296, "FixedObjectPool", "all made up front", {1}, set()),
        *table(366, "LazyObjectPool", "made when first needed", {1, *range(9, ITEMS)}, range(ITEMS)),
    ]


def main() -> None:
    head = f'<svg xmlns="http://www.w3.org/2000/svg" width="{WIDTH}" height="{HEIGHT}" viewBox="0 0 {WIDTH} {HEIGHT}" '
    head += 'font-family="sans-serif" font-size="13" fill="#222">'
    parts = [head, TIP, '<rect width="100%" height="100%" fill="white"/>', *linear(), *tables(), "</svg>", ""]
    FILE.write_text("\n".join(parts), encoding="utf8")


if __name__ == "__main__":
    main()
