#!/usr/bin/env python3
"""Draws boxes.svg: the boxes of the example of README with their counters, beside its dump. It calls the program, and
stops where the texts in the drawing are not those of the dump.

    docs/draw_boxes.py > docs/boxes.svg
"""

import subprocess
import sys
from html import escape
from pathlib import Path

HERE = Path(__file__).resolve().parent.parent
# Depth in the tree, name of the box, what it does to the counter, the counter after it, and its place in the dump.
BOXES = (
    (0, "body", "counter-reset: fig", "0", None),
    (1, "p", "", "0", None),
    (2, "a", "", "0", None),
    (3, "a::after", "target-counter(#plan, fig)", "0", "/1/1 after"),
    (1, "figure #frame", "counter-increment: fig", "1", None),
    (2, "figcaption", "", "1", None),
    (3, "::before", "counter(fig)", "1", "/3/0 before"),
    (1, "figure #plan", "counter-increment: fig", "2", None),
    (2, "figcaption", "", "2", None),
    (3, "::before", "counter(fig)", "2", "/5/0 before"),
)
ROW, STEP, LEFT, TOP, WIDTH = 34, 26, 20, 64, 190
COUNTER_AT, RULE_AT, DUMP_AT = 310, 345, 590
STYLE = """text { font: 14px sans-serif; fill: #222 } .code { font-family: monospace } .quiet { fill: #666 }
.box { fill: #eef3fa; stroke: #7b93b5 } .generated { fill: #fdf0d5; stroke: #c89b3c } .link { fill: none; stroke: #b0552f }"""


def main():
    words = ["dump", "examples/figures.xhtml", "examples/figures.css"]
    dump = subprocess.run([HERE / "marker", *words], cwd=HERE, stdout=subprocess.PIPE, check=True, text=True).stdout
    lines = dump.splitlines()
    drawn = [place for *_, place in BOXES if place]
    if len(lines) != len(drawn) or not all(line.startswith(f"{place} ") for line, place in zip(lines, drawn)):
        sys.exit("draw_boxes.py: the example has other lines than the drawing")
    print(drawing(lines))


def drawing(lines):
    height = TOP + ROW * len(BOXES) + 16
    parts = [
        f'<svg xmlns="http://www.w3.org/2000/svg" width="860" height="{height}" viewBox="0 0 860 {height}">',
        f"<style>{STYLE}</style>",
        f'<rect width="860" height="{height}" fill="#fff"/>',
        *heading(),
    ]
    for place, box in enumerate(BOXES):
        parts += row(TOP + ROW * place, box, lines)
    parts += reference()
    return "\n".join([*parts, "</svg>"])


def heading():
    names = (LEFT, "boxes, in tree order"), (COUNTER_AT, "fig"), (RULE_AT, "what the sheet says"), (DUMP_AT, "the dump")
    return [text(at, 36, name, "quiet") for at, name in names]


def text(left, top, words, kind):
    return f'<text x="{left}" y="{top}" class="{kind}">{escape(words)}</text>'


def row(top, box, lines):
    """One box, the value of the counter in it, what the sheet says of it, and its line of the dump."""
    depth, name, rule, value, place = box
    left = LEFT + STEP * depth
    kind = "generated" if place else "box"
    parts = [
        f'<rect x="{left}" y="{top}" width="{WIDTH}" height="{ROW - 8}" rx="4" class="{kind}"/>',
        text(left + 10, top + 18, name, "code"),
        text(COUNTER_AT + 6, top + 18, value, "code"),
        text(RULE_AT, top + 18, rule, "code quiet"),
    ]
    line = next((it for it in lines if place and it.startswith(f"{place} ")), None)
    return parts + ([text(DUMP_AT, top + 18, line, "code")] if line else [])


def reference():
    """The way from the reference to the figure that it names, whose counter it writes."""
    start, end = (TOP + ROW * place + 13 for place in (3, 7))
    turn = RULE_AT - 6
    return [
        f'<path class="link" d="M {turn - 8} {start} H {turn} V {end} H {turn - 8}"/>',
        f'<path d="M {turn - 12} {end} l 6 -4 v 8 z" fill="#b0552f"/>',
    ]


if __name__ == "__main__":
    main()
