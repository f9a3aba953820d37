#!/usr/bin/env python3
"""Draws edit.svg: what an edit does at each element of a document, of which the second item of the second list goes.
It calls nothing: which element is which was worked out by hand, from what the elements are handed before and after.

    docs/draw_edit.py > docs/edit.svg
"""

from html import escape

# Of what becomes of an element: its words in the legend.
KINDS = {
    "anew": "evaluated anew",
    "same": "compared and skipped",
    "unseen": "not looked at",
    "gone": "goes",
}
# Depth in the tree, name of the element, what becomes of it, its number before and after, and why.
ELEMENTS = (
    (0, "body", "anew", "", "", "the place is under it"),
    (1, "section #one", "same", "", "", "handed the same: on to section #two"),
    (2, "h2", "unseen", "", "", ""),
    (2, "ol", "unseen", "", "", ""),
    (3, "li", "unseen", "1", "1", ""),
    (3, "li", "unseen", "2", "2", ""),
    (3, "li", "unseen", "3", "3", ""),
    (1, "section #two", "anew", "", "", "the place is under it"),
    (2, "h2", "same", "", "", "handed the same: on to the list"),
    (2, "ol", "anew", "", "", "the place is under it"),
    (3, "li", "same", "1", "1", "handed the same: on to the place"),
    (3, "li", "gone", "2", "", "the place: its record has what is handed here"),
    (3, "li", "anew", "3", "2", "compared: it follows item 1, and followed item 2"),
    (1, "section #three", "anew", "", "", "compared: the box before it has 2, and had 3"),
    (2, "h2", "same", "", "", "handed the same: on to the end of the section"),
    (2, "ol", "unseen", "", "", ""),
    (3, "li", "unseen", "1", "1", ""),
    (3, "li", "unseen", "2", "2", ""),
    (3, "li", "unseen", "3", "3", ""),
)
# From which element to which the walk skips; the last goes to the end of its level.
SKIPS = (1, 7), (8, 9), (10, 11), (14, len(ELEMENTS))
NOTE = (
    "Why section #three is evaluated anew: an element is handed the counters of its parent box, of its sibling box",
    "before and of the box just before in tree order, and the quote depth. The box just before section #three is the",
    "marker of the last item of section #two, whose list-item was 3 and is 2 now. So the section is handed",
    "something else, though it is not in the scope of that counter. It has no counter itself, before the edit or",
    "after it. So its h2 is handed the same, and nothing after that in the section is looked at.",
)
ROW, STEP, LEFT, TOP, WIDTH, LINE = 34, 26, 20, 64, 190, 20
BEFORE_AT, AFTER_AT, SKIP_AT, WHY_AT = 310, 430, 484, 502
STYLE = """text { font: 14px sans-serif; fill: #222 } .code { font-family: monospace } .quiet { fill: #666 }
.anew { fill: #fdf0d5; stroke: #c89b3c } .same { fill: #eef3fa; stroke: #7b93b5 } .unseen { fill: #fff; stroke: #ccc }
.gone { fill: #fff; stroke: #b0552f; stroke-dasharray: 5 3 } .skip { fill: none; stroke: #7b93b5 }"""


def main():
    print(drawing())


def drawing():
    legend_top = TOP + ROW * len(ELEMENTS) + 24
    note_top = legend_top + ROW + 24
    height = note_top + LINE * len(NOTE)
    parts = [
        f'<svg xmlns="http://www.w3.org/2000/svg" width="860" height="{height}" viewBox="0 0 860 {height}">',
        f"<style>{STYLE}</style>",
        f'<rect width="860" height="{height}" fill="#fff"/>',
        *heading(),
    ]
    for place, element in enumerate(ELEMENTS):
        parts += row(TOP + ROW * place, element)
    for start, end in SKIPS:
        parts += skip(start, end)
    parts += legend(legend_top)
    parts += [text(LEFT, note_top + LINE * place, line, "note") for place, line in enumerate(NOTE)]
    return "\n".join([*parts, "</svg>"])


def heading():
    names = (
        (LEFT, "elements, in tree order"),
        (BEFORE_AT, "number before"),
        (AFTER_AT, "after"),
        (WHY_AT, "why"),
    )
    return [text(at, 36, name, "quiet") for at, name in names]


def text(left, top, words, kind):
    return f'<text x="{left}" y="{top}" class="{kind}">{escape(words)}</text>'


def rect(left, top, width, kind):
    return f'<rect x="{left}" y="{top}" width="{width}" height="{ROW - 8}" rx="4" class="{kind}"/>'


def row(top, element):
    """One element, its number before the edit and after it, and why this becomes of it."""
    depth, name, kind, before, after, why = element
    left = LEFT + STEP * depth
    return [
        rect(left, top, WIDTH, kind),
        text(left + 10, top + 18, name, "code quiet" if kind == "unseen" else "code"),
        *[text(at + 6, top + 18, number, "code") for at, number in ((BEFORE_AT, before), (AFTER_AT, after)) if number],
        *([text(WHY_AT, top + 18, why, "quiet")] if why else []),
    ]


def skip(start, end):
    """The way from an element that is handed the same to where the walk goes on."""
    start, end = TOP + ROW * start + 17, TOP + ROW * end + 9
    return [
        f'<path class="skip" d="M {SKIP_AT - 10} {start} H {SKIP_AT} V {end} H {SKIP_AT - 10}"/>',
        f'<path d="M {SKIP_AT - 14} {end} l 6 -4 v 8 z" fill="#7b93b5"/>',
    ]


def legend(top):
    parts = []
    for place, (kind, words) in enumerate(KINDS.items()):
        left = LEFT + 220 * place
        parts += [rect(left, top, 26, kind), text(left + 36, top + 18, words, "quiet")]
    return parts


if __name__ == "__main__":
    main()
