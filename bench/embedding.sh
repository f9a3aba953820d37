#!/usr/bin/env bash
# The mean time of an edit with the lines that it changes, from Python over the library that `embed/build` makes: `apply` of
# python/marker, in documents of 1,000 and 100,000 elements, and how many times as long it takes in the larger. Items of
# lists come, are moved, are given a value, lose it and go, all over the document. The batches of the sizes take turns, and
# of each size the least is told, in seconds of processor time. Beside that the same edits in Chromium's page, each with
# the layout that it makes necessary, in seconds of the clock.
#   bench/embedding.sh [--no-browser] [ELEMENTS..]
set -eu
here=$(cd "$(dirname "$0")/.." && pwd)
"$here/embed/build"
work=$(mktemp -d)
trap 'rm -rf "$work"' EXIT
cd "$work"
export PYTHONPATH=$here/bench:$here/python:$here/tests/embed PYTHONDONTWRITEBYTECODE=1
MARKER_LIBRARY=$here/embed/out/libmarker.so.0 python3 - "$@" <<'PY'
import os
import sys
import time

import browser
import marker
from section_pages import PLAIN, SHEET, document

sizes = [int(it) for it in sys.argv[1:] if it.isdigit()] or [1_000, 100_000]
BATCHES, BATCH = 8, 1_000


def edit(place, sections):
    """The edit at this place of the run, in the list of a section."""
    at = place // 5 * 7919 % sections
    return (
        f"insert /{at}/1 0 <li/>",
        f"move /{at}/1/0 /{at}/1 3",
        f"set /{at}/1/3 value 9",
        f"unset /{at}/1/3 value",
        f"remove /{at}/1/3",
    )[place % 5]


class Run:
    """A document and the edits of it that are timed."""

    def __init__(self, size, sheet):
        self.sections = size // 8
        self.document = marker.Document(document(size), sheet)
        self.place, self.least, self.changes = 0, None, 0

    def batch(self):
        lines = [edit(self.place + it, self.sections) for it in range(BATCH)]
        before = time.process_time()
        for line in lines:
            self.changes += len(self.document.apply(line))
        taken = (time.process_time() - before) / BATCH
        self.place += BATCH
        self.least = min(taken, self.least or taken)


def in_python(name, sheet):
    runs = [Run(size, sheet) for size in sizes]
    for _ in range(BATCHES):
        for run in runs:
            run.batch()
    for size, run in zip(sizes, runs):
        changed = f"{run.changes / run.place:.1f} changed lines"
        beside = f", {run.least / runs[0].least:.2f} times as long as in {sizes[0]}" if run is not runs[0] else ""
        print(f"{name}, {size} elements: {run.least * 1e6:.0f} µs an edit with its {changed}{beside}", flush=True)
        run.document.close()


EDITS = """(count => {
    const sections = document.body.children;
    let taken = 0;
    void document.body.offsetHeight;
    for (let place = 0; place < count; place++) {
        const list = sections[Math.floor(place / 5) * 7919 % sections.length].children[1];
        const before = performance.now();
        if (place % 5 === 0) list.prepend(document.createElementNS(list.namespaceURI, "li"));
        else if (place % 5 === 1) list.append(list.children[0]);
        else if (place % 5 === 2) list.children[3].setAttribute("value", "9");
        else if (place % 5 === 3) list.children[3].removeAttribute("value");
        else list.children[3].remove();
        void document.body.offsetHeight;
        taken += performance.now() - before;
    }
    return taken / count;
})"""


def in_chromium():
    if not browser.is_there():
        return print(f"Chromium was not timed. {browser.MISSING}")
    least = []
    for size in sizes:
        page = f'<html xmlns="http://www.w3.org/1999/xhtml"><head><style>{PLAIN}</style></head>{document(size)}</html>'
        with open("page.xhtml", "w") as file:
            file.write(page)
        with browser.Browser() as chromium:
            chromium.go(f"file://{os.getcwd()}/page.xhtml")
            least.append(min(chromium.value(f"{EDITS}(5)") for _ in range(3)))
        line = f"Chromium, {size} elements: {least[-1]:.2f} ms an edit with its layout"
        print(line + (f", {least[-1] / least[0]:.0f} times as long as in {sizes[0]}" if least[1:] else ""), flush=True)


in_python("plain", PLAIN)
in_python("with references", SHEET)
if "--no-browser" not in sys.argv:
    in_chromium()
PY
