#!/usr/bin/env bash
# The peak resident memory of `marker dump`, and its time, over documents of 100,000 elements: sections with a heading,
# a list and a reference each, paragraphs in the scope of eight counters, which no element of theirs changes, and lists of four
# items that count up, and then down. With
# two programs, also how many times as much memory and time the second takes as the first, so that a change can be
# compared with what was before.
#   bench/memory.sh [PROGRAM [OTHER]] [ELEMENTS..]      the repository's program where none is named
set -eu
here=$(cd "$(dirname "$0")/.." && pwd)
. "$here/bench/programs.sh"
PYTHONPATH=$here/bench python3 - "${programs[@]}" "$@" <<'PY'
import sys
from seconds import peak_mebibytes, ratio, seconds

programs = [word for word in sys.argv[1:] if not word.isdigit()]
sizes = [int(word) for word in sys.argv[1:] if word.isdigit()] or [100_000]


# Part by part: the peak of a run is never told as less than that of the process that starts it.
def sections(elements):
    count = elements // 8
    yield "<body>"
    for k in range(count):
        other = k * 7919 % count
        yield f'<section id="s{k}"><h2>{k}</h2><ol><li/><li/><li/></ol><p><a href="#s{other}"/></p></section>'
    yield "</body>"


def paragraphs(elements):
    yield "<body>"
    for _ in range(elements // 4):
        yield "<p><em>a</em> <b>b</b> <i>c</i></p>"
    yield "</body>"


def lists(elements):
    yield "<body>"
    for _ in range(elements // 5):
        yield "<ol><li/><li/><li/><li/></ol>"
    yield "</body>"


DOCUMENTS = {
    "sections": (
        sections,
        'body{counter-reset:s}section{counter-increment:s;counter-reset:i}li{counter-increment:i list-item}'
        'h2::before{content:counter(s)". "}li::before{content:counters(i,".")}'
        'a::after{content:"("target-counter(attr(href),s)")"}',
    ),
    "paragraphs": (paragraphs, "body{counter-reset:a b c d e f g h}"),
    "lists that count up": (lists, "ol{counter-reset:list-item}"),
    "lists that count down": (lists, "ol{counter-reset:reversed(list-item)}"),
}


def put(name, parts):
    with open(name, "w") as file:
        file.writelines(parts)


for size in sizes:
    for name, (document, sheet) in DOCUMENTS.items():
        put("document.xhtml", document(size))
        put("sheet.css", sheet)
        dumps = [(program, "dump", "document.xhtml", "sheet.css") for program in programs]
        (peak, taken), *others = [(peak_mebibytes(*words), seconds(*words)) for words in dumps]
        line = f"{name}, {size} elements: {peak:.0f} MiB, {taken:.3f} s"
        for other_peak, other_taken in others:
            line += f"; the other program {other_peak:.0f} MiB, {other_taken:.3f} s"
            line += f", {other_peak / peak:.2f} times as much memory, {ratio(other_taken, taken):.2f} times as long"
        print(line, flush=True)
PY
