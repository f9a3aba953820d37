#!/usr/bin/env bash
# A book of 64 documents of 1,500 elements, by `marker book`: sections with a heading, a list and two references, one to a
# section of the document itself and one to a section of the next document. It says
#   - how long it takes to begin the book and to show one document, as a ratio to the dumps of all documents alone;
#   - how many times as long that takes with one edit before the `show`;
#   - the mean time of an edit in one document of the book, and of one that goes over to another document first, as ratios to
#     the mean time of the same edits in that document alone, by `marker edit`. Near 1 says that no other document is evaluated;
#   - the time of one more `show`, as a ratio to beginning the book.
# Ends with status 1 where the ratio of an edit in one document is past 2, or that of an edit before the `show` past 1.2.
#   bench/book.sh [PROGRAM] [DOCUMENTS ELEMENTS EDITS]      the repository's program where none is named
set -eu
here=$(cd "$(dirname "$0")/.." && pwd)
. "$here/bench/programs.sh"
PYTHONPATH=$here/bench python3 - "${programs[0]}" "${@:-}" <<'PY'
import sys
from seconds import ratio, seconds
from section_pages import SHEET

program = sys.argv[1]
documents, elements, count = [int(word) for word in sys.argv[2:] if word] or (64, 1_500, 20_000)
sections = max(1, elements // 9)
names = [f"{k}.xhtml" for k in range(documents)]


def put(name, text):
    with open(name, "w") as file:
        file.write(text)


def document(place):
    next_name = names[(place + 1) % documents]
    return "<body>" + "".join(
        f'<section id="s{k}"><h2>{k}</h2><ol><li/><li/><li/></ol>'
        f'<p><a href="#s{k * 7919 % sections}"/><a href="{next_name}#s{k * 7907 % sections}"/></p></section>'
        for k in range(sections)
    ) + "</body>"


def edits(many):
    """An item comes and goes, in sections all over a document."""
    for place in range(many // 2):
        section = place * 7919 % sections
        yield f"insert /{section}/1 1 <li/>"
        yield f"remove /{section}/1/1"


def in_turn(lines):
    """The same, two in a document and then two in the next one."""
    for place, line in enumerate(lines):
        if place % 2 == 0:
            yield f"in {names[place // 2 % documents]}"
        yield line


def book(*lines):
    put("script.txt", "".join(f"{line}\n" for line in lines))
    return seconds(program, "book", "sheet.css", "script.txt", *names)


def alone(*lines):
    put("script.txt", "".join(f"{line}\n" for line in lines))
    return seconds(program, "edit", names[0], "sheet.css", "script.txt")


def mean(whole, without):
    """The mean time of an edit, from a run with all edits and one without."""
    return max(whole - without, 0.001) / count


put("sheet.css", SHEET)
for place, name in enumerate(names):
    put(name, document(place))
dumps = sum(seconds(program, "dump", name, "sheet.css") for name in names)
begun = book("show")
print(f"{documents} documents of {sections * 9 + 1} elements: begun and one shown in {begun:.3f} s, {ratio(begun, dumps):.2f} times the dumps of all", flush=True)
with_edit = ratio(book(next(edits(2)), "show"), begun)
print(f"the same with one edit before the show: {with_edit:.2f} times", flush=True)
an_edit = mean(alone(*edits(count), "show"), alone("show"))
in_one = mean(book(*edits(count), "show"), begun)
in_all = mean(book(*in_turn(edits(count)), "show"), begun)
print(f"an edit in one of them, of {count}: {in_one * 1e6:.0f} µs, {in_one / an_edit:.2f} times that in the document alone", flush=True)
print(f"an edit, going over to the next document after each two: {in_all * 1e6:.0f} µs, {in_all / an_edit:.2f} times", flush=True)
a_show = max(book(*["show"] * 101) - begun, 0.001) / 100
print(f"one more show: {a_show * 1e3:.1f} ms, {a_show / begun:.3f} times as long as beginning the book", flush=True)
sys.exit(in_one / an_edit > 2 or with_edit > 1.2)
PY
