#!/usr/bin/env bash
# The mean time of an edit by `marker edit`, over documents of sections with a heading, a list and a link each, of 10,
# 1,000, 10,000 and 100,000 elements: the time of a script of edits and one `show`, less that of the `show` alone, by
# the number of edits; and how many times as long an edit takes as at the size before. Under a plain sheet no link is a
# reference; in another plain one selectors look at siblings, so that an edit reaches the list that it changes and what is
# beside that; in a third each section has a reference. With two programs, also how many times as long the
# second takes as the first, so that a change can be compared with what was before. Under the plain sheet also the mean time
# of an undo or a redo, by `marker history`, and how many times as long it takes as an edit in the same history.
#   bench/edits.sh [--plain] [PROGRAM [OTHER]] [ELEMENTS..]      the repository's program where none is named
set -eu
here=$(cd "$(dirname "$0")/.." && pwd)
sheets=()
if [ "${1-}" = --plain ]; then
  sheets=(--plain)
  shift
fi
. "$here/bench/programs.sh"
PYTHONPATH=$here/bench python3 - "${sheets[@]}" "${programs[@]}" "$@" <<'PY'
import sys
from seconds import seconds

programs = [word for word in sys.argv[1:] if not word.isdigit() and word != "--plain"]
sizes = [int(word) for word in sys.argv[1:] if word.isdigit()] or [10, 1_000, 10_000, 100_000]
PLAIN = (
    'body{counter-reset:s}section{counter-increment:s;counter-reset:i}li{counter-increment:i list-item}'
    'h2::before{content:counter(s)". "}li::before{content:counters(i,".")}'
)
SIBLINGS = 'li+li::after{content:"."}li:nth-child(2n)::after{content:"!"}ol:empty::after{content:"none"}'
SHEETS = {"plain": PLAIN, "plain, with siblings": PLAIN + SIBLINGS}
if "--plain" not in sys.argv:
    SHEETS["with references"] = PLAIN + 'a::after{content:"("target-counter(attr(href),s)")"}'


def document(elements):
    sections = max(1, elements // 8)
    return "<body>" + "".join(
        f'<section id="s{k}"><h2>{k}</h2><ol><li/><li/><li/></ol><p><a href="#s{k * 7919 % sections}"/></p></section>'
        for k in range(sections)
    ) + "</body>"


def edits(elements, count):
    """An item comes, is moved, is given a value, loses it, and goes: sections all over the document, in turn."""
    sections = max(1, elements // 8)
    lines = []
    for place in range(count):
        section = place // 5 * 7919 % sections
        lines.append((
            f"insert /{section}/1 0 <li/>",
            f"move /{section}/1/0 /{section}/1 3",
            f"set /{section}/1/3 value 9",
            f"unset /{section}/1/3 value",
            f"remove /{section}/1/3",
        )[place % 5])
    return "\n".join([*lines, "show"]) + "\n"


def put(name, text):
    with open(name, "w") as file:
        file.write(text)


def an_edit(program, count):
    """The mean time of an edit of the script; of all at least a millisecond, below which a clock says little."""
    words = (program, "edit", "document.xhtml", "sheet.css")
    runs = 1 if count < 1_000 else 3
    return max(seconds(*words, "edits.txt", runs=runs) - seconds(*words, "none.txt"), 0.001) / count


def measure(kind, size, before):
    """Says what an edit takes at this size, and gives it; `before` is what it took at the size before."""
    # Another program may evaluate the whole document, and so take the longer the larger that is.
    count = 10_000 if len(programs) == 1 else max(5, min(10_000, 500_000 // size))
    put("edits.txt", edits(size, count))
    taken, *others = [an_edit(program, count) for program in programs]
    line = f"{kind}, {size} elements, {count} edits: {taken * 1e6:.0f} µs an edit"
    if before:
        line += f", {taken / before:.2f} times that at the size before"
    for other in others:
        line += f"; the other program {other * 1e6:.0f} µs, {other / taken:.2f} times as long"
    print(line, flush=True)
    return taken


def measure_undo(size):
    """Says what an undo or a redo takes at this size, beside an edit in the same history: 10,000 edits are done, and then
    the last 1,000 are undone and redone five times over."""
    count, depth = 10_000, 1_000
    script = edits(size, count).removesuffix("show\n")
    put("edits.txt", script + "show\n")
    put("undone.txt", script + ("undo\n" * depth + "redo\n" * depth) * 5 + "show\n")
    program = (programs[0], "history", "document.xhtml", "sheet.css")
    none, done, undone = (seconds(*program, name, str(depth)) for name in ("none.txt", "edits.txt", "undone.txt"))
    an_edit, a_step = (max(taken, 0.001) / count for taken in (done - none, undone - done))
    line = f"plain, {size} elements, with a history: {an_edit * 1e6:.0f} µs an edit"
    print(f"{line}, {a_step * 1e6:.0f} µs an undo or a redo, {a_step / an_edit:.2f} times as long", flush=True)


put("none.txt", "show\n")
before = {}
for size in sizes:
    put("document.xhtml", document(size))
    for kind, sheet in SHEETS.items():
        put("sheet.css", sheet)
        before[kind] = measure(kind, size, before.get(kind))
    put("sheet.css", PLAIN)
    measure_undo(size)
PY
