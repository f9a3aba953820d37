#!/usr/bin/env bash
# What an edit costs by what the document and the edit are, and how it grows: the mean time of an edit by `marker edit` over
# documents of 1,000 and of 10,000 elements, and how many times as long it takes in the larger one. A ratio near 1 says that an
# edit costs the same in a document ten times as long, one near 10 that it grows with the document.
#   bench/kinds-of-edits.sh [PROGRAM] [ELEMENTS..]      the repository's program where none is named
set -eu
here=$(cd "$(dirname "$0")/.." && pwd)
. "$here/bench/programs.sh"
PYTHONPATH=$here/bench python3 - "${programs[0]}" "$@" <<'PY'
import sys
from seconds import seconds

program = sys.argv[1]
sizes = [int(word) for word in sys.argv[2:]] or [1_000, 10_000]
COUNTERS = (
    "body{counter-reset:s}section{counter-increment:s;counter-reset:i}li{counter-increment:i list-item}"
    'h2::before{content:counter(s)". "}li::before{content:counters(i,".")}'
)
REFERENCES = 'a::after{content:"("target-counter(attr(href),s)") "target-text(attr(href))}'


ITEMS = "<li/>" * 3
NESTED_ITEMS = "<li><ol><li/></ol></li>"


def sections(count, link, items):
    """A document of so many sections of eight elements; `link` gives the link of the k-th of them."""
    whole = "".join(
        f'<section id="s{k}"><h2>{k}</h2><ol>{items}</ol><p>{link(k, count)}</p></section>' for k in range(count)
    )
    return f"<body><style/>{whole}</body>"


def own(k, count):
    return f'<a href="#s{k * 7919 % count}"/>'


def shared(k, count):
    return '<a href="#s0"/>'


def nothing(k, count):
    return "<a/>"


def holder(k, count):
    """A link to the id that it has itself, as all others have."""
    return '<a href="#all" id="all"/>'


def items(place):
    """An item comes and goes, in sections all over the document."""
    return f"insert /{place}/1 1 <li/>", f"remove /{place}/1/1"


def inner_items(place):
    """An item of the list in a list."""
    return f"insert /{place}/1/0/0 1 <li/>", f"remove /{place}/1/0/0/1"


def values(place):
    return f"set /{place}/1/1 value 9", f"unset /{place}/1/1 value"


def hidden(place):
    """A list comes under `display: none`, and comes back."""
    return f"set /{place}/1 class hidden", f"unset /{place}/1 class"


def titles(place):
    return f"set /{place} title x", f"unset /{place} title"


def paragraphs(place):
    """A paragraph of twelve elements comes and goes, one of them a reference."""
    return f'insert /{place} 3 <p>{"<i/>" * 10}<a href="#s1"/></p>', f"remove /{place}/3"


def ids(place):
    """The id of the section after it comes to a heading, which so is what the id names, and goes."""
    return f"set /{place}/0 id s{place}", f"unset /{place}/0 id"


def holders(place):
    """A paragraph that has that id too comes behind the link, and goes: it is never the first that has it."""
    return f'insert /{place} 3 <p id="all"/>', f"remove /{place}/3"


def first_holders(place):
    """The element before all sections gets that id, and loses it: so all references lead elsewhere."""
    return "set /0 id all", "unset /0 id"


def styles(place):
    return "insert /0 0 p{color:red}", "remove /0/0"


def counting_styles(place):
    """A rule that numbers something comes and goes."""
    return "insert /0 0 p{counter-increment:s}", "remove /0/0"


def first_reversed(place):
    """The one list of the document that counts down comes and goes: by the first of the two edits a box comes to ask for a start,
    and by the second one none asks any more."""
    return f'insert /{place} 3 <ol reversed=""><li/></ol>', f"remove /{place}/3"


SIBLINGS = 'li+li::after{content:"."}li:nth-child(2n)::after{content:"!"}'
EMPTY = 'ol:empty::after{content:"none"}'
REVERSED = "ol{counter-reset:reversed(i)}"
HIDDEN = ".hidden{display:none}"
# What is edited, the sheet, what each section refers to, the edits, and the items of each list.
KINDS = (
    ("an item", COUNTERS, nothing, items, ITEMS),
    ("an item, and selectors of siblings and positions", COUNTERS + SIBLINGS, nothing, items, ITEMS),
    ("an item, and a selector of emptiness", COUNTERS + EMPTY, nothing, items, ITEMS),
    ("an item, and selectors of siblings and of emptiness", COUNTERS + SIBLINGS + EMPTY, nothing, items, ITEMS),
    ("an attribute, and selectors of siblings and positions", COUNTERS + SIBLINGS, nothing, values, ITEMS),
    ("a list comes under display: none", COUNTERS + HIDDEN, nothing, hidden, ITEMS),
    ("an attribute that nothing asks for", COUNTERS, nothing, titles, ITEMS),
    ("an item, each section with a reference", COUNTERS + REFERENCES, own, items, ITEMS),
    ("an attribute, each section with a reference to one element", COUNTERS + REFERENCES, shared, values, ITEMS),
    ("a paragraph with a reference", COUNTERS + REFERENCES, own, paragraphs, ITEMS),
    ("an id that names another element then", COUNTERS + REFERENCES, own, ids, ITEMS),
    ("an item, where all sections have one id and refer to it", COUNTERS + REFERENCES, holder, items, ITEMS),
    ("one more that has that id", COUNTERS + REFERENCES, holder, holders, ITEMS),
    ("one more that has that id, before all others", COUNTERS + REFERENCES, holder, first_holders, ITEMS),
    ("the target of all references", COUNTERS + REFERENCES, shared, lambda place: titles(1), ITEMS),
    ("an item of lists that count down", COUNTERS + REVERSED, nothing, items, ITEMS),
    ("an item of lists that count down, in lists that do", COUNTERS + REVERSED, nothing, inner_items, NESTED_ITEMS),
    ("a list that counts down comes under display: none", COUNTERS + REVERSED + HIDDEN, nothing, hidden, ITEMS),
    ("the first list that counts down comes, and goes", COUNTERS, nothing, first_reversed, ITEMS),
    ("a rule in a style element", COUNTERS, nothing, styles, ITEMS),
    ("a rule in a style element that changes numbers", COUNTERS, nothing, counting_styles, ITEMS),
)


def put(name, text):
    with open(name, "w") as file:
        file.write(text)


def an_edit(count, edits):
    """The mean time of an edit, of as many as take some tenths of a second."""
    all_edits = 20
    while True:
        # The first child of the body is its style element, and the section after that is the one to which all links may lead.
        lines = [line for k in range(all_edits // 2) for line in edits(2 + k * 7919 % (count - 1))]
        put("edits.txt", "\n".join([*lines, "show"]) + "\n")
        words = (program, "edit", "document.xhtml", "sheet.css")
        taken = seconds(*words, "edits.txt") - seconds(*words, "none.txt")
        if taken > 0.2 or all_edits >= 10_000:
            return max(taken, 0.001) / all_edits
        all_edits *= 8


put("none.txt", "show\n")
for kind, sheet, link, edits, list_items in KINDS:
    before = None
    for size in sizes:
        count = max(2, size // 8)
        put("document.xhtml", sections(count, link, list_items))
        put("sheet.css", sheet)
        taken = an_edit(count, edits)
        line = f"{kind}, {size} elements: {taken * 1e6:.0f} µs an edit"
        if before is not None:
            line += f", {taken / before:.2f} times that at the size before"
        before = taken
        print(line, flush=True)
PY
