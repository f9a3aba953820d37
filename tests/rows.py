"""The rows of tests/run: runs of the program over files, with what they print and how they end."""

import os
import re
import subprocess
from collections import namedtuple

# A run of the program in a folder in which these files are, beside examples/: its words, the status, the standard
# output and the standard error that are wanted, and the most seconds that it may take over the proved program, if there is a most.
Case = namedtuple("Case", "name words status output line files seconds", defaults=(0, "", "", {}, None))

USAGE = "marker: usage: dump DOC SHEET | edit DOC SHEET SCRIPT | table SHEET STYLE FROM TO | gen SEED COUNT | history DOC SHEET SCRIPT DEPTH | text DOC SHEET | why DOC SHEET PATH | bake DOC SHEET | book SHEET SCRIPT DOC...\n"
LIST = '/0 marker "1. "\n/1 marker "2. "\n'
FILES = {
    "empty.css": "",
    "space.css": " ",
    "list.xhtml": "<ol><li>a</li><li>b</li></ol>",
    "ul.xhtml": "<ul/>",
    "lists.css": "ul::before { content: 'x' }",
    "open.xhtml": "<ol><li>",
    "bytes.css": b"\xff",
    "plain.txt": "remove /0/1\nshow\n",
    "missing.txt": "show\nremove /9\nsheet none.css\nshow\n",
    "bad.txt": "show\n\nremove 0\n",
    "undo.txt": "remove /0\nundo\nshow\nundo\n",
    "a": '<p><a href="b#t"/></p>',
    "b": '<body><h1 id="t"/></body>',
    "own": '<p id="x">t<a href="own#x"/><a href="z#x"/></p>',
    "heads.css": "h1{counter-increment:s}a::after{content:target-counter(attr(href),s)}",
    "texts.css": "a::after{content:target-text(attr(href))}",
    "show.txt": "show\n",
    "in.txt": "show\nin b\ninsert / 0 <h1/>\nin a\nshow\nin c\n",
    "in-none.txt": "in b \ninsert / 9 <h1/>\nin \n",
    "redo.txt": "in b\n\nredo\n",
} | {f"d{number}": "<p/>" for number in range(64)}
DOCUMENTS = " ".join(f"d{number}" for number in range(64))
ACROSS = """\
show 1
/0 after "1"
end
show 5
/0 after "2"
end
refused 6 no-document
"""
FIGURES = '/1/1 after " (Fig. 2)"\n/3/0 before "Fig. 1: "\n/5/0 before "Fig. 2: "\n'
ARTICLE = """\
/1/1/0 before "I. "
/1/1/1/1 after " (Fig. 2, Plan)"
/1/1/1/3 before "«"
/1/1/1/3/1 before "“"
/1/1/1/3/1 after "”"
/1/1/1/3 after "»"
/1/1/1/5 after "*"
/1/1/2/0 before "Fig. 1: "
/1/3/0 before "II. "
/1/3/1/0 marker "1. "
/1/3/1/1 marker "2. "
/1/3/1/1/1/0 marker "a. "
/1/3/1/1/1/1 marker "b. "
/1/3/2/0 marker "- "
/1/3/3/0 before "Fig. 2: "
/1/5/0/0 marker "* "
"""
# What bake puts into the article under house.css, in the order of the dump: where, and what stands there then.
PUT_IN = (
    ("<h2>Hive", '<h2><span class="baked-before">I. </span>Hive'),
    ("the plan</a>", 'the plan<span class="baked-after"> (Fig. 2, Plan)</span></a>'),
    ("<q>the ", '<q><span class="baked-before">«</span>the '),
    ("<q>old</q>", '<q><span class="baked-before">“</span>old<span class="baked-after">”</span></q>'),
    (" way</q>", ' way<span class="baked-after">»</span></q>'),
    ('href="#n1"/>', 'href="#n1"><span class="baked-after">*</span></a>'),
    ("Frame<", '<span class="baked-before">Fig. 1: </span>Frame<'),
    ("<h2>Work", '<h2><span class="baked-before">II. </span>Work'),
    ("Smoke<", '<span class="baked-marker">1. </span>Smoke<'),
    ("Open<", '<span class="baked-marker">2. </span>Open<'),
    ("lid<", '<span class="baked-marker">a. </span>lid<'),
    ("frames<", '<span class="baked-marker">b. </span>frames<'),
    ("veil<", '<span class="baked-marker">- </span>veil<'),
    ("Plan</figcaption>", '<span class="baked-before">Fig. 2: </span>Plan</figcaption>'),
    ("Langstroth<", '<span class="baked-marker">* </span>Langstroth<'),
)
CHAPTER = """\
/1/1 before "Chapter 2: "
/1/3 before "2.1 "
/1/5/0 marker "a. "
/1/5/2 marker "b. "
/1/7 before "2.2 "
/1/9/0 marker "c. "
/1/9/1 marker "– "
/1/11/0 marker "- "
/1/13/1 before "‹"
/1/13/1 after "›"
/1/13/3 after " (2.1)"
"""
PLAIN_CHAPTER = """\
show 2
/1/5/0 marker "1. "
/1/5/2 marker "2. "
/1/9/0 marker "3. "
/1/9/1 marker "– "
/1/11/0 marker "• "
/1/13/1 before "‹"
/1/13/1 after "›"
end
"""


def files_of(folder):
    return {it.name: it.read_text() for it in sorted(folder.iterdir()) if it.is_file()}


def small(here):
    """The rows that every build of the program can run."""
    book = files_of(here / "examples/book")
    chapters = "contents.xhtml hive.xhtml year.xhtml honey.xhtml"
    edited = (here / "crates/marker/stdout").read_text()
    told = f"show 1\n{LIST}end\nrefused 2 no-place\n"
    baked = (here / "examples/article.xhtml").read_text()
    for place, text in PUT_IN:
        baked = baked.replace(place, text)
    gen = "elements 10\nboxes 20\naccepted 2\nrefused 0\nlines 10\n"
    silenced = "".join((here / f"examples/{name}.css").read_text() for name in ("house", "baked"))
    rows = [
        ("a list", "dump list.xhtml empty.css", 0, LIST, ""),
        ("the example of a list", "dump examples/list.xhtml examples/empty.css", 0, LIST, ""),
        ("the example of README", "dump examples/figures.xhtml examples/figures.css", 0, FIGURES, ""),
        ("the article", "dump examples/article.xhtml examples/house.css", 0, ARTICLE, ""),
        ("the article, silenced", "dump examples/article.xhtml silenced.css", 0, "", ""),
        ("the chapter", "dump examples/chapter.xhtml examples/house.css", 0, CHAPTER, ""),
        ("no style element", "edit examples/chapter.xhtml empty.css plain.txt", 0, PLAIN_CHAPTER, ""),
        ("the article, edited", "edit examples/article.xhtml examples/house.css examples/script.txt", 0, edited, ""),
        ("no words", "", 2, "", USAGE),
        ("a word too few", "dump list.xhtml", 2, "", USAGE),
        ("a document that is open", "dump open.xhtml empty.css", 6, "", "marker: open.xhtml:1:9: not well-formed\n"),
        ("a sheet that is not UTF-8", "dump list.xhtml bytes.css", 5, "", "marker: bytes.css: not UTF-8 at 0\n"),
        ("a run that is made up", "gen 1 2", 0, gen, ""),
        ("no file of a line", "edit list.xhtml empty.css missing.txt", 3, told, "marker: none.css: read failed\n"),
        ("an edit that is undone", "history list.xhtml empty.css undo.txt 1", 0, f"show 3\n{LIST}end\nrefused 4 nothing\n", ""),
        ("no depth", "history list.xhtml empty.css undo.txt 0", 2, "", USAGE),
        ("no history", "edit list.xhtml empty.css undo.txt", 7, "", "marker: undo.txt:2: bad line\n"),
        ("a script that is none", "edit list.xhtml empty.css bad.txt", 7, "", "marker: bad.txt:3: bad line\n"),
        ("a list as lines", "text list.xhtml empty.css", 0, "1. a\n2. b\n", ""),
        ("lines of a document that is open", "text open.xhtml empty.css", 6, "", "marker: open.xhtml:1:9: not well-formed\n"),
        ("no element", "why list.xhtml empty.css /0/0", 0, "refused no-element\n", ""),
        ("no path", "why list.xhtml empty.css 7", 2, "", USAGE),
        ("the article, baked", "bake examples/article.xhtml examples/house.css", 0, baked, ""),
        ("a text without a place", "bake ul.xhtml lists.css", 11, "<ul/>", "marker: ul.xhtml: texts without a place: 1\n"),
        ("a table", "table empty.css lower-roman 3 4", 0, '3 "iii"\n4 "iv"\n', ""),
        ("the example of years", "table examples/styles.css year -1 1", 0, '-1 "1 BCE"\n0 "—"\n1 "1"\n', ""),
        ("the example of plates", "table examples/styles.css plate 7 7", 0, '7 "007"\n', ""),
        ("no such document", "dump none.xhtml empty.css", 3, "", "marker: none.xhtml: read failed\n"),
        ("no such sheet", "dump list.xhtml none.css", 3, "", "marker: none.css: read failed\n"),
        ("a folder", "dump . empty.css", 3, "", "marker: .: read failed\n"),
        ("a sheet of a space", "dump list.xhtml space.css", 0, LIST, ""),
        ("a list without items", "dump ul.xhtml empty.css", 0, "", ""),
        ("the example of a book", f"book book.css contents.txt {chapters}", 0, book["contents.dump"], ""),
        ("a book of two documents", "book heads.css in.txt a b", 0, ACROSS, ""),
        ("a name of its own, and none", "book texts.css show.txt own", 0, 'show 1\n/1 after "t"\n/2 after ""\nend\n', ""),
        ("64 documents", f"book empty.css show.txt {DOCUMENTS}", 0, "show 1\nend\n", ""),
        ("65 documents", f"book empty.css show.txt {DOCUMENTS} own", 2, "", USAGE),
        ("no document", "book empty.css show.txt", 2, "", USAGE),
        ("two of one name", "book empty.css show.txt a b a", 2, "", USAGE),
        ("a name with a sign", "book empty.css show.txt a#", 2, "", USAGE),
        ("a document of a book that is open", "book empty.css bad.txt a open.xhtml", 10, "", "marker: open.xhtml:1:9: not well-formed\n"),
        ("two that are open", "book empty.css bad.txt open.xhtml list.xhtml lists.css", 10, "", "marker: open.xhtml:1:9: not well-formed\n"),
        ("a document of a book that is not UTF-8", "book empty.css bad.txt open.xhtml bytes.css", 5, "", "marker: bytes.css: not UTF-8 at 0\n"),
        ("no file of a book", "book empty.css none.txt none.xhtml", 3, "", "marker: none.txt: read failed\n"),
        ("no such document of a book", "book empty.css bad.txt open.xhtml none.xhtml", 3, "", "marker: none.xhtml: read failed\n"),
        ("no file of a line in a book", "book empty.css missing.txt list.xhtml", 3, told, "marker: none.css: read failed\n"),
        ("no name of a document", "book empty.css in-none.txt a b", 7, "", "marker: in-none.txt:3: bad line\n"),
        ("no undo in a book", "book empty.css undo.txt list.xhtml", 7, "", "marker: undo.txt:2: bad line\n"),
        ("no redo in a book", "book empty.css redo.txt a b", 7, "", "marker: redo.txt:3: bad line\n"),
        ("no other document in a script of edits", "edit b heads.css in.txt", 7, "", "marker: in.txt:2: bad line\n"),
        ("nor in one with a history", "history b heads.css in.txt 9", 7, "", "marker: in.txt:2: bad line\n"),
    ]
    files = FILES | {"silenced.css": silenced} | book
    return [Case(name, words.split(), status, output, line, files) for name, words, status, output, line in rows]


# What `dump` writes of each document of the example of a book, one after the other, and which of them are left where that of
# the year cannot be read.
ALONE = """\
/1/1/1/1/0 before ""
/1/1/1/1/1/0/0 before ""
/1/1/1/1/1/1/0 before ""
/1/1/1/3/0 before ""
/1/1/1/3/1/0/0 before ""
/1/1/1/3/1/1/0 before ""
/1/1/1/5/0 before ""
/1/1/1/5/1/0/0 before ""
/1/1 before "Chapter 1. "
/1/3 before "1.1 "
/1/5/0 before "Fig. 1.1: "
/1/7 before "1.2 "
/1/9/1 after "(Fig. 1.1)"
/1/9/3 after "()"
/1/1 before "Chapter 2. "
/1/3 before "2.1 "
/1/5/1 after "(Fig. .)"
/1/7 before "2.2 "
/1/9/1 after "()"
/1/1 before "Chapter 3. "
/1/3 before "3.1 "
/1/5/0 before "Fig. 3.1: "
/1/7/1 after "()"
"""
LEFT = "contents.dump\nhive.dump\nhoney.dump\n"


# Large documents and sheets: each row is made when its turn comes, and needs the proved program.


def one_file(name, file, text, status=0, output="", line=""):
    words = ["dump", "list.xhtml", file] if file.endswith(".css") else ["dump", file, "empty.css"]
    return Case(name, words, status, output, line, {file: text})


def nested():
    lines = (f'{"/0" * 100_000} {box} "{mark}"\n' for box, mark in (("before", "“"), ("after", "”")))
    return one_file("nested elements", "deep.xhtml", "<b>" * 100_000 + "<q/>" + "</b>" * 100_000, output="".join(lines))


def items():
    count = (16_777_216 - 9) // 10
    lines = (f'/{place} marker "{place + 1}. "\n' for place in range(count))
    return one_file("16 MiB of one list", "flat.xhtml", "<ol>" + "<li>a</li>" * count + "</ol>", output="".join(lines))


def made_up(name, count, elements, boxes, accepted, lines):
    """A long run that is made up. What it counts was counted by another program, over one evaluation after the last edit."""
    output = f"elements {elements}\nboxes {boxes}\naccepted {accepted}\nrefused {count - accepted}\nlines {lines}\n"
    return Case(name, ["gen", "1", f"{count}"], output=output, seconds=60)


def too_long(file, text):
    return one_file(f"{file} is too long", file, text, 4, line=f"marker: {file}: larger than 16777216 bytes\n")


LARGE = (
    lambda: Case("a name that is no text", ["dump", os.fsdecode(b"\xff"), "empty.css"], 2, "", USAGE),
    lambda: Case("an empty name of a document", ["book", "empty.css", "show.txt", "a", ""], 2, "", USAGE),
    nested,
    items,
    lambda: made_up("10,000 edits", 10_000, 9_333, 19_989, 8_318, 10_656),
    lambda: made_up("10,000 edits once more", 10_000, 9_333, 19_989, 8_318, 10_656),
    lambda: made_up("20,000 edits", 20_000, 18_542, 39_616, 16_586, 21_074),
    lambda: too_long("long.xhtml", "<p>" + "a" * (16_777_217 - 7) + "</p>"),
    lambda: too_long("long.css", " " * 16_777_217),
    lambda: one_file("a sheet that is not too long", "full.css", " " * 16_777_216, output=LIST),
    lambda: one_file("16 MiB of text", "text.xhtml", "<p>" + "a" * (16_777_216 - 7) + "</p>"),
)


# What only the system shows: each of these runs the program, and gives a case with what it got.


def unreadable(program, work):
    """A file that may not be read. Root may read all, so root becomes somebody else for it."""
    (work / "secret.xhtml").write_text("<p/>")
    (work / "secret.xhtml").chmod(0)
    (work / "program").write_bytes(program.read_bytes())
    (work / "program").chmod(0o755)
    other = ["setpriv", "--reuid=65534", "--regid=65534", "--clear-groups"] if os.getuid() == 0 else []
    words = ["dump", "secret.xhtml", "empty.css"]
    ran = subprocess.run([*other, "./program", *words], cwd=work, capture_output=True)
    case = Case("a file that may not be read", words, 3, "", "marker: secret.xhtml: read failed\n")
    return case, ran.returncode, ran.stdout, ran.stderr


def unwritable(program, work, output, name):
    words = ["dump", "list.xhtml", "empty.css"]
    ran = subprocess.run(["sh", "-c", f'"$0" "$@" {output}', program, *words], cwd=work, capture_output=True)
    return Case(name, words, 8, "", "marker: write failed\n"), ran.returncode, ran.stdout, ran.stderr


def make(program, work, *words):
    """GNU make in the folder of the example of a book, four runs side by side, into the folder `made`. What each of them
    says stands together, and not between parts of what another says."""
    words = ["make", "-s", "-j4", "--output-sync", "-C", "examples/book", f"MARKER={program}", "OUT=made", *words]
    return subprocess.run(words, cwd=work, stdin=subprocess.DEVNULL, capture_output=True)


def made(program, work):
    """All that the example's Makefile makes: the texts of the book, and those of each document, which knows no other."""
    ran = make(program, work, "all", "check")
    names = "book", "contents", "hive", "year", "honey"
    texts = {name: (work / f"examples/book/made/{name}.dump").read_bytes() for name in names}
    expected = (work / "examples/book/contents.dump").read_text() + ALONE
    case = Case("a book by make", ["make"], output=expected)
    return case, ran.returncode, b"".join(texts.values()), ran.stdout + ran.stderr


def made_but_one(program, work):
    """With a document that is open, all but its own texts and those of the book are made."""
    (work / "examples/book/year.xhtml").write_text("<p>")
    ran = make(program, work, "-k", "all")
    left = "".join(f"{it}\n" for it in sorted(os.listdir(work / "examples/book/made")))
    status = re.search(rb"made/book\.dump\] Error (\d+)", ran.stderr)
    lines = {it for it in ran.stderr.splitlines(True) if it.startswith(b"marker: ")}
    case = Case("a book by make, with a fault", ["make"], 10, LEFT, "marker: year.xhtml:1:4: not well-formed\n")
    return case, int(status[1]) if status else ran.returncode, left.encode(), b"".join(lines)


ON_SYSTEM = (
    unreadable,
    made,
    made_but_one,
    lambda program, work: unwritable(program, work, ">/dev/full", "a device that is full"),
    lambda program, work: unwritable(program, work, ">&-", "an output that is closed"),
)
