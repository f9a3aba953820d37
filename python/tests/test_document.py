"""Documents, their edits and what these change.

runs.json has made-up documents and edits with what is wanted of them: a second program says it, which was written from the
definitions alone and evaluates each document anew. Nothing there is an output of this library.
"""

import copy
import gc
import json
import math
import pickle
import threading
import unittest
import warnings
from pathlib import Path
from unittest import mock

import marker
from marker import Change, Line, _library, moved_path

LIST = "<ol><li>a</li><li>b</li></ol>"
RUNS = json.loads((Path(__file__).parent / "runs.json").read_text(encoding="utf-8"))

# A document, its sheet, and its lines in the order of a dump.
SHOWN = (
    (LIST, "", '/0 marker "1. "\n/1 marker "2. "\n'),
    ("<p/>", "", ""),
    (
        "<ol><li>a<ol><li>b</li><li>c</li></ol></li><li>d</li></ol>",
        'ol{list-style:none}li::before{content:counters(list-item,".")}',
        '/0 before "1"\n/0/1/0 before "1.1"\n/0/1/1 before "1.2"\n/1 before "2"\n',
    ),
    ('<ol><li/><li class="x"/><li/></ol>', ".x{display:none}", '/0 marker "1. "\n/2 marker "2. "\n'),
    ('<ol reversed="reversed"><li/><li/><li value="10"/></ol>', "", '/0 marker "12. "\n/1 marker "11. "\n/2 marker "10. "\n'),
    (
        "<p><q><q><q/></q></q><b/></p>",
        'b::before{content:close-quote "!"}',
        '/0 before "“"\n/0/0 before "‘"\n/0/0/0 before "‘"\n/0/0/0 after "’"\n/0/0 after "’"\n/0 after "”"\n/1 before "!"\n',
    ),
    (
        '<p title="a&quot;&#10;&#9;\\"/>',
        "p::before{content:attr(title)}",
        '/ before "a\\"\\n\\u{9}\\\\"\n',
    ),
)

# A text that is no document, and where it fails.
MALFORMED = (("<ol><li>", 1, 9), ("<a></b>", 1, 4), ('<p a="" a="">', 1, 1), ("<p>&#xD800;", 1, 4), ("<a>\n</b>", 2, 1), ("", 1, 1))

# A line for a list with an item, in which a b and an i stand, and what becomes of it.
REFUSED = (
    ("move /0 /0/1 0", marker.IntoItself),
    ("remove /9", marker.NoPlace),
    ("remove /", marker.NoPlace),
    ("insert / 2 <li/>", marker.NoPlace),
    ("insert /0", marker.BadLine),
    ("insert / 0 <li>", marker.BadLine),
    ("remove 0", marker.BadLine),
    ("remove /00", marker.BadLine),
    ("remove /0 ", marker.BadLine),
    ("undo", marker.BadLine),
    ("sheet house.css", marker.BadLine),
    ("# note", marker.BadLine),
    ("", marker.BadLine),
    ("remove /0\nremove /0", marker.BadLine),
    ("remove /0\n", marker.BadLine),
    ("show", marker.NotAnEdit),
    (b"set / title \xc3", marker.NotText),
)


def in_order_of_dump(lines):
    """The lines, with each after box behind the children of its element."""
    return sorted(lines, key=lambda line: (*line.path, math.inf if line.kind == "after" else -1))


def written(text):
    """A text as a dump has it."""
    kept = {'"': '\\"', "\\": "\\\\", "\n": "\\n"}
    return '"' + "".join(kept.get(it) or (f"\\u{{{ord(it):x}}}" if it < " " or it == "\x7f" else it) for it in text) + '"'


def dump_of(lines):
    return "".join(f"/{'/'.join(map(str, path))} {kind} {written(text)}\n" for path, kind, text in in_order_of_dump(lines))


def markers(*texts):
    """The changes of the first items of a list, whose markers have these texts then."""
    return [Change((place,), "marker", text) for place, text in enumerate(texts)]


def as_changes(rows):
    return [Change(tuple(path), kind, text) for path, kind, text in rows]


class Reading(unittest.TestCase):
    def test_lines_of_documents(self):
        for xhtml, css, dump in SHOWN:
            with self.subTest(xhtml=xhtml), marker.Document(xhtml, css) as document:
                self.assertEqual(document.dump(), dump)
                self.assertEqual(dump_of(document.lines()), dump)
                self.assertEqual(document.count().lines, dump.count("\n"))

    def test_lines_of_an_element_stand_together(self):
        with marker.Document("<p><q><q/></q></p>") as document:
            kinds = [(line.path, line.kind) for line in document.lines()]
        self.assertEqual(kinds, [((0,), "before"), ((0,), "after"), ((0, 0), "before"), ((0, 0), "after")])

    def test_bytes_are_taken_for_text(self):
        with marker.Document(LIST.encode(), 'li::before{content:"ü"}'.encode()) as document:
            self.assertEqual([line.text for line in document.lines()], ["1. ", "ü", "2. ", "ü"])
            self.assertEqual(document.apply(b"remove /0"), [Change((0,), "marker", "1. ")])

    def test_all_lines_are_changed_before_the_first_edit(self):
        with marker.Document(LIST) as document:
            self.assertEqual(document.changed(), markers("1. ", "2. "))

    def test_census(self):
        with marker.Document("<body>" + "<p/>" * 3 + LIST + "</body>") as document:
            self.assertEqual(document.count(), marker.Census(elements=7, boxes=9, lines=2))

    def test_a_text_that_is_no_document(self):
        for xhtml, line, column in MALFORMED:
            with self.subTest(xhtml=xhtml), self.assertRaises(marker.BadDocument) as raised:
                marker.Document(xhtml)
            self.assertEqual((raised.exception.line, raised.exception.column), (line, column))
            self.assertEqual(str(raised.exception), f"line {line}, column {column}: not well-formed")

    def test_bytes_that_are_no_text(self):
        rows = ((b"<p>\xff</p>", b"", "document", 3), (b"<p", b"\xff", "sheet", 0), (b"\xc3", b"\xff", "document", 0))
        for xhtml, css, which, offset in rows:
            with self.subTest(xhtml=xhtml), self.assertRaises(marker.NotText) as raised:
                marker.Document(xhtml, css)
            self.assertEqual((raised.exception.which, raised.exception.offset), (which, offset))
        with self.assertRaises(UnicodeEncodeError):
            marker.Document("<p>\ud800</p>")


class Editing(unittest.TestCase):
    def test_changes_of_an_edit(self):
        with marker.Document(LIST) as document:
            self.assertEqual(document.apply("insert / 0 <li>new</li>"), markers("1. ", "2. ", "3. "))
            self.assertEqual(document.apply("remove /2"), [])
            self.assertEqual(document.apply("set /0 value 5"), markers("5. ", "6. "))
            self.assertEqual(document.apply("set /0 style display:none"), markers(None, "1. "))
            self.assertEqual(document.lines(), [Line((1,), "marker", "1. ")])
            self.assertEqual(document.changed(), markers(None, "1. "))

    def test_references_follow_their_targets(self):
        body = '<body><p><a href="#t"/></p><h1/><h1 id="t"/></body>'
        with marker.Document(body, "h1{counter-increment:s}a::after{content:target-counter(attr(href),s)}") as document:
            self.assertEqual(document.dump(), '/0/0 after "2"\n')
            self.assertEqual(document.apply("insert / 1 <h1/>"), [Change((0, 0), "after", "3")])

    def test_moves(self):
        items = '<ol><li id="a"/><li id="b"/><li id="c"/></ol>'
        with marker.Document(items, "li{list-style:none}li::before{content:counter(list-item)attr(id)}") as document:
            with self.assertRaises(marker.NoPlace):
                document.apply("move /0 / 3")
            document.apply("move /0 / 2")
            self.assertEqual(document.apply("unset /1 title"), [])
            self.assertEqual(document.dump(), '/0 before "1b"\n/1 before "2c"\n/2 before "3a"\n')

    def test_a_new_sheet(self):
        with marker.Document(LIST) as document:
            changes = document.sheet('li{list-style:none}li::before{content:counter(list-item)")"}')
            first, second = markers(None, None)
            self.assertEqual(changes, [first, Change((0,), "before", "1)"), second, Change((1,), "before", "2)")])
            with self.assertRaises(marker.NotText) as raised:
                document.sheet(b"li{}\xff")
            self.assertEqual((raised.exception.which, raised.exception.offset), ("sheet", 4))
            self.assertEqual(document.changed(), changes)

    def test_what_is_refused_changes_nothing(self):
        for line, fault in REFUSED:
            with self.subTest(line=line), marker.Document("<ol><li><b/><i/></li></ol>") as document:
                document.apply("set /0 value 3")
                with self.assertRaises(fault):
                    document.apply(line)
                self.assertEqual(document.dump(), '/0 marker "3. "\n')
                self.assertEqual(document.changed(), markers("3. "))

    def test_what_an_edit_wants_to_be(self):
        with marker.Document(LIST) as document:
            with self.assertRaises(marker.Refused) as raised:
                document.apply("remove /9")
            self.assertEqual(raised.exception.line, "remove /9")
            self.assertEqual(str(raised.exception), "'remove /9': a path or a position has no place in the document")


class WantOfMemory(unittest.TestCase):
    """What the library answers then is put in its place here; tests/embed/wanting.c makes it want memory."""

    def answering(self, name, code):
        return mock.patch.object(marker.document.library, name, lambda *_: _library.Answer(code, 0, 0))

    def test_a_call_that_wants_memory(self):
        with self.answering("marker_open", _library.MEMORY), self.assertRaises(MemoryError):
            marker.Document(LIST)
        with marker.Document(LIST) as document:
            for name, call in (("apply", lambda: document.apply("remove /0")), ("list_all", document.lines), ("dump", document.dump)):
                with self.answering(f"marker_{name}", _library.MEMORY), self.assertRaises(MemoryError):
                    call()
            self.assertEqual(document.changed(), markers("1. ", "2. "))

    def test_an_edit_whose_changes_are_not_listed(self):
        with marker.Document(LIST) as document:
            for name, call in (("apply", lambda: document.apply("remove /0")), ("replace_sheet", lambda: document.sheet(""))):
                with self.answering(f"marker_{name}", _library.UNLISTED), self.assertRaises(marker.Unlisted):
                    call()
                with self.assertRaises(marker.Unlisted):
                    document.changed()
                self.assertEqual(len(document.lines()), 2)
            self.assertEqual(document.apply("set /0 value 2"), markers("2. ", "3. "))
            self.assertEqual(document.changed(), markers("2. ", "3. "))


class MadeUpRuns(unittest.TestCase):
    def test_runs(self):
        for number, run in enumerate(RUNS):
            with self.subTest(run=number), marker.Document(run["document"], run["sheet"]) as document:
                self.assertEqual(document.changed(), as_changes(run["lines"]))
                for edit in run["edits"]:
                    self.follow(document, edit)
                self.assertEqual(document.dump(), run["dump"])
                self.assertEqual(document.count(), tuple(run["census"]))

    def follow(self, document, edit):
        before = document.lines()
        if "fault" in edit:
            with self.assertRaises(getattr(marker, edit["fault"])):
                document.apply(edit["line"])
            self.assertEqual(document.lines(), before)
            return
        line = edit.get("line", "")
        changes = document.apply(line) if line else document.sheet(edit["sheet"])
        self.assertEqual(changes, as_changes(edit["changes"]))
        self.assertEqual(dump_of(document.lines()), document.dump())
        self.assertEqual(document.changed(), changes)
        self.replay(line, before, changes, document.lines())

    def replay(self, line, before, changes, after):
        """The lines before, at their moved paths and with the changes put in, are the lines after."""
        moved = ((moved_path(line, path), kind, text) for path, kind, text in before)
        table = {(path, kind): text for path, kind, text in moved if path is not None}
        for path, kind, text in changes:
            self.assertNotEqual(table.get((path, kind)), text, "a line that is told has changed")
            if text is None:
                del table[path, kind]
            else:
                table[path, kind] = text
        self.assertEqual(table, {(path, kind): text for path, kind, text in after})


class Living(unittest.TestCase):
    def test_a_closed_document(self):
        document = marker.Document(LIST)
        with document:
            pass
        document.close()
        calls = (document.lines, document.changed, document.dump, document.count, document.__enter__)
        for call in (*calls, lambda: document.apply("remove /0"), lambda: document.sheet("")):
            with self.assertRaises(marker.Closed):
                call()

    def test_an_error_in_the_block_closes_it(self):
        with self.assertRaises(ZeroDivisionError), marker.Document(LIST) as document:
            raise ZeroDivisionError
        with self.assertRaises(marker.Closed):
            document.dump()

    def test_it_is_no_other_threads(self):
        said = []

        def call(document):
            try:
                document.dump()
            except RuntimeError as error:
                said.append(str(error))

        with marker.Document(LIST) as document:
            in_thread(call, document)
            self.assertEqual(document.dump(), '/0 marker "1. "\n/1 marker "2. "\n')
        self.assertEqual(said, ["a document is used by the thread that made it"])

    def test_each_thread_has_its_own(self):
        dumps = []

        def number(count):
            with marker.Document(LIST) as document:
                for _ in range(count):
                    document.apply("insert / 0 <li/>")
                dumps.append(document.dump())

        threads = [threading.Thread(target=number, args=(8,)) for _ in range(4)]
        for it in threads:
            it.start()
        for it in threads:
            it.join()
        self.assertEqual(dumps, ["".join(f'/{place} marker "{place + 1}. "\n' for place in range(10))] * 4)

    def test_one_that_is_left_to_another_thread(self):
        left = [marker.Document(LIST)]
        handle = left[0]._handle
        with warnings.catch_warnings(record=True) as caught:
            warnings.simplefilter("always")
            in_thread(left.clear)
            gc.collect()
        self.assertEqual([it.category for it in caught], [ResourceWarning])
        marker.document.library.marker_close(handle)

    def test_it_is_not_copied(self):
        with marker.Document(LIST) as document:
            for copied in (copy.copy, copy.deepcopy, pickle.dumps):
                with self.assertRaises(TypeError):
                    copied(document)


def in_thread(call, *words):
    thread = threading.Thread(target=call, args=words)
    thread.start()
    thread.join()


if __name__ == "__main__":
    unittest.main()
