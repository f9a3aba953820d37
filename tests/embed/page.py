#!/usr/bin/env python3
"""Types into the page of examples/editor in headless Chromium, and reads what it shows.

    tests/embed/page.py                   the test; it says nothing where all is right
    tests/embed/page.py --picture FILE    makes the picture of docs/embedding.md
"""

import base64
import sys
import threading
import urllib.error
import urllib.request
from pathlib import Path

HERE = Path(__file__).resolve().parent
sys.dont_write_bytecode = True
sys.path[:0] = [str(HERE), str(HERE.parents[1] / "examples/editor")]

import browser
import server

LIST = "<ol><li>a</li><li>b</li></ol>"


class Page:
    """The page, with hands and eyes."""

    def __init__(self, chromium, address):
        self.chromium = chromium
        chromium.go(address)
        self.rest()

    def rest(self):
        """Waits until the last keystroke is followed."""
        self.chromium.wait("document.body.dataset.followed && document.getElementById('done').textContent")

    def write(self, field, text):
        """Puts a text in the place of what a field has, as a paste would."""
        self.chromium.value(f"document.getElementById({field!r}).select()")
        self.after(lambda: self.chromium("Input.insertText", text=text))

    def type(self, field, before, text):
        """Types a text in front of another that the field has."""
        self.place(field, before)
        for it in text:
            self.after(lambda: self.chromium.type(it))

    def erase(self, field, before, count):
        self.place(field, before)
        for _ in range(count):
            self.after(lambda: self.chromium.erase(1))

    def place(self, field, before):
        self.chromium.value(f"""(() => {{
            const field = document.getElementById({field!r}), at = field.value.indexOf({before!r});
            field.focus();
            field.setSelectionRange(at, at);
        }})()""")

    def after(self, press):
        """Presses a key, and waits until that is followed."""
        count = self.chromium.value("document.body.dataset.followed")
        press()
        self.chromium.wait(f"document.body.dataset.followed !== {count!r}")

    def shown(self):
        """The generated texts, in the order of the page."""
        boxes = "[...document.querySelectorAll('#shown .box')]"
        return self.chromium.value(f"{boxes}.filter(it => !it.hidden).map(it => it.textContent)")

    def text(self, name):
        return self.chromium.value(f"document.getElementById({name!r}).textContent")

    def check(self, shown, done=None, fault=""):
        told = self.shown(), self.text("fault")
        assert told == (shown, fault), f"{told}, wanted {(shown, fault)}"
        if done is not None:
            assert self.text("done") == done, f"{self.text('done')!r}, wanted {done!r}"


def check_document(page):
    page.write("sheet", "")
    page.write("document", LIST)
    page.check(["1. ", "2. "])
    page.type("document", "b</li>", "x")
    page.check(["1. ", "2. "], "remove /1/0; insert /1 0 xb: 0 texts")
    # Until an element is whole nothing is a document, and what was shown stays.
    page.type("document", "<li>xb", "<li>c</li")
    page.check(["1. ", "2. "], fault="line 1, column 20: not well-formed")
    page.type("document", "<li>xb", ">")
    page.check(["1. ", "2. ", "3. "], "insert / 1 <li>c</li>: 2 texts")
    page.type("document", ">a</li>", ' value="5"')
    page.check(["5. ", "6. ", "7. "], "set /0 value 5: 3 texts")
    page.erase("document", ">c</li>", 3)
    page.check(["5. ", "6. ", "7. "], fault="line 1, column 27: not well-formed")
    page.type("document", ">c</li>", "<li")
    page.type("document", ">c</li>", ' style="display:none"')
    page.check(["5. ", "6. "], "set /1 style display:none: 2 texts")


def check_sheet(page):
    page.write("document", LIST)
    page.write("sheet", "li{list-style:decimal}")
    page.check(["1. ", "2. "])
    page.erase("sheet", "decimal", 0)
    page.type("sheet", "}", ";}li::after{content:'!'")
    page.check(["1. ", "!", "2. ", "!"])
    page.type("sheet", "!", "ü")
    page.check(["1. ", "ü!", "2. ", "ü!"], "sheet: 2 texts")


def check_reading(page):
    """What an XML reader could make of a document otherwise than the library."""
    page.write("sheet", "p::before{content:attr(title)}b::after{content:'+'}")
    before = "<?xml version='1.0'?><!DOCTYPE p SYSTEM 'x'><!-- c -->"
    page.write("document", before + "<p title='&ndash;&#10;&amp;'>a<!-- c -->b<![CDATA[<c>]]><?i?><b/>&nbsp;</p>")
    page.check(["–\n&", "+"])
    page.type("document", "<b/>", "<b/>")
    page.check(["–\n&", "+", "+"], "insert / 2 <b></b>: 1 texts")
    page.type("document", "&nbsp;", "d&lt;")
    page.check(["–\n&", "+", "+"], "remove /3; insert / 3 d&#60;\u00a0: 0 texts")
    page.type("document", "&amp;", "é")
    page.check(["–\né&", "+", "+"])


def check_strangers(_page):
    """What comes from another page, or is no request of this one, is not answered."""
    rows = (
        ("open", '{"xhtml": "<p/>", "css": ""}', {"Origin": "http://127.0.0.1:1"}, 403),
        ("open", '{"xhtml": "<p/>", "css": ""}', {"Host": "marker.example"}, 403),
        ("", None, {"Host": "marker.example"}, 403),
        ("server.py", None, {}, 404),
        ("close", "{}", {}, 403),
        ("open", "{}", {}, 400),
        ("open", "xhtml", {}, 400),
    )
    for path, body, headers, status in rows:
        request = urllib.request.Request(editor.address + path, body and body.encode(), headers)
        try:
            answered = urllib.request.urlopen(request).status
        except urllib.error.HTTPError as error:
            answered = error.code
        assert answered == status, f"{path} {body} {headers}: {answered}, wanted {status}"


def test():
    with browser.Browser() as chromium:
        page = Page(chromium, editor.address)
        for check in (check_document, check_sheet, check_reading, check_strangers):
            check(page)


def make_picture(name):
    with browser.Browser(1000, 480) as chromium:
        page = Page(chromium, editor.address)
        chromium("Emulation.setDeviceMetricsOverride", width=1000, height=480, deviceScaleFactor=1, mobile=False)
        page.type("document", "<li>Open", "<li>Wait</li>")
        chromium.value("new Promise(it => setTimeout(it, 200))")
        shot = chromium("Page.captureScreenshot", format="png")
    Path(name).write_bytes(base64.b64decode(shot["data"]))


if __name__ == "__main__":
    if not browser.is_there():
        sys.exit(f"tests/embed/page.py: {browser.MISSING}")
    editor = server.Server(0)
    threading.Thread(target=editor.serve_forever, daemon=True).start()
    if sys.argv[1:2] == ["--picture"]:
        make_picture(sys.argv[2])
    else:
        test()
