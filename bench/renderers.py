#!/usr/bin/env python3
"""What Firefox, Chromium and WeasyPrint write for the examples of docs/STANDARDS.md, beside what that page has for
`marker`. Each example is made an HTML page and printed to PDF, whose text `pdftotext` gives; so it shows no sign that a
renderer draws as a shape, as Chromium does bullets. What is not installed is left out. No figure of it is a test.
    bench/renderers.py [EXAMPLE..]      the examples of these numbers, from 1; all of them where none is named
"""

import base64
import json
import re
import shutil
import socket
import subprocess
import sys
import tempfile
import time
from pathlib import Path

HERE = Path(__file__).resolve().parent.parent
sys.path.insert(0, str(HERE / "tests"))
sys.dont_write_bytecode = True

import pages


def main(numbers):
    text = (HERE / "docs/STANDARDS.md").read_text()
    examples = dict(enumerate(pages.examples_of("STANDARDS.md", text), 1))
    chosen = {it: examples[it] for it in map(int, numbers)} if numbers else examples
    with tempfile.TemporaryDirectory(ignore_cleanup_errors=True) as work:
        work = Path(work)
        for number, case in chosen.items():
            (work / f"{number}.html").write_text(page_of(case))
        for name, prints in (("firefox-esr", firefox), ("chromium", chromium), ("weasyprint", weasyprint)):
            if shutil.which(name):
                prints(work, list(chosen))
        for number, case in chosen.items():
            print(f"{number}. {case.name}", *(f"    {it}" for it in case.output.splitlines()), sep="\n")
            for pdf in sorted(work.glob(f"{number}.*.pdf")):
                print(f"  {pdf.name.split('.')[1]}: {text_of(pdf)}", flush=True)


def page_of(case):
    """The example as a page of HTML, in which no tag ends its element by itself."""
    document, sheet = (text for name, text in case.files.items() if name.endswith((".xhtml", ".css")))
    body = re.sub(r"<(\w+)([^<>]*)/>", r"<\1\2></\1>", document)
    return f'<!DOCTYPE html><meta charset="utf-8"><style>@page {{ size: 40cm 20cm }} {sheet}</style>{body}'


def text_of(pdf):
    ran = subprocess.run(["pdftotext", "-layout", pdf, "-"], capture_output=True, text=True)
    return [it.strip() for it in ran.stdout.replace("\f", "").splitlines() if it.strip()]


def weasyprint(work, numbers):
    for number in numbers:
        command = ["weasyprint", "--presentational-hints", work / f"{number}.html", work / f"{number}.weasyprint.pdf"]
        subprocess.run(command, capture_output=True)


def chromium(work, numbers):
    for number in numbers:
        how = ["--headless", "--no-sandbox", "--no-pdf-header-footer", f"--user-data-dir={work}/chromium"]
        printed = f"--print-to-pdf={work}/{number}.chromium.pdf"
        subprocess.run(["chromium", *how, printed, f"file://{work}/{number}.html"], capture_output=True)


def firefox(work, numbers):
    """Firefox prints without a window when it is asked to by its remote protocol."""
    (work / "firefox").mkdir()
    command = ["firefox-esr", "--headless", "--marionette", "--no-remote", "--profile", work / "firefox"]
    program = subprocess.Popen(command, stdout=subprocess.DEVNULL, stderr=subprocess.DEVNULL)
    try:
        ask = Remote()
        ask("WebDriver:NewSession", capabilities={})
        for number in numbers:
            ask("WebDriver:Navigate", url=f"file://{work}/{number}.html")
            printed = ask("WebDriver:Print")
            (work / f"{number}.firefox.pdf").write_bytes(base64.b64decode(printed["value"]))
    finally:
        program.terminate()
        program.wait()


class Remote:
    """A connection over which Firefox is asked: each message is its length, a colon and JSON."""

    def __init__(self):
        for _ in range(60):
            try:
                self.stream = socket.create_connection(("127.0.0.1", 2828)).makefile("rwb")
                break
            except OSError:
                time.sleep(1)
        self.read()

    def read(self):
        length = b""
        while not length.endswith(b":"):
            length += self.stream.read(1)
        return json.loads(self.stream.read(int(length[:-1])))

    def __call__(self, name, **values):
        message = json.dumps([0, 1, name, values]).encode()
        self.stream.write(f"{len(message)}:".encode() + message)
        self.stream.flush()
        _, _, error, answer = self.read()
        assert error is None, error
        return answer


if __name__ == "__main__":
    main(sys.argv[1:])
