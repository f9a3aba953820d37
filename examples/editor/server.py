#!/usr/bin/env python3
"""An editor in the browser: a document, its sheet, and the generated texts beside them, right after each keystroke.

    examples/editor/server.py [PORT]      serves the page on 127.0.0.1, at 8000 if no port is named

The page keeps a tree of the document and sends edit lines; the library does them here and says which texts are others now.
These are requests, each with JSON and answered by it:

    POST /open   {xhtml, css}      {number, changes}, all lines, or {fault}; then the document before stays
    POST /apply  {number, lines}   {changes}, for each line those of it, or {fault}: the page then opens its document anew
    POST /sheet  {number, css}     {changes}

A change is [path, kind, text], and its text is null where the box is gone.
"""

import json
import sys
from concurrent.futures import ThreadPoolExecutor
from http.server import BaseHTTPRequestHandler, ThreadingHTTPServer
from pathlib import Path

HERE = Path(__file__).resolve().parent
sys.path.insert(0, str(HERE.parents[1] / "python"))

import marker

FILES = {"/": ("page.html", "text/html"), "/page.js": ("page.js", "text/javascript"), "/page.css": ("page.css", "text/css")}
MOST = 1 << 24


class Editor:
    """The document of the page that was opened last."""

    def __init__(self):
        self.number = 0
        self.document = None

    def open(self, xhtml, css):
        document = marker.Document(xhtml, css)
        if self.document:
            self.document.close()
        self.document, self.number = document, self.number + 1
        return {"number": self.number, "changes": document.changed()}

    def apply(self, number, lines):
        self.check(number)
        return {"changes": [self.document.apply(line) for line in lines]}

    def sheet(self, number, css):
        self.check(number)
        return {"changes": self.document.sheet(css)}

    def check(self, number):
        if number != self.number:
            raise marker.MarkerError("another page has opened its document")


class Answers(BaseHTTPRequestHandler):
    protocol_version = "HTTP/1.1"

    def do_GET(self):
        name, kind = FILES.get(self.path.partition("?")[0], (None, None))
        if not self.is_ours():
            self.answer(403, "text/plain", b"")
        elif name is None:
            self.answer(404, "text/plain", b"")
        else:
            self.answer(200, f"{kind}; charset=utf-8", (HERE / name).read_bytes())

    def do_POST(self):
        length = int(self.headers.get("Content-Length", 0))
        if not self.is_ours() or length > MOST or self.path not in ("/open", "/apply", "/sheet"):
            self.close_connection = True
            return self.answer(413 if length > MOST else 403, "text/plain", b"")
        call = getattr(self.server.editor, self.path[1:])
        # A document belongs to one thread, and requests come on several.
        try:
            said = self.server.engine.submit(call, **json.loads(self.rfile.read(length))).result()
        except (marker.MarkerError, MemoryError) as fault:
            said = {"fault": str(fault)}
        except (TypeError, ValueError):
            return self.answer(400, "text/plain", b"")
        self.answer(200, "application/json", json.dumps(said).encode())

    def is_ours(self):
        """Whether the request is meant for this server, and comes from its own page."""
        host = f"127.0.0.1:{self.server.server_port}"
        return self.headers.get("Host") == host and self.headers.get("Origin", f"http://{host}") == f"http://{host}"

    def answer(self, status, kind, body):
        self.send_response(status)
        self.send_header("Content-Type", kind)
        self.send_header("Content-Length", str(len(body)))
        self.end_headers()
        self.wfile.write(body)

    def log_message(self, *_):
        pass


class Server(ThreadingHTTPServer):
    daemon_threads = True

    def __init__(self, port):
        super().__init__(("127.0.0.1", port), Answers)
        self.editor = Editor()
        self.engine = ThreadPoolExecutor(1)

    @property
    def address(self):
        return f"http://127.0.0.1:{self.server_port}/"


if __name__ == "__main__":
    server = Server(int(sys.argv[1]) if sys.argv[1:] else 8000)
    print(server.address, flush=True)
    try:
        server.serve_forever()
    except KeyboardInterrupt:
        pass
