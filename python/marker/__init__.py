"""The generated texts of styled XHTML documents, kept right while the documents are edited.

    import marker

    with marker.Document("<ol><li>a</li><li>b</li></ol>", "") as document:
        for path, kind, text in document.lines():
            ...                                         # (0,) marker "1. ", then (1,) marker "2. "
        for path, kind, text in document.apply("insert / 0 <li>new</li>"):
            ...                                         # the lines that are others now

It stands on the shared library that `embed/build` makes. docs/embedding.md says what is proved of it, and what becomes of
paths after an edit.
"""

from .document import Census, Change, Document, Kind, Line
from .faults import BadDocument, BadLine, Closed, IntoItself, MarkerError, NoPlace, NotAnEdit, NotText, Refused, Unlisted
from .paths import Path, moved_path

__all__ = [
    "BadDocument",
    "BadLine",
    "Census",
    "Change",
    "Closed",
    "Document",
    "IntoItself",
    "Kind",
    "Line",
    "MarkerError",
    "NoPlace",
    "NotAnEdit",
    "NotText",
    "Path",
    "Refused",
    "Unlisted",
    "moved_path",
]
