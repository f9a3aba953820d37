"""Documents and their lines."""

from __future__ import annotations

import threading
import warnings
from ctypes import Array, c_char, c_size_t, create_string_buffer
from types import TracebackType
from typing import Literal, NamedTuple, NoReturn

from . import _library
from ._library import library
from .faults import BadDocument, BadLine, Closed, IntoItself, MarkerError, NoPlace, NotAnEdit, NotText, Unlisted
from .paths import Path

Kind = Literal["marker", "before", "after"]


class Line(NamedTuple):
    """A box of an element that shows a generated text."""

    path: Path
    kind: Kind
    text: str


class Change(NamedTuple):
    """A box that shows another text than before an edit. Its path is one of the document after the edit; its text is None
    where the box is gone and the element stays."""

    path: Path
    kind: Kind
    text: str | None


class Census(NamedTuple):
    """How many elements a document has, how many boxes its evaluation, and how many lines its dump."""

    elements: int
    boxes: int
    lines: int


_KINDS: dict[int, Kind] = {_library.MARKER: "marker", _library.BEFORE: "before", _library.AFTER: "after"}
_OF_LINES: dict[int, type[BadLine | NotAnEdit | NoPlace | IntoItself]] = {
    _library.BAD_LINE: BadLine,
    _library.NOT_AN_EDIT: NotAnEdit,
    _library.NO_PLACE: NoPlace,
    _library.INTO_ITSELF: IntoItself,
}


class Document:
    """An open document with its style sheet.

    A text may be a str or bytes in UTF-8. It is used by the thread that made it; in another each call raises
    RuntimeError. After `fork` the child does not use it. It ends with the block of a `with`, or by `close`.
    """

    def __init__(self, xhtml: str | bytes, css: str | bytes = "") -> None:
        """Reads and evaluates a document: BadDocument with the place of its fault, NotText, MemoryError.

        A sheet has no faults; what is not understood in it is left out.
        """
        self._handle = _library.Handle()
        self._thread = threading.get_ident()
        # What the last edit changed. Before the first it is None, and the library's list is of all lines.
        self._changed: list[Change] | None = None
        self._is_unlisted = False
        document, sheet = _bytes(xhtml), _bytes(css)
        answer = library.marker_open(self._handle, document, len(document), sheet, len(sheet))
        if answer.code == _library.NOT_UTF8:
            raise NotText("sheet" if answer.line else "document", answer.column)
        if answer.code == _library.BAD_DOCUMENT:
            raise BadDocument(answer.line, answer.column)
        _raise_other(answer.code)

    def apply(self, line: str | bytes) -> list[Change]:
        """Does one edit, and answers what it changed: of the elements in tree order the boxes that show another text than
        before, of one element marker, before, after.

        The line is one of a script, as `insert /1 0 <li/>`, `remove /0/2`, `move /0 /1 3`, `set /0 value 5` or
        `unset /0 value`; its paths are those of the document before it. BadLine, NotAnEdit, NoPlace, IntoItself, NotText
        and MemoryError leave all as it was; after Unlisted the edit is done.
        """
        self._check()
        data = _bytes(line)
        if b"\n" in data:
            raise BadLine(_shown(line))
        answer = library.marker_apply(self._handle, data, len(data))
        if answer.code == _library.NOT_UTF8:
            raise NotText("line", answer.column)
        if answer.code in _OF_LINES:
            raise _OF_LINES[answer.code](_shown(line))
        return self._told(answer.code)

    def sheet(self, css: str | bytes) -> list[Change]:
        """Replaces the sheet, and answers what that changed. NotText and MemoryError leave all as it was; after Unlisted
        the sheet is the new one."""
        self._check()
        data = _bytes(css)
        answer = library.marker_replace_sheet(self._handle, data, len(data))
        if answer.code == _library.NOT_UTF8:
            raise NotText("sheet", answer.column)
        return self._told(answer.code)

    def changed(self) -> list[Change]:
        """What the last edit changed that was done, be it of the document or the sheet; before the first all lines. Unlisted
        where memory was wanting for that list."""
        self._check()
        if self._is_unlisted:
            raise Unlisted
        return self._listed() if self._changed is None else list(self._changed)

    def lines(self) -> list[Line]:
        """All lines: of the elements in tree order marker, before, after. It is linear in the document, and leaves `changed`
        what it was."""
        self._check()
        _raise_other(library.marker_list_all(self._handle).code)
        return [Line(path, kind, text) for path, kind, text in self._listed() if text is not None]

    def dump(self) -> str:
        """The dump, as the command `./marker dump` writes it: in it an after box stands behind the children of its
        element."""
        self._check()
        _raise_other(library.marker_dump(self._handle).code)
        length = library.marker_dump_length(self._handle)
        buffer = _room(length)
        library.marker_dump_read(self._handle, 0, buffer, length)
        return buffer.raw[:length].decode()

    def count(self) -> Census:
        """How large the document is."""
        self._check()
        counts = library.marker_count(self._handle)
        return Census(counts.elements, counts.boxes, counts.lines)

    def close(self) -> None:
        """Gives its memory back. From then on each call raises Closed, but for close, which does nothing."""
        if self._handle.only_the_library:
            self._check()
            library.marker_close(self._handle)

    def __enter__(self) -> Document:
        self._check()
        return self

    def __exit__(self, kind: type[BaseException] | None, error: BaseException | None, trace: TracebackType | None) -> None:
        self.close()

    def __del__(self) -> None:
        if not hasattr(self, "_thread") or not self._handle.only_the_library:
            return
        if threading.get_ident() == self._thread:
            library.marker_close(self._handle)
        else:
            warnings.warn("a document was left to another thread, and its memory is lost", ResourceWarning, stacklevel=2)

    def __reduce_ex__(self, _protocol: object) -> NoReturn:
        raise TypeError("a document cannot be copied or pickled")

    def _check(self) -> None:
        if not self._handle.only_the_library:
            raise Closed
        if threading.get_ident() != self._thread:
            raise RuntimeError("a document is used by the thread that made it")

    def _told(self, code: int) -> list[Change]:
        """What an edit changed that ended with this code."""
        if code == _library.UNLISTED:
            self._is_unlisted, self._changed = True, None
            raise Unlisted
        _raise_other(code)
        self._is_unlisted, self._changed = False, self._listed()
        return list(self._changed)

    def _listed(self) -> list[Change]:
        return [self._line_at(index) for index in range(library.marker_line_count(self._handle))]

    def _line_at(self, index: int) -> Change:
        line = library.marker_line_at(self._handle, index)
        positions = (c_size_t * line.depth)()
        library.marker_line_path(self._handle, index, positions, line.depth)
        if line.is_gone:
            return Change(tuple(positions), _KINDS[line.kind], None)
        buffer = _room(line.length)
        library.marker_line_text(self._handle, index, 0, buffer, line.length)
        return Change(tuple(positions), _KINDS[line.kind], buffer.raw[: line.length].decode())


def _bytes(text: str | bytes) -> bytes:
    """The text in UTF-8. A str with a half of a surrogate pair raises UnicodeEncodeError, before any call."""
    return text.encode() if isinstance(text, str) else bytes(memoryview(text))


def _shown(line: str | bytes) -> str:
    return line if isinstance(line, str) else line.decode(errors="replace")


def _room(length: int) -> Array[c_char]:
    """A buffer for so many bytes, and never an empty one, whose pointer could be null."""
    return create_string_buffer(length or 1)


def _raise_other(code: int) -> None:
    if code == _library.MEMORY:
        raise MemoryError("memory was wanting")
    if code == _library.NOT_OPEN:
        raise Closed
    if code != _library.OK:
        raise MarkerError(f"the library answered the code {code}")
