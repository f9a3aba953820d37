"""What can be wrong with a call. After each of these but Unlisted the document is as it was before the call."""


class MarkerError(Exception):
    """Any of these."""


class BadDocument(MarkerError):
    """The text is not a document.

    `line` and `column` say where it stops being one, both from 1; the column counts characters.
    """

    def __init__(self, line: int, column: int) -> None:
        super().__init__(line, column)
        self.line = line
        self.column = column

    def __str__(self) -> str:
        return f"line {self.line}, column {self.column}: not well-formed"


class NotText(MarkerError):
    """Bytes that were handed in are not UTF-8.

    `which` is "document", "sheet" or "line", and `offset` says how many bytes of it come before the fault.
    """

    def __init__(self, which: str, offset: int) -> None:
        super().__init__(which, offset)
        self.which = which
        self.offset = offset

    def __str__(self) -> str:
        return f"the {self.which} is not UTF-8 at {self.offset}"


class _OfLine(MarkerError):
    """Something is wrong with an edit; `line` is the line that was handed in."""

    why = ""

    def __init__(self, line: str) -> None:
        super().__init__(line)
        self.line = line

    def __str__(self) -> str:
        return f"{self.line!r}: {self.why}"


class BadLine(_OfLine):
    """The line is not the line of one edit."""

    why = "not the line of an edit"


class NotAnEdit(_OfLine):
    """The line is the command `show`, which changes nothing; see Document.dump."""

    why = "a command, but no edit"


class Refused(_OfLine):
    """The edit cannot be done on this document: NoPlace or IntoItself."""


class NoPlace(Refused):
    """A path leads to no node, or to none that may be edited so, or a position is past the children."""

    why = "a path or a position has no place in the document"


class IntoItself(Refused):
    """A node would move into itself."""

    why = "a node would move into itself"


class Unlisted(MarkerError):
    """The edit is done, but memory was wanting for the list of what it changed. Document.lines has all lines."""

    def __str__(self) -> str:
        return "the edit is done, but memory was wanting for the list of what it changed"


class Closed(MarkerError):
    """The document is closed."""

    def __str__(self) -> str:
        return "the document is closed"
