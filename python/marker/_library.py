"""The shared library: its structs, and each of its functions with the types that it takes and gives."""

from __future__ import annotations

import os
from ctypes import CDLL, POINTER, Structure, c_char_p, c_size_t, c_uint32, c_void_p
from pathlib import Path

NAME = "libmarker.so.0"


class Handle(Structure):
    _fields_ = [("only_the_library", c_void_p)]


class Answer(Structure):
    _fields_ = [("code", c_uint32), ("line", c_size_t), ("column", c_size_t)]

    code: int
    line: int
    column: int


class ListedLine(Structure):
    _fields_ = [("kind", c_uint32), ("is_gone", c_uint32), ("depth", c_size_t), ("length", c_size_t)]

    kind: int
    is_gone: int
    depth: int
    length: int


class Counts(Structure):
    _fields_ = [("elements", c_size_t), ("boxes", c_size_t), ("lines", c_size_t)]

    elements: int
    boxes: int
    lines: int


OK, MEMORY, NOT_OPEN, IN_USE, NOT_UTF8, BAD_DOCUMENT, BAD_LINE, NOT_AN_EDIT, NO_PLACE, INTO_ITSELF, UNLISTED = range(11)
NO_KIND, MARKER, BEFORE, AFTER = range(4)

# What each function of marker.h gives and takes. ctypes would pass a struct by its value where it is not told that a
# pointer is wanted, and cut sizes to 32 bits.
_HANDLE, _TEXT, _ROOM = POINTER(Handle), c_char_p, c_void_p
PROTOTYPES = {
    "marker_open": (Answer, _HANDLE, _TEXT, c_size_t, _TEXT, c_size_t),
    "marker_close": (None, _HANDLE),
    "marker_apply": (Answer, _HANDLE, _TEXT, c_size_t),
    "marker_replace_sheet": (Answer, _HANDLE, _TEXT, c_size_t),
    "marker_list_all": (Answer, _HANDLE),
    "marker_line_count": (c_size_t, _HANDLE),
    "marker_line_at": (ListedLine, _HANDLE, c_size_t),
    "marker_line_path": (c_size_t, _HANDLE, c_size_t, _ROOM, c_size_t),
    "marker_line_text": (c_size_t, _HANDLE, c_size_t, c_size_t, _ROOM, c_size_t),
    "marker_dump": (Answer, _HANDLE),
    "marker_dump_length": (c_size_t, _HANDLE),
    "marker_dump_read": (c_size_t, _HANDLE, c_size_t, _ROOM, c_size_t),
    "marker_count": (Counts, _HANDLE),
}


def load() -> CDLL:
    """The library: the file that MARKER_LIBRARY names, or else the one beside this package, the one that `embed/build`
    made in this repository, or the one that the system finds. ImportError where there is none."""
    named = os.environ.get("MARKER_LIBRARY")
    here = Path(__file__).resolve().parent
    places = [here / NAME, here.parent.parent / "embed/out" / NAME]
    file = named or next((str(it) for it in places if it.exists()), NAME)
    try:
        library = CDLL(file)
    except OSError as error:
        why = f"the library of marker cannot be loaded ({error}): embed/build makes it, and MARKER_LIBRARY names it"
        raise ImportError(why) from error
    for name, (result, *parameters) in PROTOTYPES.items():
        function = getattr(library, name)
        function.restype, function.argtypes = result, parameters
    return library


library = load()
