"""The table of functions that the package has, beside the header. Nothing else tells that one of them is not what it says."""

import ctypes
import re
import unittest
from pathlib import Path

from marker import _library

HEADER = re.sub(r"/\*.*?\*/", "", (Path(__file__).resolve().parents[2] / "include/marker.h").read_text(), flags=re.DOTALL)
# How a type of the header is written, and what ctypes takes or gives for it.
TYPES = {
    "void": None,
    "size_t": ctypes.c_size_t,
    "marker_answer": _library.Answer,
    "marker_line": _library.ListedLine,
    "marker_census": _library.Counts,
    "marker_document *": ctypes.POINTER(_library.Handle),
    "const uint8_t *": ctypes.c_char_p,
    "uint8_t *": ctypes.c_void_p,
    "size_t *": ctypes.c_void_p,
}
FIELDS = {"uint32_t": ctypes.c_uint32, "size_t": ctypes.c_size_t, "void *": ctypes.c_void_p}
STRUCTS = {
    "marker_document": _library.Handle,
    "marker_answer": _library.Answer,
    "marker_line": _library.ListedLine,
    "marker_census": _library.Counts,
}


def declared(text):
    """The type and the name of a parameter or a field."""
    kind, star, name = re.fullmatch(r"\s*(.*?)\s*(\*?)\s*(\w+)\s*", text).groups()
    return (f"{kind} {star}" if star else kind), name


class Header(unittest.TestCase):
    def test_functions(self):
        found = re.findall(r"^(\w+) (marker_\w+)\(([^)]*)\);$", HEADER, re.MULTILINE)
        self.assertEqual(len(found), 13)
        wanted = {name: (TYPES[result], *(TYPES[declared(it)[0]] for it in words.split(","))) for result, name, words in found}
        self.assertEqual(wanted, _library.PROTOTYPES)

    def test_each_function_has_its_types(self):
        for name, (result, *parameters) in _library.PROTOTYPES.items():
            function = getattr(_library.library, name)
            self.assertEqual((function.restype, function.argtypes), (result, parameters), name)

    def test_structs(self):
        found = re.findall(r"typedef struct (\w+) \{([^}]*)\}", HEADER)
        self.assertEqual({name for name, _ in found}, set(STRUCTS))
        for name, body in found:
            fields = []
            for line in filter(str.strip, body.split(";")):
                first, *others = line.split(",")
                kind, field = declared(first)
                fields += [(it.strip(), FIELDS[kind]) for it in (field, *others)]
            self.assertEqual(fields, STRUCTS[name]._fields_)

    def test_numbers(self):
        codes = {name: int(number) for name, number in re.findall(r"MARKER_(\w+) = (\d+)", HEADER)}
        renamed = {"NONE": "NO_KIND"}
        self.assertEqual(len(codes), 15)
        for name, number in codes.items():
            self.assertEqual(getattr(_library, renamed.get(name, name)), number, name)


if __name__ == "__main__":
    unittest.main()
