"""The calls have the types that a compiler finds in dcel.h, each has its method, and each method names the errors that the header does."""

from __future__ import annotations

import ctypes
import inspect
import os
import re
import subprocess
import unittest
from collections.abc import Iterable
from pathlib import Path
from typing import Any

import dcel
from dcel import Call, ConstrainedDelaunay, Dcel, Delaunay, Ended, FaultKind, Place, RemovalState, Status, _constrained, _declared, _delaunay, _lines, _mesh, _triangulation
from dcel._calls import library
from dcel._errors import ERRORS

FOLDER = Path(__file__).resolve().parents[2] / "c"
HEADER = (FOLDER / "dcel.h").read_text()
# The functions that take no mesh and that no method calls.
VERSIONS = {"dcel_version", f"dcel_version_{dcel.__version__.replace('.', '_')}"}
# Those of triangulations that do for one what others do for all, or at once what others do, or keep nothing, or list what a class knows.
SPARED = {"dcel_triangulate", *(f"dcel_triangulation_{it}" for it in ("insert_with_hint", "locate", "locate_with_hint", "nearest", "points"))}
SPARED |= {f"dcel_constrained_{it}" for it in ("add_constraint", "bulk_load", "from_triangulation", "is_constraint", "locate")}
NAMES = {
    None: "void", ctypes.c_bool: "bool", ctypes.c_uint8: "uint8_t", ctypes.c_uint32: "uint32_t", ctypes.c_uint64: "uint64_t",
    ctypes.c_int64: "int64_t", ctypes.c_uint16: "uint16_t",
    **{kind: name for name, kind in _declared.STRUCTS.items()},
}
# The type of a function, without the const of what its pointers lead to, which Python doesn't know.
SHAPES = """
#include <cstddef>
#include <type_traits>
#include "dcel.h"
template <class T> struct bare { using type = T; };
template <class T> struct bare<const T *> { using type = T *; };
template <class T> struct shape;
template <class R, class... A> struct shape<R (*)(A...)> { using type = R(typename bare<A>::type...); };
#define HAS(function, ...) static_assert(std::is_same<shape<decltype(&function)>::type, __VA_ARGS__>::value, #function);
"""


def in_c(kind: Any) -> str:
    """What C calls a type."""
    return f"{NAMES[kind._type_]} *" if hasattr(kind, "contents") else NAMES[kind]


def compiled(lines: Iterable[str]) -> tuple[int, str]:
    """What a compiler of C++ says of lines behind the header."""
    words = [os.environ.get("CXX", "c++"), "-std=c++11", "-Wno-invalid-offsetof", "-fsyntax-only", "-I", str(FOLDER), "-x", "c++", "-"]
    ran = subprocess.run(words, input=SHAPES + "\n".join(lines), text=True, capture_output=True, check=False)
    return ran.returncode, ran.stderr


class Header(unittest.TestCase):
    def test_functions(self) -> None:
        self.assertGreater(len(_declared.FUNCTIONS), 70)
        lines = []
        for name, (result, _) in _declared.FUNCTIONS.items():
            function = getattr(library, name)
            returned = "dcel_status" if result is Status else in_c(function.restype)
            lines.append(f"HAS({name}, {returned}({', '.join(map(in_c, function.argtypes))}))")
        self.assertEqual(compiled(lines), (0, ""))

    def test_layout(self) -> None:
        lines = []
        for name, it in _declared.STRUCTS.items():
            lines.append(f'static_assert(sizeof({name}) == {ctypes.sizeof(it)}, "{name}");')
            for field, kind in it._fields_:  # type: ignore[misc]
                place = getattr(it, field)
                lines.append(f'static_assert(offsetof({name}, {field}) == {place.offset}, "{name}.{field}");')
                lines.append(f'static_assert(sizeof({name}::{field}) == {ctypes.sizeof(kind)}, "{name}.{field}");')
        self.assertEqual(compiled(lines), (0, ""))

    def test_numbers(self) -> None:
        known = {f"DCEL_{it.name}": it.value for kind in (Status, Ended, RemovalState, Place) for it in kind}
        known |= {f"DCEL_FAULT_{it.name}": it.value for it in FaultKind} | {f"DCEL_CALL_{it.name}": it.value for it in Call}
        self.assertEqual(set(known), set(re.findall(r"^ +(DCEL_\w+) = \d", HEADER, re.M)))
        known |= {"DCEL_NONE": _declared.NONE, "DCEL_NO_LINK": dcel.NO_LINK}
        self.assertEqual(compiled(f'static_assert({name} == {number}u, "{name}");' for name, number in known.items()), (0, ""))

    def test_a_fault_is_found(self) -> None:
        """What the tests above hand to the compiler is read by it."""
        wrong = ["HAS(dcel_flip_cw, dcel_status(dcel_mesh *, uint64_t))", 'static_assert(DCEL_SHORT == 21, "");']
        for line in wrong:
            with self.subTest(line=line):
                self.assertNotEqual(compiled([line])[0], 0)

    def test_none_is_left_out(self) -> None:
        declared = set(_declared.FUNCTIONS) - VERSIONS - SPARED
        named = set(re.findall(r"library\.(dcel_\w+)", "".join(map(inspect.getsource, (_mesh, _lines)))))
        for kind, module in (("triangulation", _delaunay), ("constrained", _constrained)):
            sources = inspect.getsource(_triangulation) + inspect.getsource(module)
            named |= {f"dcel_{kind}_{it}" for it in re.findall(r"\b_calls\.(\w+)", sources)}
        self.assertEqual(named, declared)
        methods = {name.removesuffix("_") for name, _ in inspect.getmembers(Dcel, inspect.isfunction) if not name.startswith("_")}
        calls = {name.removeprefix("dcel_") for name in declared if not name.startswith(("dcel_triangulation_", "dcel_constrained_"))}
        self.assertEqual(methods - calls, {"close", "copy"})
        self.assertEqual(calls - methods, {"new", "free", "clone", "from_links", "from_faces", "replies"})

    def test_hints(self) -> None:
        """Each parameter and each result has its type, and the package says so."""
        for name, it in [each for kind in (Dcel, Delaunay, ConstrainedDelaunay, _triangulation.Triangulation) for each in vars(kind).items() if inspect.isfunction(each[1])]:
            with self.subTest(method=name):
                own = [each for each in inspect.signature(it).parameters.values() if each.name not in ("self", "cls")]
                self.assertTrue(all(each.annotation is not each.empty for each in own))
                self.assertIsNot(inspect.signature(it).return_annotation, inspect.Signature.empty)
        self.assertTrue((Path(dcel.__file__).parent / "py.typed").is_file())

    def test_names_of_errors(self) -> None:
        names = dict(re.findall(r'case DCEL_(\w+): return "(\w+)";', HEADER))
        self.assertEqual(names, {"DONE": "Done", **{Status(status).name: kind.__name__ for status, kind in ERRORS.items()}})

    def test_refusals_of_edits(self) -> None:
        """An edit says that it raises what the header says that it refuses."""
        edits = HEADER[HEADER.index("---- Edits. ") : HEADER.index("---- Tests. ")]
        told = re.findall(r"Refusals: ([^.]*)\. \*/\ndcel_status dcel_(\w+)\(", edits)
        self.assertEqual(len(told), edits.count("dcel_status dcel_"))
        for listed, name in told:
            with self.subTest(call=name):
                wanted = {ERRORS[Status[it]].__name__ for it in re.findall(r"\b[A-Z]+(?:_[A-Z]+)*\b", listed)} - {"Short"}
                raises = " ".join((getattr(Dcel, name).__doc__ or "").split()).partition("Raises")[2]
                self.assertEqual(set(re.findall(r"\b[A-Z]\w+", raises)), wanted)
