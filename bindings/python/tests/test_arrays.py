"""Lists in and out."""

from __future__ import annotations

import ctypes
import unittest
from array import array
from collections.abc import Iterable
from typing import Any

from dcel import NO_LINK, Dcel
from dcel._arrays import numbers
from meshes import BORDER, opened, round_

try:
    import numpy
except ImportError:
    numpy = None  # type: ignore[assignment]


def address(view: memoryview) -> int:
    return ctypes.addressof(ctypes.c_uint32.from_buffer(view))


class In(unittest.TestCase):
    def forms(self, items: list[int]) -> Iterable[Any]:
        """The items in each form that a caller may have."""
        yield from (items, tuple(items), iter(items), array("I", items), array("L", items), array("q", items))
        yield (ctypes.c_uint32 * len(items))(*items)
        yield memoryview(array("I", items))
        yield memoryview(array("I", items)).toreadonly()
        yield memoryview(array("I", [word for it in items for word in (it, 0)]))[::2]
        yield bytes(items)
        yield dict.fromkeys(items)
        if numpy is not None:
            yield from (numpy.array(items, dtype=kind) for kind in ("u4", "i8", "u1", ">u4"))

    def test_forms(self) -> None:
        for given in self.forms(BORDER):
            with self.subTest(form=type(given)):
                self.assertEqual(list(numbers(given)), BORDER) if not hasattr(given, "__next__") else None
        for given in self.forms(BORDER):
            with self.subTest(form=type(given)):
                self.assertTrue(round_().is_border_loop(given, 3))
        for given in self.forms([]):
            with self.subTest(form=type(given)):
                self.assertFalse(round_().is_border_loop(given, 3))

    def test_no_copy(self) -> None:
        items = array("I", BORDER)
        self.assertEqual(address(numbers(items)), items.buffer_info()[0])
        self.assertEqual(address(numbers(memoryview(items)[1:])), items.buffer_info()[0] + 4)

    def test_what_is_no_list(self) -> None:
        for wrong in ("135", 1, [1.0], [None], array("d", [1.0]), memoryview(bytearray(16)).cast("I", (2, 2))):
            with self.subTest(given=wrong), self.assertRaises(TypeError):
                round_().is_border_loop(wrong, 3)  # type: ignore[arg-type]

    def test_any_place(self) -> None:
        """Numbers that lie where C puts none of their size are copied."""
        for code, size in (("I", 4), ("Q", 8)):
            items = array(code, range(3))
            for offset in range(size):
                with self.subTest(code=code, offset=offset):
                    given = memoryview(bytearray(4 * size))[offset : offset + 3 * size].cast(code)
                    given[:] = memoryview(items)
                    start = ctypes.addressof(ctypes.c_char.from_buffer(given))
                    taken = numbers(given, code)
                    self.assertEqual((taken.tolist(), address(taken) % size), ([0, 1, 2], 0))
                    self.assertEqual(address(taken) == start, start % size == 0)

    def test_any_number(self) -> None:
        """What is no int but can be one, as NumPy's numbers, is taken for its number, and nothing else is."""

        class Number:
            def __init__(self, number: int) -> None:
                self.number = number

            def __index__(self) -> int:
                return self.number

        mesh = round_()
        mesh.update_vertex(Number(3), Number(2**64 - 1))  # type: ignore[arg-type]
        self.assertEqual((mesh.vertex_data(3), mesh.next(Number(0)), mesh.next(True)), (2**64 - 1, 2, mesh.next(1)))  # type: ignore[arg-type]
        with self.assertRaisesRegex(TypeError, "'float' object cannot be interpreted as an integer"):
            mesh.flip_cw(3.0)  # type: ignore[arg-type]

    def test_given_lists_stay(self) -> None:
        edges, faces, border = array("I", [3, 4, 5]), array("I", [1, 2, 3]), array("I", BORDER)
        mesh = round_()
        found = mesh.remesh_edge_ring(border, edges, faces)
        found.edges.append(7)
        edges.append(8)  # nothing keeps it from growing any more
        self.assertEqual((list(edges), list(faces), list(border)), ([3, 4, 5, 8], [1, 2, 3], BORDER))


class Out(unittest.TestCase):
    def test_arrays(self) -> None:
        found = round_().out_edges(3)
        self.assertEqual((type(found), found.typecode, found.itemsize), (array, "I", 4))
        found.append(5)  # it is the caller's

    def test_links(self) -> None:
        mesh = opened()
        links = mesh.directed_edges()
        self.assertEqual((links.next[0], links.prev[0], links.origin[0], links.face[0]), mesh.directed_edge(0))
        self.assertEqual(links[6], (NO_LINK,) * 4)
        self.assertEqual(list(links.flat[:4]), list(links[0]))
        self.assertEqual((links.next.format, links.next.itemsize, len(links.face)), ("I", 4, 12))
        mesh.clear()
        self.assertEqual(len(links), 12)

    def test_ends(self) -> None:
        for mesh in (opened(), round_(), Dcel()):
            links = mesh.directed_edges()
            self.assertEqual(list(links.to), [links.origin[edge ^ 1] for edge in range(len(links))])
        self.assertEqual(repr(round_().directed_edges()), "<Links: 12 half edges>")

    def test_rows_of_links(self) -> None:
        """Links may be an array with a row for each half edge. A half edge has one number."""
        flat = round_().directed_edges().flat
        data = range(5), range(4)
        for given in (flat, memoryview(flat).cast("B").cast("I", (12, 4)), memoryview(array("q", flat)).cast("B").cast("q", (12, 4))):
            self.assertEqual(Dcel.from_links(given, *data).directed_edges().flat, flat)
        with self.assertRaisesRegex(ValueError, r"\(4, 12\)"):
            Dcel.from_links(memoryview(flat).cast("B").cast("I", (4, 12)), *data)
        with self.assertRaises(TypeError):
            round_().directed_edges()[0:2]  # type: ignore[index]

    def test_no_links(self) -> None:
        links = Dcel().directed_edges()
        self.assertEqual((len(links), list(links.next), list(links.flat)), (0, [], []))

    @unittest.skipIf(numpy is None, "there is no NumPy")
    def test_numpy(self) -> None:
        mesh = round_()
        mesh.update_vertex(numpy.uint32(3), numpy.uint64(2**64 - 1))
        self.assertEqual(mesh.vertex_data(numpy.int8(3)), 2**64 - 1)
        for wrong in (numpy.array([3]), numpy.float64(3)):
            with self.subTest(given=wrong), self.assertRaises(TypeError):
                mesh.vertex_data(wrong)
        links = round_().directed_edges()
        view = numpy.asarray(links.next)
        self.assertTrue(numpy.shares_memory(view, numpy.asarray(links.flat)))
        self.assertEqual((view[view].tolist(), view.dtype), ([links.next[links.next[h]] for h in range(12)], "uint32"))
