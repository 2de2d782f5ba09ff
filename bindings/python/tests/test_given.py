"""Meshes made from links and from faces."""

from __future__ import annotations

import unittest
from array import array
from collections.abc import Callable, Iterable
from typing import Any

from dcel import Dcel, Delaunay, Fault, FaultKind, Faulty, Status
from meshes import opened, round_, triangle

try:
    import numpy
except ImportError:
    numpy = None  # type: ignore[assignment]

CORNERS, COUNTS = [0, 1, 2, 2, 1, 3], [3, 3]


class Given(unittest.TestCase):
    def fault(self, make: Callable[..., Dcel], *given: Any) -> Fault:
        with self.assertRaises(Faulty) as raised:
            make(*given)
        self.assertIs(raised.exception.status, Status.FAULTY)
        self.assertIn(raised.exception.fault.kind.name, str(raised.exception))
        return raised.exception.fault

    def test_links_again(self) -> None:
        mesh = round_()
        links = mesh.directed_edges()
        flat = array("I", links.flat)
        flat[1::4] = array("I", [99] * len(links))  # prev isn't read
        for given in (links, links.flat, list(links.flat), memoryview(links.flat), flat):
            made = Dcel.from_links(given, range(5), array("Q", [2**64 - 1, 6, 7, 8]))
            self.assertEqual(made.directed_edges().flat, links.flat)
            self.assertEqual([made.vertex_data(vertex) for vertex in range(5)], list(range(5)))
            self.assertEqual([made.face_data(face) for face in range(4)], [2**64 - 1, 6, 7, 8])
            self.assertEqual((made.directed_edge_data(3), made.undirected_edge_data(3)), (0, 0))
            self.assertEqual(list(made.out_edges(3)), [11, 7, 9])
        self.assertEqual(repr(Dcel.from_links([], [1, 2], [0])), "<Dcel: 2 vertices, 0 edges, 1 faces>")

    def test_faulty_links(self) -> None:
        flat = triangle().directed_edges().flat
        given = [0, 0, 0], [0, 0]
        none = Fault(FaultKind.LENGTHS, 0, 0, 0, 0)
        self.assertEqual(self.fault(Dcel.from_links, flat[:4], *given), none)
        self.assertEqual(self.fault(Dcel.from_links, flat, [0, 0, 0], []), none._replace(kind=FaultKind.NO_FACE))
        self.assertEqual(self.fault(Dcel.from_links, flat, [0, 0], [0, 0]).kind, FaultKind.ORIGIN_OUT_OF_RANGE)
        flat[4] = 4
        self.assertEqual(self.fault(Dcel.from_links, flat, *given), none._replace(kind=FaultKind.TWO_LEAD_TO, number=4))
        ranges = FaultKind.NEXT_OUT_OF_RANGE, FaultKind.ORIGIN_OUT_OF_RANGE, FaultKind.FACE_OUT_OF_RANGE
        self.assertIn(self.fault(Dcel.from_links, opened().directed_edges(), [0] * 5, [0] * 4).kind, ranges)
        with self.assertRaisesRegex(ValueError, "four links"):
            Dcel.from_links(flat[:3], *given)

    def test_faces(self) -> None:
        made = Dcel.from_faces([1, 2, 3, 4, 5], CORNERS, COUNTS)
        self.assertEqual(repr(made), "<Dcel: 5 vertices, 5 edges, 3 faces>")
        self.assertEqual([made.from_(edge) for edge in made.face_edges(2)], [3, 2, 1])
        self.assertEqual((made.vertex_data(4), made.face_data(2)), (5, 0))
        self.assertEqual(repr(Dcel.from_faces([], [], [])), "<Dcel: 0 vertices, 0 edges, 1 faces>")

    def test_triangles(self) -> None:
        made = Dcel.from_triangles([CORNERS[:3], CORNERS[3:]], [5, 6, 7, 8])
        self.assertEqual(made.directed_edges().flat, Dcel.from_faces([5, 6, 7, 8], CORNERS, COUNTS).directed_edges().flat)
        self.assertEqual(made.vertex_data(3), 8)
        for given in self.tables():
            with self.subTest(form=type(given)):
                made = Dcel.from_triangles(given)
                self.assertEqual((repr(made), made.vertex_data(3)), ("<Dcel: 4 vertices, 5 edges, 3 faces>", 3))
        self.assertEqual(repr(Dcel.from_triangles([[0, 1, 2]], 5)), "<Dcel: 5 vertices, 3 edges, 2 faces>")
        self.assertEqual(repr(Dcel.from_triangles([])), "<Dcel: 0 vertices, 0 edges, 1 faces>")
        self.assertEqual(self.fault(Dcel.from_triangles, [[0, 1, 2]], 2).kind, FaultKind.NO_VERTEX)
        with self.assertRaisesRegex(ValueError, "triangles: row 1 has 4 corners, and not 3"):
            Dcel.from_triangles([[0, 1, 2], [0, 2, 3, 4]])
        with self.assertRaises(OverflowError):
            Dcel.from_triangles([[0, 1, 2]], -1)
        points = Delaunay([(0, 0), (4, 0), (4, 4), (0, 4), (1, 2)])
        self.assertEqual(repr(Dcel.from_triangles(points.simplices)), "<Dcel: 5 vertices, 8 edges, 5 faces>")

    def tables(self) -> Iterable[Any]:
        """The two triangles as rows, in each form that a caller may have."""
        rows = [CORNERS[:3], CORNERS[3:]]
        yield from (rows, tuple(map(tuple, rows)), iter(rows), [array("I", rows[0]), range(2, -1, -1), rows[1]][::2])
        for code in "IQqB":
            table = memoryview(array(code, CORNERS)).cast("B").cast(code, (2, 3))
            yield from (table, table.toreadonly())
        if numpy is not None:
            for kind in ("u4", "i4", "i8", "u1", ">u4"):
                table = numpy.array(rows, dtype=kind)
                yield from (table, numpy.asfortranarray(table), numpy.array(rows * 2, dtype=kind)[::3])

    def test_rows(self) -> None:
        wanted = Dcel.from_faces([0] * 4, CORNERS, COUNTS).directed_edges().flat
        for given in self.tables():
            with self.subTest(form=type(given)):
                self.assertEqual(Dcel.from_faces([0] * 4, given).directed_edges().flat, wanted)
        table = memoryview(array("I", CORNERS)).cast("B").cast("I", (2, 3))
        self.assertEqual(Dcel.from_faces([0] * 4, table, COUNTS).directed_edges().flat, wanted)
        self.assertEqual(repr(Dcel.from_faces(range(5), [[0, 1, 2, 3], [0, 3, 4]])), "<Dcel: 5 vertices, 6 edges, 3 faces>")
        self.assertEqual(repr(Dcel.from_faces([7], [])), "<Dcel: 1 vertices, 0 edges, 1 faces>")

    def test_what_are_no_rows(self) -> None:
        for wrong in (CORNERS, array("I", CORNERS), memoryview(bytearray(96)).cast("I", (2, 3, 4)), "012", [[1.0, 2.0, 3.0]], 3):
            with self.subTest(given=wrong), self.assertRaises(TypeError):
                Dcel.from_faces([0] * 4, wrong)  # type: ignore[arg-type]

    def test_words(self) -> None:
        """A fault is told in words, with its numbers and the name of its kind."""
        for given, words in [
            (([0, 1, 2, 0, 1, 3], COUNTS), "faces at places 0 and 1 have the side 0 to 1 (SIDE_TWICE)."),
            (([0, 1, 4], [3]), "the face at place 0 has corner 4, which is no vertex (NO_VERTEX)."),
            (
                ([0, 1, 2, 2, 1, 0], COUNTS),
                "no half edge lies on face 0; of a closed surface leave one face out, to be the outer face (UNUSED_FACE).",
            ),
        ]:
            with self.assertRaises(Faulty) as raised:
                Dcel.from_faces([0] * 4, *given)
            self.assertEqual(str(raised.exception), f"from_faces: No mesh is made of what is given: {words}")
        for kind in FaultKind:
            self.assertNotIn("{", str(Fault(kind, 1, 2, 3, 4)))

    def test_faulty_faces(self) -> None:
        for corners, counts, fault in [
            (CORNERS, [3], (FaultKind.OTHER_COUNT, 0, 0, 0, 0)),
            (CORNERS, [3, 3, 1], (FaultKind.OTHER_COUNT, 0, 0, 0, 0)),
            ([0, 1, 2, 2, 1], [3, 2], (FaultKind.FEW_CORNERS, 1, 0, 0, 0)),
            ([0, 1, 4], [3], (FaultKind.NO_VERTEX, 0, 0, 4, 0)),
            ([0, 1, 2, 2, 1, 1], COUNTS, (FaultKind.SIDE_AT_ONE, 1, 0, 1, 1)),
            ([0, 1, 2, 0, 1, 3], COUNTS, (FaultKind.SIDE_TWICE, 0, 1, 0, 1)),
            ([0, 1, 2, 2, 1, 0], COUNTS, (FaultKind.UNUSED_FACE, 0, 0, 0, 0)),
        ]:
            with self.subTest(corners=corners, counts=counts):
                self.assertEqual(self.fault(Dcel.from_faces, [0] * 4, corners, counts), fault)
        self.assertEqual(self.fault(Dcel.from_faces, [0] * 5, [0, 1, 2, 0, 3, 4], COUNTS), (FaultKind.BORDER_TWICE, 0, 0, 0, 0))

    def test_numbers_without_a_place(self) -> None:
        for given in ([2**64], [0], [0]), ([0], [2**32], [0]), ([0], [0], [-1]):
            with self.subTest(given=given), self.assertRaises(OverflowError):
                Dcel.from_faces(*given)
