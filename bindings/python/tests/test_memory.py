"""Each request for memory is refused in turn: a call that finds none raises OutOfMemory, and leaves the mesh as it was.

It wants a library that is linked with refusing.c, and is left out with any other."""

from __future__ import annotations

import ctypes
import unittest
from collections.abc import Callable
from typing import Any

from dcel import ConstrainedDelaunay, Dcel, Delaunay, Ended, OutOfMemory, replies, triangulate_polygon
from dcel._calls import library
from meshes import BORDER, STRIP, line, opened, points, round_, state, triangle

try:
    left = ctypes.c_long.in_dll(library, "dcel_requests_left")
except ValueError:
    left = None  # type: ignore[assignment]

INSIDE = [3, 4, 5], [1, 2, 3]
# The method, the mesh, and what the method is given.
CASES: list[tuple[str, Callable[[], Dcel], tuple[Any, ...]]] = [
    ("__init__", round_, ()),
    ("copy", round_, ()),
    ("reserve_capacity", round_, (1000, 1000, 1000)),
    ("append_unconnected_vertex", round_, (1,)),
    ("new_triangle", round_, (1, 2, 3)),
    ("setup_initial_two_vertices", lambda: points(2), (0, 1)),
    ("extend_line", line, (1, 2)),
    ("split_edge_when_all_vertices_on_line", line, (0, 2)),
    ("create_new_face_adjacent_to_edge", round_, (0, 4)),
    ("insert_into_triangle", round_, (4, 1)),
    ("split_half_edge", round_, (0, 4)),
    ("split_edge", round_, (0, 4)),
    ("insert_vertex", round_, (1, 0)),
    ("remove_vertex", round_, (3,)),
    ("collapse_edge", round_, (7,)),
    ("isolate_vertex_and_fill_hole", round_, (BORDER, 3)),
    ("remesh_edge_ring", round_, (BORDER, *INSIDE)),
    ("disconnect_edge_strip", round_, (STRIP,)),
    ("cleanup_isolated_vertex", opened, INSIDE),
    ("is_border_loop", round_, (BORDER, 3)),
    ("is_ring", round_, (BORDER, *INSIDE)),
    ("is_edge_strip", round_, (STRIP,)),
    ("is_listed", opened, INSIDE),
    ("can_isolate_vertex_and_fill_hole", round_, (BORDER, 3)),
    ("can_remesh_edge_ring", round_, (BORDER, *INSIDE)),
    ("can_disconnect_edge_strip", round_, (STRIP,)),
]


@unittest.skipIf(left is None, "the library's malloc refuses nothing")
class Memory(unittest.TestCase):
    def refused(self, met: int, call: Callable[[], object]) -> bool:
        """Whether a call finds no memory once so many requests were met."""
        left.value = met
        try:
            call()
        except OutOfMemory:
            return True
        finally:
            left.value = -1
        return False

    def sweep(self, name: str, make: Callable[[], Dcel], given: tuple[Any, ...]) -> int:
        """How often a call is refused, if it is allowed one request more each time."""
        for met in range(1000):
            mesh = make().copy()  # which has no room to spare
            before = state(mesh)
            if not self.refused(met, lambda: getattr(mesh, name)(*given)):
                return met
            self.assertEqual(state(mesh), before)
        self.fail("it finds no memory, however much there is")

    def test_each(self) -> None:
        for name, make, given in CASES:
            with self.subTest(method=name):
                self.assertGreater(self.sweep(name, make, given), 0)

    def test_close_outside(self) -> None:
        def path() -> Dcel:
            mesh = line()
            mesh.extend_line(1, 2)
            return mesh

        self.assertGreater(self.sweep("create_single_face_between_edge_and_next", path, (0,)), 0)

    def test_new(self) -> None:
        self.assertTrue(self.refused(0, Dcel))
        self.assertFalse(self.refused(1000, Dcel))

    def test_given(self) -> None:
        links = triangle().directed_edges()
        for make in (lambda: Dcel.from_links(links, [1, 2, 3], [4, 5]), lambda: Dcel.from_faces(range(4), [0, 1, 2, 2, 1, 3], [3, 3])):
            met = 0
            while self.refused(met, make):
                met += 1
            self.assertGreater(met, 5)

    def test_delaunay(self) -> None:
        """Each call of a triangulation that finds no memory leaves its points, and what lists say of them."""
        five = [(0, 0), (4, 0), (0, 3), (5, 5), (2, 2)]
        calls: dict[str, Callable[[Delaunay], object]] = {
            **{f"insert {len(it)} {it[0]}": lambda made, it=it: made.insert(it) for it in ([(1, 1)], [(1, 1), (3, 1), (2, 0.5)], [(9, 9), (1, 1)], [(9, 9)])},
            **{name: lambda made, name=name: getattr(made, name)() for name in ("copy", "mesh")},
            **{name: lambda made, name=name: getattr(made, name)(five) for name in ("find_simplex", "locate", "nearest")},
            **{name: lambda made, name=name: getattr(made, name) for name in ("simplices", "neighbors", "edges", "hull")},
        }
        met = 0
        while self.refused(met, lambda: Delaunay(five)):
            met += 1
        self.assertGreater(met, 5)
        for name, call in calls.items():
            with self.subTest(call=name):
                self.assertGreater(self.sweep_delaunay(Delaunay(five), call, name != "simplices"), 0)

    def sweep_delaunay(self, standing: Delaunay, call: Callable[[Delaunay], object], is_listed: bool) -> int:
        """How often a call is refused, if it is allowed one request more each time. The triangles may be listed before, and are kept."""
        wanted = sorted(map(sorted, standing.simplices.tolist()))
        for met in range(1000):
            made = standing.copy()
            self.assertEqual(len(made.simplices) if is_listed else 4, 4)
            if not self.refused(met, lambda: call(made)):  # noqa: B023
                return met
            self.assertEqual(made.simplices.tolist(), made.copy().simplices.tolist())
            self.assertEqual((sorted(map(sorted, made.simplices.tolist())), len(made.points)), (wanted, 5))
        self.fail("it finds no memory, however much there is")

    def test_constrained(self) -> None:
        """So does each call of one with constraints: they stay as well, but that a segment alone may be laid in part, and an edge be freed."""
        square, border = [(0, 0), (6, 0), (6, 6), (0, 6), (2, 3), (4, 3)], [(0, 1), (1, 2), (2, 3), (3, 0)]
        calls: dict[str, Callable[[ConstrainedDelaunay], object]] = {
            **{f"insert {len(it)} {it[0]}": lambda made, it=it: made.insert(it) for it in ([(3, 0)], [(1, 1), (3, 0), (2, 0.5)], [(9, 9), (1, 1)], [(9, 9)])},
            **{f"add {len(it)}": lambda made, it=it: made.add(it) for it in ([(0, 2)], [(4, 5), (0, 4), (2, 5)])},
            **{name: lambda made, name=name: getattr(made, name)() for name in ("copy", "mesh")},
            **{name: lambda made, name=name: getattr(made, name)(square) for name in ("find_simplex", "locate")},
            **{name: lambda made, name=name: getattr(made, name) for name in ("simplices", "neighbors", "edges", "hull", "constraints", "regions")},
            "remove_constraint": lambda made: made.remove_constraint(0, 1),
            "refine": lambda made: made.refine(max_area=4),
        }
        standing = ConstrainedDelaunay(square, border)
        for name, call in calls.items():
            with self.subTest(call=name):
                self.assertGreater(self.sweep_constrained(standing, call, {"add 1": {4, 5}, "remove_constraint": {3, 4}}.get(name, {4})), 0)
        for make in (lambda: ConstrainedDelaunay(square, border), lambda: triangulate_polygon(square[:4], points=square[4:])):
            met = 0
            while self.refused(met, make):
                met += 1
            self.assertGreater(met, 5)

    def sweep_constrained(self, standing: ConstrainedDelaunay, call: Callable[[ConstrainedDelaunay], object], constraints: set[int]) -> int:
        """How often a call is refused, if it is allowed one request more each time. So many constraints may be left."""
        wanted = sorted(map(sorted, standing.simplices.tolist()))
        for met in range(1000):
            made = standing.copy()
            if not self.refused(met, lambda: call(made)):  # noqa: B023
                return met
            self.assertIn(len(made.constraints), constraints)
            if constraints == {4}:
                self.assertEqual(sorted(map(sorted, made.simplices.tolist())), wanted)
            self.assertEqual((len(made.simplices), len(made.points), made.find_simplex([(7, 7)]).tolist()), (6, 6, [-1]))
            self.assertEqual((made.simplices.tolist(), made.constraints.tolist()), (made.copy().simplices.tolist(), made.copy().constraints.tolist()))
        self.fail("it finds no memory, however much there is")

    def test_removal_with_constraints(self) -> None:
        """Rows that a removal without memory leaves are there, with constraints between them, and the others aren't."""
        points, segments = [(0, 0), (4, 0), (0, 3), (5, 5), (2, 2), (3, 1), (1, 1)], [(0, 1), (4, 5), (6, 4)]
        for met in range(1000):
            made = ConstrainedDelaunay(points, segments)
            failed = self.refused(met, lambda: made.remove([4, 5]))  # noqa: B023
            left = [row for row, it in enumerate(made.vertex_to_simplex) if it >= 0]
            self.assertEqual((made.locate([points[row] for row in left])[1].tolist(), made.is_constraint(0, 1)), (left, True))
            self.assertLessEqual({*sum(made.constraints.tolist(), [])}, {*left})
            if not failed:
                self.assertEqual((left, len(made.constraints)), ([0, 1, 2, 3, 6], 1))
                return
            self.assertGreater(len(left), 5)
        self.fail("it finds no memory, however much there is")

    def test_removal(self) -> None:
        """Rows that a removal without memory leaves are there, and the others aren't."""
        five = [(0, 0), (4, 0), (0, 3), (5, 5), (2, 2), (3, 1), (1, 1)]
        for met in range(1000):
            made = Delaunay(five)
            failed = self.refused(met, lambda: made.remove([4, 5, 6]))  # noqa: B023
            left = [row for row, it in enumerate(made.vertex_to_simplex) if it >= 0]
            self.assertEqual(made.nearest([five[row] for row in left]).tolist(), left)
            self.assertEqual(len(made.simplices), len(Delaunay([five[row] for row in left]).simplices))
            if not failed:
                self.assertEqual(left, [0, 1, 2, 3])
                return
            self.assertGreater(len(left), 4)
        self.fail("it finds no memory, however much there is")

    def test_replies(self) -> None:
        """A line that finds no memory is refused, and without memory for the mesh or the replies there are none."""
        lines, told, met = "triangle 7 8 9\nappend 10\ninsert 3 1\n", [], 0
        while not told or "refused 20" in told[-1]:
            if not self.refused(met, lambda: told.append(replies(lines))):
                self.assertEqual(len(told[-1].splitlines()), 3)
            met += 1
        self.assertEqual(told[-1], "ok\nvertex 3\nvertex 3\n")
        self.assertGreater(met, len(told))

    def test_legalize(self) -> None:
        """A list that can't grow ends a legalization, and keeps the flips that are told."""
        ended = set()
        for met in range(1000):
            mesh = round_().copy()
            mesh.flip_cw(0)
            before, left.value = state(mesh), met
            try:
                flips, how = mesh.legalize_by_number(100, [0, 1, 2])
            except OutOfMemory:
                self.assertEqual(state(mesh), before)
                continue
            finally:
                left.value = -1
            ended.add(how)
            self.assertEqual(state(mesh) == before, flips == 0)
            if how == Ended.LEGALIZED:
                break
        self.assertIn(Ended.LEGALIZED, ended)

    def test_steps_take_none(self) -> None:
        mesh = triangle()
        self.assertFalse(self.refused(0, lambda: [mesh.flip_cw, mesh.clear][1]()))
        self.assertFalse(self.refused(0, lambda: (mesh.directed_edges(), mesh.face_edges(0), mesh.adjacent_edge(0))))
