"""Each way in which a call can be refused, and that it changes nothing then."""

from __future__ import annotations

import inspect
import re
import unittest
from collections.abc import Callable, Iterator
from typing import Any

import dcel
from dcel import Dcel, DcelError, NoMesh
from meshes import BORDER, STRIP, cleaned, closed_off, crowded, flipped, line, opened, path, points, quad, round_, state, triangle

EDGE, STEPS = [99], ["next", "prev", "rev", "ccw", "cw", "from_", "to", "face", "directed_edge"]

# The error, the method, the mesh, and what the method is given.
CASES: list[tuple[type[DcelError], str, Callable[[], Dcel], tuple[Any, ...]]] = [
    *((dcel.NoSuchEdge, step, round_, (12,)) for step in STEPS),
    *((dcel.GivenUp, step, opened, (6,)) for step in STEPS),
    (dcel.NoSuchVertex, "out_edge", round_, (5,)),
    (dcel.NoSuchFace, "adjacent_edge", round_, (4,)),
    (dcel.NoSuchVertex, "out_edges", round_, (5,)),
    (dcel.NoSuchFace, "face_edges", round_, (4,)),
    (dcel.NoSuchVertex, "get_edge_from_neighbors", round_, (0, 5)),
    (dcel.NoSuchVertex, "get_edge_from_neighbors", round_, (5, 0)),
    (dcel.NoSuchVertex, "vertex_data", round_, (5,)),
    (dcel.NoSuchEdge, "directed_edge_data", round_, (12,)),
    (dcel.NoSuchEdge, "undirected_edge_data", round_, (6,)),
    (dcel.NoSuchFace, "face_data", round_, (4,)),
    (dcel.NoSuchVertex, "update_vertex", round_, (5, 1)),
    (dcel.NoSuchEdge, "update_directed_edge", round_, (12, 1)),
    (dcel.NoSuchEdge, "update_undirected_edge", round_, (6, 1)),
    (dcel.NoSuchFace, "update_face", round_, (4, 1)),
    (dcel.NoRoom, "reserve_capacity", round_, (2**64 - 1, 0, 0)),
    (dcel.NoRoom, "reserve_capacity", round_, (0, 2**31, 0)),
    (dcel.NoRoom, "reserve_capacity", round_, (0, 0, 2**32)),
    (dcel.NoSuchVertex, "setup_initial_two_vertices", round_, (0, 5)),
    (dcel.GivenUp, "setup_initial_two_vertices", opened, (3, 3)),
    (dcel.SameVertex, "setup_initial_two_vertices", round_, (0, 0)),
    (dcel.EdgesStand, "setup_initial_two_vertices", round_, (0, 1)),
    (dcel.NoSuchVertex, "extend_line", line, (4, 4)),
    (dcel.GivenUp, "extend_line", opened, (0, 3)),
    (dcel.SameVertex, "extend_line", line, (0, 0)),
    (dcel.VertexInUse, "extend_line", line, (1, 0)),
    (dcel.NotLineEnd, "extend_line", line, (2, 3)),
    (dcel.NoSuchVertex, "split_edge_when_all_vertices_on_line", line, (99, 4)),
    (dcel.NoSuchEdge, "split_edge_when_all_vertices_on_line", line, (2, 2)),
    (dcel.GivenUp, "split_edge_when_all_vertices_on_line", opened, (6, 4)),
    (dcel.VertexInUse, "split_edge_when_all_vertices_on_line", line, (0, 1)),
    (dcel.NotBridge, "split_edge_when_all_vertices_on_line", round_, (0, 4)),
    (dcel.NoSuchEdge, "create_single_face_between_edge_and_next", round_, (12,)),
    (dcel.GivenUp, "create_single_face_between_edge_and_next", opened, (6,)),
    (dcel.NotOuter, "create_single_face_between_edge_and_next", round_, (1,)),
    (dcel.WouldLoop, "create_single_face_between_edge_and_next", line, (0,)),
    (dcel.NoSuchVertex, "create_new_face_adjacent_to_edge", round_, (12, 5)),
    (dcel.NoSuchEdge, "create_new_face_adjacent_to_edge", round_, (12, 4)),
    (dcel.GivenUp, "create_new_face_adjacent_to_edge", opened, (6, 4)),
    (dcel.VertexInUse, "create_new_face_adjacent_to_edge", round_, (0, 3)),
    (dcel.NoSuchVertex, "insert_into_triangle", round_, (5, 0)),
    (dcel.NoSuchFace, "insert_into_triangle", round_, (4, 4)),
    (dcel.NoSuchFace, "insert_into_triangle", round_, (4, 0)),
    (dcel.GivenUp, "insert_into_triangle", opened, (4, 1)),
    (dcel.VertexInUse, "insert_into_triangle", round_, (3, 1)),
    (dcel.NotTriangle, "insert_into_triangle", quad, (5, 1)),
    *((dcel.NoSuchVertex, split, round_, (12, 5)) for split in ("split_half_edge", "split_edge")),
    *((dcel.NoSuchEdge, split, round_, (12, 4)) for split in ("split_half_edge", "split_edge")),
    *((dcel.GivenUp, split, opened, (6, 4)) for split in ("split_half_edge", "split_edge")),
    *((dcel.VertexInUse, split, round_, (0, 3)) for split in ("split_half_edge", "split_edge")),
    *((dcel.NotTriangle, split, quad, (1, 5)) for split in ("split_half_edge", "split_edge")),
    (dcel.NoSuchEdge, "flip_cw", round_, (6,)),
    (dcel.GivenUp, "flip_cw", opened, (3,)),
    (dcel.NotTriangle, "flip_cw", quad, (0,)),
    (dcel.WouldLoop, "flip_cw", triangle, (0,)),
    (dcel.NoSuchVertex, "swap_vertices", round_, (0, 5)),
    (dcel.GivenUp, "swap_vertices", opened, (0, 3)),
    (dcel.NoSuchEdge, "legalize_by_number", round_, (9, [0, 6])),
    (dcel.RemovalOpen, "insert_vertex", opened, (1, 0)),
    (dcel.NotTriangle, "insert_vertex", round_, (0, 0)),
    (dcel.NotTriangle, "insert_vertex", round_, (4, 0)),
    (dcel.NoSuchVertex, "remove_vertex", round_, (5,)),
    (dcel.RemovalOpen, "remove_vertex", opened, (0,)),
    (dcel.NotTriangle, "remove_vertex", quad, (0,)),
    (dcel.CutVertex, "remove_vertex", path, (1,)),
    (dcel.ShortBorder, "remove_vertex", closed_off, (0,)),
    (dcel.SecondEdge, "remove_vertex", flipped, (3,)),
    (dcel.RemovalOpen, "collapse_edge", opened, (0,)),
    (dcel.NotInside, "collapse_edge", round_, (0,)),
    (dcel.NotInside, "collapse_edge", round_, (12,)),
    (dcel.SecondEdge, "collapse_edge", crowded, (11,)),
    (dcel.NoSuchVertex, "isolate_vertex_and_fill_hole", round_, (EDGE, 5)),
    (dcel.NoSuchEdge, "isolate_vertex_and_fill_hole", opened, ([1, 3, 12], 3)),
    (dcel.RemovalOpen, "isolate_vertex_and_fill_hole", opened, (BORDER, 3)),
    (dcel.BadRing, "isolate_vertex_and_fill_hole", round_, (BORDER[::-1], 3)),
    (dcel.BadRing, "isolate_vertex_and_fill_hole", round_, ([], 3)),
    (dcel.NoSuchEdge, "remesh_edge_ring", round_, (BORDER, [3, 4, 6], [1, 2, 0])),
    (dcel.NoSuchFace, "remesh_edge_ring", opened, (BORDER, [3, 4, 5], [1, 2, 0])),
    (dcel.RemovalOpen, "remesh_edge_ring", opened, (BORDER, [3, 4, 5], [1, 2, 3])),
    (dcel.BadRing, "remesh_edge_ring", round_, (BORDER, [3, 4], [1, 2, 3])),
    (dcel.NoSuchEdge, "disconnect_edge_strip", opened, (EDGE,)),
    (dcel.RemovalOpen, "disconnect_edge_strip", opened, (STRIP,)),
    (dcel.BadStrip, "disconnect_edge_strip", round_, (STRIP[::-1],)),
    (dcel.BadStrip, "disconnect_edge_strip", round_, ([],)),
    (dcel.NoSuchEdge, "cleanup_isolated_vertex", round_, (EDGE, [0])),
    (dcel.NoSuchFace, "cleanup_isolated_vertex", round_, ([3], [0])),
    (dcel.NoRemoval, "cleanup_isolated_vertex", cleaned, ([], [])),
    (dcel.WrongLists, "cleanup_isolated_vertex", opened, ([3, 4, 5], [1, 2])),
    (dcel.NoSuchVertex, "swap_remove_vertex", opened, (5,)),
    (dcel.RemovalOpen, "swap_remove_vertex", opened, (3,)),
    (dcel.RemovalOpen, "swap_remove_vertex", cleaned, (0,)),
    (dcel.VertexInUse, "swap_remove_vertex", round_, (0,)),
    (dcel.NoSuchVertex, "remove_when_degenerate", opened, (5,)),
    (dcel.RemovalOpen, "remove_when_degenerate", opened, (3,)),
    (dcel.NotPath, "remove_when_degenerate", line, (0,)),
    (dcel.NotPath, "remove_when_degenerate", lambda: points(2), (0,)),
]


def methods() -> Iterator[tuple[str, Callable[..., Any]]]:
    return ((name, it) for name, it in inspect.getmembers(Dcel, inspect.isfunction) if not name.startswith("_"))


def words_for(method: Callable[..., Any], **instead: Any) -> list[Any]:
    """Something to give to a method: 0 for a number, and an empty list for a list."""
    kinds = {name: it.annotation for name, it in inspect.signature(method).parameters.items() if name != "self"}
    return [instead.get(name, 0 if kind == "int" else []) for name, kind in kinds.items()]


class Refusals(unittest.TestCase):
    def test_each(self) -> None:
        for kind, name, make, given in CASES:
            with self.subTest(error=kind.__name__, method=name, given=given):
                mesh = make()
                before = state(mesh)
                with self.assertRaises(kind) as raised:
                    getattr(mesh, name)(*given)
                self.assertIs(type(raised.exception), kind)
                self.assertEqual(state(mesh), before)

    def test_each_is_tried_that_is_told(self) -> None:
        """What the text of a method says that it raises; but for want of room and of memory, for which test_memory stands."""
        told = {
            (error, name)
            for name, method in methods()
            for sentence in re.findall(r"Raises ([^.]*)\.", " ".join((method.__doc__ or "").split()))
            for error in re.findall(r"\b[A-Z]\w+", sentence)
            if error != "OutOfMemory" and (error != "NoRoom" or name == "reserve_capacity")
        }
        self.assertEqual(told, {(kind.__name__, name) for kind, name, _, _ in CASES})

    def test_closed(self) -> None:
        for name, method in methods():
            if name != "close":
                with self.subTest(method=name):
                    mesh = round_()
                    mesh.close()
                    with self.assertRaises(NoMesh):
                        getattr(mesh, name)(*words_for(method))

    def test_numbers_without_a_place(self) -> None:
        """Numbers that no element and no datum can be never come to the library, which would cut them off."""
        for name, method in methods():
            for parameter, it in inspect.signature(method).parameters.items():
                for wrong in {"int": [-1, 2**64], "Iterable[int]": [[-1], [2**32]]}.get(it.annotation, []):
                    with self.subTest(method=name, parameter=parameter, given=wrong), self.assertRaises(OverflowError):
                        getattr(round_(), name)(*words_for(method, **{parameter: wrong}))
        with self.assertRaises(OverflowError):
            round_().next(2**32)

    def test_what_is_no_number(self) -> None:
        for wrong in (1.0, "1", None):
            with self.subTest(given=wrong), self.assertRaises(TypeError):
                round_().next(wrong)  # type: ignore[arg-type]

    def test_errors(self) -> None:
        self.assertTrue(all(issubclass(it, IndexError) for it in (dcel.NoSuchVertex, dcel.NoSuchEdge, dcel.NoSuchFace)))
        self.assertTrue(issubclass(dcel.OutOfMemory, MemoryError))
        with self.assertRaisesRegex(dcel.DcelError, "^flip_cw: There is no such edge or half edge.$") as raised:
            round_().flip_cw(99)
        self.assertIs(raised.exception.status, dcel.Status.NO_SUCH_EDGE)
