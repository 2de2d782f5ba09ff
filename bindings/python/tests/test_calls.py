"""Each call where it is allowed."""

from __future__ import annotations

import inspect
import unittest
from array import array
from pathlib import Path

from dcel import Call, Dcel, Ended, HalfEdge, RemovalState, Removed, Status
from dcel._declared import NONE
from meshes import BORDER, STRIP, cleaned, line, opened, points, quad, round_, state, triangle


class WholeMeshes(unittest.TestCase):
    def test_new(self) -> None:
        mesh = Dcel()
        self.assertEqual((mesh.num_vertices(), mesh.num_directed_edges(), mesh.num_undirected_edges(), mesh.num_faces()), (0, 0, 0, 1))
        self.assertEqual(mesh.face_data(0), 0)

    def test_clear(self) -> None:
        mesh = opened()
        mesh.update_face(0, 5)
        mesh.clear()
        self.assertEqual((mesh.num_vertices(), mesh.num_faces(), mesh.face_data(0)), (0, 1, 5))
        self.assertEqual(mesh.removal_state(), RemovalState.CLOSED)

    def test_reserve_capacity(self) -> None:
        mesh = round_()
        before = state(mesh)
        mesh.reserve_capacity(100, 100, 100)
        self.assertEqual(state(mesh), before)


class Reading(unittest.TestCase):
    def test_counts(self) -> None:
        mesh = round_()
        self.assertEqual((mesh.num_vertices(), mesh.num_directed_edges(), mesh.num_undirected_edges(), mesh.num_faces()), (5, 12, 6, 4))

    def test_steps(self) -> None:
        mesh = round_()
        links = mesh.directed_edges()
        self.assertEqual(len(links), 12)
        for edge in range(12):
            own = mesh.directed_edge(edge)
            self.assertEqual(own, links[edge])
            self.assertEqual((mesh.next(edge), mesh.prev(edge), mesh.from_(edge), mesh.face(edge)), own)
            self.assertEqual((mesh.rev(edge), mesh.to(edge)), (edge ^ 1, links.origin[edge ^ 1]))
            self.assertEqual((mesh.ccw(edge), mesh.cw(edge)), (own.prev ^ 1, links.next[edge ^ 1]))
            self.assertEqual(mesh.get_edge_from_neighbors(own.origin, mesh.to(edge)), edge)
        self.assertEqual(mesh.directed_edge(6), HalfEdge(next=11, prev=1, origin=0, face=1))
        self.assertIsNone(mesh.get_edge_from_neighbors(0, 4))

    def test_anchors_and_walks(self) -> None:
        mesh = round_()
        self.assertEqual((mesh.out_edge(3), mesh.out_edge(4), mesh.adjacent_edge(0)), (7, None, 0))
        self.assertEqual((list(mesh.out_edges(3)), list(mesh.out_edges(4))), ([7, 9, 11], []))
        self.assertEqual((list(mesh.face_edges(0)), list(mesh.face_edges(1))), ([0, 2, 4], [1, 6, 11]))
        empty = Dcel()
        self.assertEqual((empty.adjacent_edge(0), list(empty.face_edges(0)), len(empty.directed_edges())), (None, [], 0))

    def test_long_walks(self) -> None:
        mesh = triangle()
        for datum in range(100):
            vertex = mesh.append_unconnected_vertex(datum)
            mesh.insert_into_triangle(vertex, max(map(mesh.face, mesh.out_edges(0))))
        self.assertEqual(len(mesh.out_edges(0)), 102)
        self.assertEqual(sum(len(mesh.out_edges(v)) for v in range(103)), mesh.num_directed_edges())
        mesh = points(100)
        mesh.setup_initial_two_vertices(0, 1)
        for vertex in range(2, 100):
            mesh.extend_line(vertex - 1, vertex)
        self.assertEqual(sorted(mesh.face_edges(0)), list(range(198)))

    def test_data(self) -> None:
        mesh = round_()
        self.assertEqual([mesh.vertex_data(v) for v in range(5)], [7, 8, 9, 10, 11])
        self.assertEqual((mesh.directed_edge_data(3), mesh.undirected_edge_data(3), mesh.face_data(3)), (0, 0, 0))
        mesh.update_vertex(3, 2**64 - 1)
        mesh.update_directed_edge(3, 30)
        mesh.update_undirected_edge(3, 31)
        mesh.update_face(3, 32)
        self.assertEqual(mesh.vertex_data(3), 2**64 - 1)
        self.assertEqual((mesh.directed_edge_data(3), mesh.undirected_edge_data(3), mesh.face_data(3)), (30, 31, 32))
        self.assertEqual((mesh.directed_edge_data(2), mesh.undirected_edge_data(2), mesh.face_data(2)), (0, 0, 0))

    def test_tests(self) -> None:
        mesh = opened()
        self.assertEqual((mesh.is_live_vertex(0), mesh.is_live_vertex(3), mesh.is_live_vertex(9)), (True, False, False))
        self.assertEqual((mesh.is_live_edge(0), mesh.is_live_edge(3), mesh.is_live_edge(9)), (True, False, False))
        self.assertEqual((mesh.is_live_face(0), mesh.is_live_face(1), mesh.is_live_face(9)), (True, False, False))
        self.assertEqual((mesh.is_unconnected(4), mesh.is_unconnected(0)), (True, False))
        self.assertEqual((mesh.is_triangle(0), mesh.is_triangle(1), mesh.is_bridge(0)), (True, False, False))
        self.assertEqual((line().is_line_end(0), line().is_line_end(2), line().is_bridge(1)), (True, False, True))
        self.assertEqual((mesh.has_room(2**32 - 5, 0, 0), mesh.has_room(2**32 - 4, 0, 0), mesh.has_room(0, 2**64 - 1, 0)), (True, False, False))
        self.assertEqual((mesh.sanity_check(), triangle().sanity_check(), Dcel().sanity_check()), (False, True, True))


class Edits(unittest.TestCase):
    def test_lines(self) -> None:
        mesh = points(4)
        self.assertTrue(mesh.can_setup_initial_two_vertices(0, 1))
        mesh.setup_initial_two_vertices(0, 1)
        self.assertFalse(mesh.can_setup_initial_two_vertices(0, 1))
        self.assertTrue(mesh.can_extend_line(1, 2))
        mesh.extend_line(1, 2)
        self.assertFalse(mesh.can_extend_line(1, 3))
        self.assertTrue(mesh.can_split_edge_when_all_vertices_on_line(0, 3))
        second = mesh.split_edge_when_all_vertices_on_line(0, 3)
        self.assertEqual((mesh.to(0), mesh.next(0), mesh.to(second)), (3, second, 1))
        self.assertFalse(mesh.can_split_edge_when_all_vertices_on_line(0, 3))

    def test_triangles(self) -> None:
        mesh = line()
        mesh.extend_line(1, 2)
        self.assertTrue(mesh.can_close_outside(0))
        half = mesh.create_single_face_between_edge_and_next(0)
        self.assertEqual((mesh.face(half), mesh.face(0), mesh.num_faces(), mesh.can_close_outside(0)), (0, 1, 2, False))
        self.assertTrue(mesh.can_create_new_face_adjacent_to_edge(half, 3))
        mesh.create_new_face_adjacent_to_edge(half, 3)
        self.assertEqual((mesh.num_faces(), mesh.face(half), len(mesh.out_edges(3))), (3, 2, 2))
        self.assertFalse(mesh.can_create_new_face_adjacent_to_edge(half, 3))

    def test_new_triangle(self) -> None:
        mesh = opened()
        mesh.new_triangle(1, 2, 3)
        self.assertEqual([mesh.vertex_data(v) for v in range(mesh.num_vertices())], [1, 2, 3])
        self.assertEqual(list(mesh.face_edges(1)), [1, 5, 3])

    def test_insert(self) -> None:
        mesh = triangle()
        vertex = mesh.append_unconnected_vertex(10)
        self.assertEqual((vertex, mesh.can_insert_into_triangle(vertex, 1), mesh.can_insert_into_triangle(vertex, 0)), (3, True, False))
        mesh.insert_into_triangle(vertex, 1)
        self.assertEqual([list(mesh.face_edges(face)) for face in range(4)], [[0, 2, 4], [1, 6, 11], [5, 8, 7], [3, 10, 9]])

    def test_splits(self) -> None:
        mesh = round_()
        self.assertEqual((mesh.can_split_half_edge(0, 4), mesh.can_split_half_edge(0, 3)), (True, False))
        second = mesh.split_half_edge(0, 4)
        self.assertEqual((mesh.to(0), mesh.from_(second), mesh.num_faces(), mesh.is_triangle(1)), (4, 4, 5, False))
        mesh = quad()
        self.assertEqual((mesh.can_split_edge(8, 5), mesh.can_split_edge(1, 5)), (True, False))
        second = mesh.split_edge(8, 5)
        self.assertEqual((mesh.to(8), mesh.from_(second), mesh.num_faces()), (5, 5, 7))

    def test_flip(self) -> None:
        mesh = round_()
        self.assertEqual((mesh.can_flip(3), mesh.can_flip(99), triangle().can_flip(0)), (True, False, False))
        mesh.flip_cw(3)
        self.assertEqual([list(mesh.face_edges(face)) for face in (1, 2)], [[6, 8, 11], [7, 1, 5]])

    def test_swap(self) -> None:
        mesh = round_()
        mesh.swap_vertices(0, 4)
        self.assertEqual((mesh.vertex_data(0), mesh.is_unconnected(0), mesh.from_(0)), (11, True, 4))

    def test_legalize(self) -> None:
        mesh = round_()
        mesh.flip_cw(0)
        self.assertEqual(mesh.legalize_by_number(0, range(6)), (0, Ended.STOPPED))
        flips, ended = mesh.legalize_by_number(100, range(6))
        self.assertEqual((flips > 0, ended), (True, Ended.LEGALIZED))
        self.assertEqual(mesh.legalize_by_number(100, []), (0, Ended.LEGALIZED))


class Conveniences(unittest.TestCase):
    def test_insert_and_remove(self) -> None:
        mesh = round_()
        before = state(mesh)
        self.assertEqual(mesh.insert_vertex(2, 9), 5)
        self.assertEqual((mesh.num_undirected_edges(), mesh.vertex_data(5)), (9, 9))
        self.assertEqual(mesh.remove_vertex(5), Removed(datum=9, moved=None))
        self.assertEqual((mesh.num_vertices(), mesh.num_undirected_edges(), mesh.num_faces()), (5, 6, 4))
        self.assertEqual((len(state(mesh)), mesh.remove_vertex(0)), (len(before), Removed(datum=7, moved=4)))

    def test_collapse(self) -> None:
        mesh = round_()
        spoke = mesh.out_edge(3)
        assert spoke is not None
        self.assertEqual((mesh.can_collapse_edge(spoke), mesh.can_collapse_edge(spoke ^ 1), mesh.can_collapse_edge(2**32 - 1)), (True, False, False))
        self.assertEqual(mesh.collapse_edge(spoke), Removed(datum=10, moved=4))
        self.assertEqual((mesh.num_vertices(), mesh.num_undirected_edges(), mesh.num_faces()), (4, 3, 2))

    def test_apply_all(self) -> None:
        """A list of edits leaves the mesh that its calls leave one by one."""
        mesh, other = Dcel(), round_()
        edits = [
            (Call.NEW_TRIANGLE, 7, 8, 9),
            (Call.APPEND_UNCONNECTED_VERTEX, 10),
            (Call.INSERT_INTO_TRIANGLE, 3, 0),
            (Call.INSERT_INTO_TRIANGLE, 3, 1),
            (99,),
            (Call.APPEND_UNCONNECTED_VERTEX, 11),
            (Call.FLIP_CW, 0),
            (Call.SPLIT_EDGE, 6, 4),
        ]
        replies = mesh.apply_all(edits).tolist()
        other.flip_cw(0)
        second = other.split_edge(6, 4)
        statuses = [Status.DONE] * 2 + [Status.NO_SUCH_FACE, Status.DONE, Status.NO_SUCH_EDIT] + [Status.DONE] * 3
        self.assertEqual([status for status, _, _ in replies], statuses)
        self.assertEqual([number for _, number, _ in replies], [NONE, 3, NONE, 3, NONE, 4, NONE, second])
        self.assertEqual(state(mesh), state(other))
        self.assertEqual(len(mesh.apply_all([])), 0)

    def test_apply_all_takes_arrays(self) -> None:
        mesh = Dcel()
        flat = array("Q", [Call.NEW_TRIANGLE, 7, 8, 9, Call.APPEND_UNCONNECTED_VERTEX, 10, 0, 0])
        replies = mesh.apply_all(memoryview(flat).cast("B").cast("Q", (2, 4)))
        self.assertEqual(replies.tolist(), [[0, NONE, NONE], [0, 3, NONE]])
        for wrong in (memoryview(flat), memoryview(flat).cast("B").cast("Q", (4, 2)), [(1, 2, 3, 4, 5)]):
            self.assertRaises(ValueError, mesh.apply_all, wrong)
        self.assertRaises(OverflowError, mesh.apply_all, [(-1,)])
        self.assertRaises(OverflowError, mesh.apply_all, [(Call.FLIP_CW, 2**64)])


class Removals(unittest.TestCase):
    def test_isolate(self) -> None:
        mesh = round_()
        self.assertEqual((mesh.is_border_loop(BORDER, 3), mesh.is_border_loop(BORDER, 2)), (True, False))
        self.assertEqual((mesh.can_isolate_vertex_and_fill_hole(BORDER, 3), mesh.can_isolate_vertex_and_fill_hole([], 3)), (True, False))
        edges, faces, new_edges = mesh.isolate_vertex_and_fill_hole(BORDER, 3)
        self.assertEqual((list(edges), list(faces), list(new_edges)), ([3, 4, 5], [2, 3, 1], []))
        self.assertEqual(mesh.removal_state(), RemovalState.ISOLATED)
        self.assertEqual((mesh.is_listed(edges, faces), mesh.is_listed(faces, edges)), (True, False))
        mesh.cleanup_isolated_vertex(edges, faces)
        self.assertEqual((mesh.removal_state(), mesh.can_swap_remove(3), mesh.can_swap_remove(4)), (RemovalState.CLEANED, True, False))
        self.assertEqual(mesh.swap_remove_vertex(3), Removed(datum=10, moved=4))
        self.assertEqual((mesh.removal_state(), mesh.num_vertices(), mesh.num_faces()), (RemovalState.CLOSED, 4, 2))
        self.assertEqual(mesh.swap_remove_vertex(3), Removed(datum=11, moved=None))

    def test_new_edges(self) -> None:
        mesh = round_()
        mesh.insert_into_triangle(4, 1)  # vertex 3 has four edges now
        border = [mesh.next(edge) for edge in reversed(mesh.out_edges(3))]
        edges, faces, new_edges = mesh.isolate_vertex_and_fill_hole(border, 3)
        self.assertEqual((len(edges), len(faces), new_edges), (4, 4, range(9, 10)))

    def test_remesh(self) -> None:
        mesh = round_()
        inside = [3, 4, 5], [1, 2, 3]
        self.assertEqual((mesh.is_ring(BORDER, *inside), mesh.is_ring(BORDER, [], [])), (True, False))
        self.assertEqual((mesh.can_remesh_edge_ring(BORDER, *inside), mesh.can_remesh_edge_ring([], *inside)), (True, False))
        edges, faces, new_edges = mesh.remesh_edge_ring(BORDER, *inside)
        self.assertEqual((list(edges), list(faces), new_edges), (*inside, range(6, 6)))
        mesh.cleanup_isolated_vertex(edges, faces)
        self.assertEqual(mesh.removal_state(), RemovalState.CLEANED)

    def test_strip(self) -> None:
        mesh = round_()
        self.assertEqual((mesh.is_edge_strip(STRIP), mesh.is_edge_strip([])), (True, False))
        self.assertEqual((mesh.can_disconnect_edge_strip(STRIP), mesh.can_disconnect_edge_strip(BORDER)), (True, False))
        edges, faces, new_edges = mesh.disconnect_edge_strip(STRIP)
        self.assertEqual((list(edges), list(faces), list(new_edges)), ([0, 5, 1], [1, 3], []))
        mesh.cleanup_isolated_vertex(edges, faces)
        self.assertEqual(mesh.swap_remove_vertex(1).datum, 8)

    def test_degenerate(self) -> None:
        mesh = line()
        self.assertFalse(mesh.can_remove_degenerate(0))
        mesh.extend_line(1, 2)
        mesh.swap_remove_vertex(3)
        self.assertTrue(mesh.can_remove_degenerate(1))
        self.assertEqual(mesh.remove_when_degenerate(1), Removed(datum=21, moved=2))
        self.assertEqual((mesh.num_vertices(), mesh.num_undirected_edges()), (2, 1))

    def test_cleaned(self) -> None:
        self.assertEqual(repr(cleaned()), "<Dcel: 5 vertices, 3 edges, 2 faces, a removal is open>")


class All(unittest.TestCase):
    def test_each_method_is_called_above(self) -> None:
        text = Path(__file__).read_text()
        for name, _ in inspect.getmembers(Dcel, inspect.isfunction):
            if not name.startswith("_") and name not in ("close", "copy"):  # which test_life calls
                self.assertRegex(text, rf"\.{name}\(")
