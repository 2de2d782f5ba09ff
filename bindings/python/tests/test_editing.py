"""Vertices inserted and removed by one call, and edges collapsed: on meshes of each size, and at random beside faces that are only lists."""

from __future__ import annotations

import random
import unittest
from collections.abc import Callable, Iterable

from dcel import CutVertex, Dcel, DcelError, NotInside, NotTriangle, Removed, SecondEdge, ShortBorder
from meshes import points, round_, triangle

Faces = set[tuple[int, ...]]


def spokes(count: int, *, closed: bool) -> list[list[int]]:
    """So many triangles at vertex 0, one after another; if they are closed, the last one meets the first."""
    return [[0, it, 1 if closed and it == count else it + 1] for it in range(1, count + 1)]


def fan(count: int, *, closed: bool) -> Dcel:
    """A fan at vertex 0, which is on the border, or a wheel around it. The datum of a vertex is ten times its number."""
    return Dcel.from_triangles(spokes(count, closed=closed), [10 * it for it in range(count + (1 if closed else 2))])


def counts(mesh: Dcel) -> tuple[int, int, int]:
    return mesh.num_vertices(), mesh.num_undirected_edges(), mesh.num_faces()


def ends(mesh: Dcel) -> list[frozenset[int]]:
    """The data of the ends of each edge."""
    return [frozenset(mesh.vertex_data(mesh.from_(2 * edge + half)) for half in (0, 1)) for edge in range(mesh.num_undirected_edges())]


def is_simple(mesh: Dcel) -> bool:
    found = ends(mesh)
    return len(set(found)) == len(found) and all(len(it) == 2 for it in found)


def turned(corners: Iterable[int]) -> tuple[int, ...]:
    """The corners of a face, from the least one on."""
    listed = list(corners)
    first = listed.index(min(listed))
    return tuple(listed[first:] + listed[:first])


def corners(mesh: Dcel, face: int) -> tuple[int, ...]:
    return turned(mesh.vertex_data(mesh.from_(half)) for half in mesh.face_edges(face))


def faces(mesh: Dcel) -> Faces:
    """The inner faces, by the data of their corners."""
    return {corners(mesh, face) for face in range(1, mesh.num_faces())}


def neighbors(mesh: Dcel, vertex: int) -> set[int]:
    return {mesh.to(half) for half in mesh.out_edges(vertex)}


def collapsed(found: Faces, start: int, end: int) -> Faces:
    """What the faces become if one vertex goes into another."""
    return {turned(end if it == start else it for it in face) for face in found if not {start, end} <= set(face)}


class Sizes(unittest.TestCase):
    def test_holes(self) -> None:
        """The vertex inside a wheel leaves a hole with so many sides."""
        for rim in (3, 4, 6, 40, 1000):
            mesh = fan(rim, closed=True)
            self.assertEqual(mesh.remove_vertex(0), Removed(datum=0, moved=rim))
            self.assertEqual(counts(mesh), (rim, 2 * rim - 3, rim - 1))
            self.assertTrue(is_simple(mesh) and mesh.sanity_check())

    def test_collapses(self) -> None:
        """The vertex inside a wheel goes into vertex 2, which then meets all others."""
        for rim in (3, 4, 6, 40, 1000):
            mesh = fan(rim, closed=True)
            half = mesh.get_edge_from_neighbors(0, 2)
            assert half is not None
            self.assertTrue(mesh.can_collapse_edge(half))
            self.assertEqual(mesh.collapse_edge(half), Removed(datum=0, moved=rim))
            self.assertEqual((counts(mesh), len(mesh.out_edges(2))), ((rim, 2 * rim - 3, rim - 1), rim - 1))
            self.assertTrue(is_simple(mesh) and mesh.sanity_check())

    def test_fans(self) -> None:
        """The vertex of a fan leaves a path, and the corner of its first triangle the other triangles."""
        for count in (1, 2, 3, 40, 1000):
            mesh = fan(count, closed=False)
            self.assertEqual(mesh.remove_vertex(0), Removed(datum=0, moved=count + 1))
            self.assertEqual(counts(mesh), (count + 1, count, 1))
        mesh = fan(3, closed=False)
        self.assertEqual(mesh.remove_vertex(1), Removed(datum=10, moved=4))
        self.assertEqual(counts(mesh), (4, 5, 3))

    def test_small_meshes(self) -> None:
        alone, beside, edge = points(1), triangle(), points(2)
        beside.append_unconnected_vertex(11)
        edge.setup_initial_two_vertices(0, 1)
        for mesh, vertex, datum, left in ((alone, 0, 20, (0, 0, 1)), (beside, 3, 11, (3, 3, 2)), (edge, 1, 21, (1, 0, 1))):
            self.assertEqual(mesh.remove_vertex(vertex), Removed(datum=datum, moved=None))
            self.assertEqual(counts(mesh), left)


class Refused(unittest.TestCase):
    def test_long_faces(self) -> None:
        """A square; and vertices with two edges, between two squares, and between a triangle and a square."""
        for made, vertex in (([[0, 1, 2, 3]], 2), ([[0, 1, 2, 3], [2, 1, 0, 4]], 1), ([[0, 1, 2], [2, 1, 0, 3]], 1)):
            mesh = Dcel.from_faces([10 * it for it in range(1 + max(map(max, made)))], made)
            before = faces(mesh)
            self.assertRaises(NotTriangle, mesh.remove_vertex, vertex)
            self.assertEqual(faces(mesh), before)

    def test_borders(self) -> None:
        cut, short = Dcel.from_triangles([[0, 1, 2], [0, 2, 3], [2, 4, 3]]), points(3)
        self.assertEqual(cut.remove_vertex(1).datum, 1)
        self.assertEqual(counts(cut), (4, 5, 3))
        bow = Dcel.from_triangles([[0, 1, 2], [1, 3, 2], [1, 4, 3]])
        bow.remove_vertex(2)
        self.assertRaises(CutVertex, bow.remove_vertex, 1)
        short.setup_initial_two_vertices(0, 1)
        self.assertRaises(ShortBorder, short.remove_vertex, 1)

    def test_third_neighbors(self) -> None:
        """A wheel of four, and a triangle beside it that joins vertices 1 and 3."""
        mesh = Dcel.from_triangles([[0, 1, 2], [0, 2, 3], [0, 3, 4], [0, 4, 1], [1, 4, 3]])
        near, far = (mesh.get_edge_from_neighbors(0, end) for end in (1, 2))
        assert near is not None and far is not None
        self.assertFalse(mesh.can_collapse_edge(near))
        self.assertRaises(SecondEdge, mesh.collapse_edge, near)
        self.assertEqual(mesh.collapse_edge(far).datum, 0)
        self.assertTrue(is_simple(mesh))

    def test_starts(self) -> None:
        mesh = round_()
        for end in (0, 1, 2):
            half = mesh.get_edge_from_neighbors(end, 3)
            assert half is not None
            self.assertFalse(mesh.can_collapse_edge(half))
            self.assertRaises(NotInside, mesh.collapse_edge, half)


class Walk(unittest.TestCase):
    """Random edits. What may be done, and what it leaves, is known from lists of faces, whose corners are the data: no two are equal."""

    def setUp(self) -> None:
        self.mesh, self.chooser, self.datum = fan(12, closed=True), random.Random(1), 1000

    def outer_turns(self, vertex: int) -> int:
        """How often the outer face comes to a vertex."""
        return sum(self.mesh.face(half) == 0 for half in self.mesh.out_edges(vertex))

    def may_collapse(self, half: int) -> bool:
        """The link condition: the start is inside, and only the two vertices across are neighbors of both ends."""
        mesh, start, end = self.mesh, self.mesh.from_(half), self.mesh.to(half)
        return self.outer_turns(start) == 0 and len(neighbors(mesh, start) & neighbors(mesh, end)) == 2

    def insert(self) -> bool:
        mesh, face, before = self.mesh, self.chooser.randrange(self.mesh.num_faces()), faces(self.mesh)
        self.datum += 1
        if face == 0:
            self.assertRaises(NotTriangle, mesh.insert_vertex, face, self.datum)
            return False
        a, b, c = corners(mesh, face)
        self.assertEqual(mesh.insert_vertex(face, self.datum), mesh.num_vertices() - 1)
        self.assertEqual(faces(mesh), before - {(a, b, c)} | {turned((*side, self.datum)) for side in ((a, b), (b, c), (c, a))})
        return True

    def flip(self) -> bool:
        mesh = self.mesh
        if mesh.num_undirected_edges() == 0:
            return False
        half = 2 * self.chooser.randrange(mesh.num_undirected_edges())
        across = [mesh.to(mesh.next(it)) for it in (half, half ^ 1)]
        if 0 in (mesh.face(half), mesh.face(half ^ 1)) or mesh.get_edge_from_neighbors(*across) is not None:
            return False
        self.assertTrue(mesh.can_flip(half // 2))
        mesh.flip_cw(half // 2)
        return True

    def collapse(self) -> bool:
        mesh, half = self.mesh, self.chooser.randrange(self.mesh.num_directed_edges())
        start, end, before = mesh.vertex_data(mesh.from_(half)), mesh.vertex_data(mesh.to(half)), faces(mesh)
        self.assertEqual(mesh.can_collapse_edge(half), self.may_collapse(half))
        if not self.may_collapse(half):
            self.assertRaises(DcelError, mesh.collapse_edge, half)
            return False
        self.assertEqual(mesh.collapse_edge(half).datum, start)
        self.assertEqual(faces(mesh), collapsed(before, start, end))
        return True

    def why_not(self, vertex: int) -> type[DcelError] | None:
        """Why a vertex can't be removed, if it can't be. All inner faces are triangles."""
        mesh, out = self.mesh, self.mesh.out_edges(vertex)
        if not out:
            return None
        if self.outer_turns(vertex) > 1:
            return CutVertex
        if self.outer_turns(vertex) == 1:
            is_last = mesh.num_undirected_edges() == 1 and mesh.num_vertices() == 2
            return ShortBorder if len(mesh.face_edges(0)) == 2 and not is_last else None
        return None if any(map(self.may_collapse, out)) else SecondEdge

    def left_by(self, vertex: int) -> Faces:
        """The faces that the removal of a vertex leaves. Inside, it goes into the first neighbor that it can go into."""
        mesh, before = self.mesh, faces(self.mesh)
        halves = [half for half in mesh.out_edges(vertex) if self.may_collapse(half)]
        if halves:
            return collapsed(before, mesh.vertex_data(vertex), mesh.vertex_data(mesh.to(halves[0])))
        return {face for face in before if mesh.vertex_data(vertex) not in face}

    def remove(self, vertex: int) -> bool:
        mesh, last = self.mesh, self.mesh.num_vertices() - 1
        datum, before, left, why = mesh.vertex_data(vertex), faces(mesh), self.left_by(vertex), self.why_not(vertex)
        if why is not None:
            self.assertRaises(why, mesh.remove_vertex, vertex)
            self.assertEqual(faces(mesh), before)
            return False
        self.assertEqual(mesh.remove_vertex(vertex), Removed(datum=datum, moved=None if vertex == last else last))
        self.assertEqual(faces(mesh), left)
        return True

    def remove_any(self) -> bool:
        return self.mesh.num_vertices() > 0 and self.remove(self.chooser.randrange(self.mesh.num_vertices()))

    def remove_inner(self) -> bool:
        vertex = self.chooser.randrange(self.mesh.num_vertices())
        return self.outer_turns(vertex) == 0 and self.remove(vertex)

    def walk(self, steps: list[Callable[[], bool]], count: int) -> int:
        """Takes so many of these steps, each of which leaves a simple mesh, and says how many changed it."""
        changes = 0
        for _ in range(count):
            changes += self.chooser.choice(steps)()
            self.assertTrue(is_simple(self.mesh))
        return changes

    def test_inside(self) -> None:
        steps = [self.insert, self.insert, self.flip, self.flip, self.flip, self.collapse, self.collapse, self.remove_inner]
        self.assertGreater(self.walk(steps, 1000), 250)
        self.assertTrue(self.mesh.sanity_check())

    def test_anywhere(self) -> None:
        """The mesh grows, and then it is taken apart."""
        self.walk([self.insert, self.insert, self.flip, self.remove_any], 400)
        self.assertGreater(self.mesh.num_vertices(), 20)
        self.walk([self.remove_any], 10_000)
        self.assertEqual(self.mesh.num_vertices(), 0)
