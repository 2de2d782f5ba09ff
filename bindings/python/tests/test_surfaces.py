"""Faces of surfaces that everybody knows, and links of small meshes: those that become meshes, and what is wrong with the others."""

from __future__ import annotations

import unittest

from dcel import Dcel, Fault, FaultKind, Faulty

Rows = list[list[int]]

TWO_TRIANGLES = [[0, 1, 2], [2, 1, 3]]
# Faces over so many vertices, and the half edge after each one of the mesh.
MADE: list[tuple[Rows, int, list[int]]] = [
    ([[0, 1, 2]], 3, [2, 5, 4, 1, 0, 3]),
    # With a vertex in no face.
    ([[0, 1, 2]], 4, [2, 5, 4, 1, 0, 3]),
    (TWO_TRIANGLES, 4, [2, 5, 4, 6, 0, 9, 8, 1, 3, 7]),
    # A tetrahedron, without its last face.
    ([[0, 1, 3], [1, 2, 3], [2, 0, 3]], 4, [2, 11, 4, 6, 0, 9, 8, 1, 3, 10, 5, 7]),
    # A square.
    ([[0, 1, 2, 3]], 4, [2, 7, 4, 1, 6, 3, 0, 5]),
    ([], 2, []),
]

TETRAHEDRON = [[0, 2, 1], [0, 1, 3], [1, 2, 3], [2, 0, 3]]
CUBE = [[0, 3, 2, 1], [4, 5, 6, 7], [0, 1, 5, 4], [1, 2, 6, 5], [2, 3, 7, 6], [3, 0, 4, 7]]
OCTAHEDRON = [[0, 2, 4], [2, 1, 4], [1, 3, 4], [3, 0, 4], [2, 0, 5], [1, 2, 5], [3, 1, 5], [0, 3, 5]]
TORUS = [[it, (it + 1) % 7, (it + 3) % 7] for it in range(7)] + [[it, (it + 3) % 7, (it + 2) % 7] for it in range(7)]


def fault(kind: FaultKind, number: int = 0, other: int = 0, start: int = 0, end: int = 0) -> Fault:
    return Fault(kind, number, other, start, end)


# Faces over so many vertices, and what is wrong with them.
REFUSED: list[tuple[Rows, int, Fault]] = [
    ([[0, 1, 2], [2, 1]], 3, fault(FaultKind.FEW_CORNERS, 1)),
    ([[0, 1, 3]], 3, fault(FaultKind.NO_VERTEX, 0, 0, 3)),
    ([[0, 1, 1, 2]], 3, fault(FaultKind.SIDE_AT_ONE, 0, 0, 1, 1)),
    ([[0, 1, 2], [1, 0, 3], [0, 1, 4]], 5, fault(FaultKind.SIDE_TWICE, 0, 2, 0, 1)),
    ([[0, 1, 2], [0, 3, 4]], 5, fault(FaultKind.BORDER_TWICE, 0)),
    # A sphere, and two.
    ([[0, 1, 2], [0, 2, 1]], 3, fault(FaultKind.UNUSED_FACE)),
    ([[0, 1, 2], [0, 2, 1], [3, 4, 5], [3, 5, 4]], 6, fault(FaultKind.UNUSED_FACE)),
    # Two components; a triangle and a sphere.
    ([[0, 1, 2], [3, 4, 5]], 6, fault(FaultKind.FACE_IN_PARTS)),
    ([[0, 1, 2], [3, 4, 5], [3, 5, 4]], 6, fault(FaultKind.NOT_CONNECTED, 6)),
    # Moebius's strip: three quadrangles round, the last of which is turned over.
    ([[0, 1, 4, 3], [1, 2, 5, 4], [2, 3, 0, 5]], 6, fault(FaultKind.SIDE_TWICE, 0, 2, 3, 0)),
    # An annulus.
    ([[0, 1, 4, 3], [1, 2, 5, 4], [2, 0, 3, 5]], 6, fault(FaultKind.FACE_IN_PARTS)),
    # Two surfaces at one vertex.
    ([[0, 1, 2], [1, 0, 3], [2, 1, 3], [0, 2, 3], [0, 4, 5], [4, 0, 6], [5, 4, 6]], 7, fault(FaultKind.VERTEX_IN_PARTS, 0)),
    # A torus: seven vertices, of which each two are neighbors. One of the fourteen triangles is left out.
    (TORUS[:13], 7, fault(FaultKind.NOT_SPHERE, 1)),
]

# The links of a triangle: the half edge after each, where each starts, and its face.
NEXT, ORIGIN, FACE = [2, 5, 4, 1, 0, 3], [0, 1, 1, 2, 2, 0], [0, 1, 0, 1, 0, 1]
TWICE = [2, 5, 4, 1, 0, 3, 8, 11, 10, 7, 6, 9]
# Links over so many vertices and faces, and the half edge before each one, or what is wrong with them.
LINKS: list[tuple[list[int], list[int], list[int], int, int, list[int] | Fault]] = [
    ([1, 0], [0, 1], [0, 0], 2, 1, [1, 0]),
    ([], [], [], 5, 1, []),
    (NEXT, ORIGIN, FACE, 3, 2, [4, 3, 0, 5, 2, 1]),
    (NEXT, ORIGIN, FACE, 4, 2, [4, 3, 0, 5, 2, 1]),
    ([0], [0], [0], 1, 1, fault(FaultKind.LENGTHS)),
    ([], [], [], 0, 0, fault(FaultKind.NO_FACE)),
    ([], [], [], 0, 3, fault(FaultKind.MORE_FACES)),
    ([], [], [], 0, 2, fault(FaultKind.UNUSED_FACE, 1)),
    ([2, 5, 4, 1, 0, 6], ORIGIN, FACE, 3, 2, fault(FaultKind.NEXT_OUT_OF_RANGE, 5)),
    (NEXT, [0, 1, 1, 2, 2, 3], FACE, 3, 2, fault(FaultKind.ORIGIN_OUT_OF_RANGE, 5)),
    (NEXT, ORIGIN, [0, 1, 0, 1, 2, 1], 3, 2, fault(FaultKind.FACE_OUT_OF_RANGE, 4)),
    ([2, 5, 4, 1, 0, 1], ORIGIN, FACE, 3, 2, fault(FaultKind.TWO_LEAD_TO, 1)),
    (NEXT, [0] * 6, FACE, 3, 2, fault(FaultKind.ONE_END, 0)),
    (NEXT, [0, 2, 1, 2, 2, 0], FACE, 3, 2, fault(FaultKind.APART, 0)),
    (NEXT, ORIGIN, [0, 1, 0, 1, 1, 1], 3, 2, fault(FaultKind.LEAVES_FACE, 2)),
    (NEXT, ORIGIN, FACE, 3, 3, fault(FaultKind.UNUSED_FACE, 2)),
    (TWICE, [0, 1, 1, 2, 2, 0, 3, 4, 4, 5, 5, 3], [0, 1, 0, 1, 0, 1, 2, 3, 2, 3, 2, 3], 6, 4, fault(FaultKind.NOT_CONNECTED, 6)),
    (TWICE, [0, 1, 1, 2, 2, 0, 3, 4, 4, 5, 5, 3], [0, 1, 0, 1, 0, 1, 0, 2, 0, 2, 0, 2], 6, 3, fault(FaultKind.FACE_IN_PARTS, 0)),
    (TWICE, [0, 1, 1, 2, 2, 0, 0, 3, 3, 4, 4, 0], [0, 1, 0, 1, 0, 1, 2, 3, 2, 3, 2, 3], 5, 4, fault(FaultKind.VERTEX_IN_PARTS, 0)),
    (
        [10, 13, 8, 15, 14, 9, 12, 11, 7, 0, 5, 2, 3, 4, 1, 6],
        [0, 1, 1, 0, 2, 3, 3, 2, 0, 2, 1, 3, 2, 0, 3, 1],
        [0, 2, 1, 3, 2, 0, 3, 1, 1, 0, 0, 1, 3, 2, 2, 3],
        4,
        4,
        fault(FaultKind.NOT_SPHERE, 1),
    ),
]


def turned(row: list[int]) -> list[int]:
    """The corners of a face, from the least one on."""
    first = row.index(min(row))
    return row[first:] + row[:first]


class Surfaces(unittest.TestCase):
    def fault_of(self, faces: Rows, vertices: int) -> Fault:
        with self.assertRaises(Faulty) as raised:
            Dcel.from_faces(range(vertices), faces)
        return raised.exception.fault

    def test_made(self) -> None:
        for faces, vertices, wanted in MADE:
            with self.subTest(faces=faces):
                mesh = Dcel.from_faces(range(vertices), faces)
                self.assertEqual((list(mesh.directed_edges().next), mesh.num_vertices(), mesh.num_faces()), (wanted, vertices, len(faces) + 1))
                self.assertEqual([mesh.vertex_data(it) for it in range(vertices)], list(range(vertices)))

    def test_triangles(self) -> None:
        mesh, other = Dcel.from_triangles(TWO_TRIANGLES), Dcel.from_faces(range(4), TWO_TRIANGLES)
        self.assertEqual(mesh.directed_edges().flat, other.directed_edges().flat)
        with self.assertRaises(Faulty) as raised:
            Dcel.from_triangles([[2, 1, 1]], 3)
        self.assertEqual(raised.exception.fault, fault(FaultKind.SIDE_AT_ONE, 0, 0, 1, 1))

    def test_refused(self) -> None:
        for faces, vertices, wanted in REFUSED:
            with self.subTest(faces=faces):
                self.assertEqual(self.fault_of(faces, vertices), wanted)

    def test_closed(self) -> None:
        """A closed surface is refused, and without any one of its faces it is a mesh, whose outer face is that one."""
        for faces in (TETRAHEDRON, CUBE, OCTAHEDRON, [[0, 1, 2], [0, 2, 1]]):
            vertices = 1 + max(map(max, faces))
            self.assertEqual(self.fault_of(faces, vertices), fault(FaultKind.UNUSED_FACE))
            for place, outer in enumerate(faces):
                left = faces[:place] + faces[place + 1 :]
                mesh = Dcel.from_faces(range(vertices), left)
                found = [[mesh.from_(half) for half in mesh.face_edges(face)] for face in range(mesh.num_faces())]
                self.assertEqual([turned(row) for row in found], [turned(row) for row in [outer, *left]])

    def test_links(self) -> None:
        for after, origin, face, vertices, faces, wanted in LINKS:
            flat = [link for links in zip(after, [0] * len(after), origin, face, strict=True) for link in links]
            with self.subTest(next=after, origin=origin, face=face):
                if isinstance(wanted, list):
                    mesh = Dcel.from_links(flat, range(vertices), range(faces))
                    self.assertEqual((list(mesh.directed_edges().prev), mesh.num_vertices()), (wanted, vertices))
                else:
                    with self.assertRaises(Faulty) as raised:
                        Dcel.from_links(flat, range(vertices), range(faces))
                    self.assertEqual(raised.exception.fault, wanted)

    def test_large(self) -> None:
        """A double pyramid of 1,200 triangles, without one of them."""
        sides = [side for it in range(600) for side in ([0, 2 + (it - 1) % 600, 2 + it], [1, 2 + it, 2 + (it - 1) % 600])]
        mesh = Dcel.from_triangles(sides[:700] + sides[701:], 602)
        self.assertEqual((mesh.num_undirected_edges(), mesh.num_faces(), len(mesh.face_edges(0))), (1800, 1200, 3))
        self.assertEqual([len(mesh.out_edges(it)) for it in range(602)], [600, 600] + [4] * 600)
