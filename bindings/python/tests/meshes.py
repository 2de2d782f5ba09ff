"""Meshes for the tests. docs/MODEL.md draws the triangle with a vertex inside."""

from __future__ import annotations

from dcel import Dcel

BORDER, STRIP = [1, 3, 5], [6, 9, 4]  # of vertices 3 and 1 of `round_`


def points(count: int) -> Dcel:
    """Vertices without an edge, with data from 20 on."""
    mesh = Dcel()
    for vertex in range(count):
        mesh.append_unconnected_vertex(20 + vertex)
    return mesh


def line() -> Dcel:
    """A line from vertex 0 to 1. Vertices 2 and 3 have no edge."""
    mesh = points(4)
    mesh.setup_initial_two_vertices(0, 1)
    return mesh


def triangle() -> Dcel:
    mesh = Dcel()
    mesh.new_triangle(7, 8, 9)
    return mesh


def round_() -> Dcel:
    """A triangle with vertex 3 inside. Vertex 4 has no edge. Its faces are F0 0 2 4, F1 1 6 11, F2 5 8 7, F3 3 10 9."""
    mesh = triangle()
    mesh.insert_into_triangle(mesh.append_unconnected_vertex(10), 1)
    mesh.append_unconnected_vertex(11)
    return mesh


def quad() -> Dcel:
    """The same, with vertex 4 in the middle of edge 0, from outside: face 1 has four half edges. Vertex 5 has no edge."""
    mesh = round_()
    mesh.split_half_edge(0, 4)
    mesh.append_unconnected_vertex(12)
    return mesh


def path() -> Dcel:
    """A line from vertex 0 by 1 to 2. Vertex 3 has no edge."""
    mesh = line()
    mesh.extend_line(1, 2)
    return mesh


def closed_off() -> Dcel:
    """A triangle with a second one from outside, beside edges 0 and 1: the outer face has two half edges."""
    mesh = triangle()
    mesh.create_single_face_between_edge_and_next(0)
    return mesh


def flipped() -> Dcel:
    """`round_` with a spoke flipped: vertex 3 has two edges, and two edges join two of the corners."""
    mesh = round_()
    mesh.flip_cw(3)
    return mesh


def crowded() -> Dcel:
    """`round_` with vertex 4 in the triangle of half edges 1, 6 and 11, so that vertex 3 has four edges."""
    mesh = round_()
    mesh.insert_into_triangle(4, 1)
    return mesh


def opened() -> Dcel:
    """A removal of vertex 3 is open, with edges 3, 4, 5 and faces 1, 2, 3."""
    mesh = round_()
    mesh.isolate_vertex_and_fill_hole(BORDER, 3)
    return mesh


def cleaned() -> Dcel:
    mesh = opened()
    mesh.cleanup_isolated_vertex([3, 4, 5], [1, 2, 3])
    return mesh


def state(mesh: Dcel) -> tuple[object, ...]:
    """All that can be read of a mesh."""
    vertices, halves, edges, faces = (
        range(count()) for count in (mesh.num_vertices, mesh.num_directed_edges, mesh.num_undirected_edges, mesh.num_faces)
    )
    return (
        mesh.directed_edges().flat,
        [(mesh.vertex_data(v), mesh.out_edge(v), mesh.is_live_vertex(v)) for v in vertices],
        [mesh.directed_edge_data(h) for h in halves],
        [mesh.undirected_edge_data(u) for u in edges],
        [(mesh.face_data(f), mesh.adjacent_edge(f), mesh.is_live_face(f)) for f in faces],
        mesh.removal_state(),
    )
