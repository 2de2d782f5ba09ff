#!/usr/bin/env python3
"""Draws a mesh: `picture.py > mesh.svg`. It puts vertices into a triangle, flips edges, and takes a vertex out.

A mesh has no coordinates. These come from the mesh: its hull lies on a circle, and each other vertex in the middle of its neighbors."""

from __future__ import annotations

import math
import random

from dcel import Dcel

SIZE = 400


def grown(count: int, draw: random.Random) -> Dcel:
    """A triangle with so many vertices in it."""
    mesh = Dcel()
    mesh.new_triangle(0, 1, 2)
    for datum in range(3, 3 + count):
        mesh.insert_into_triangle(mesh.append_unconnected_vertex(datum), draw.randrange(1, mesh.num_faces()))
    return mesh


def flip_some(mesh: Dcel, draw: random.Random) -> None:
    """Flips edges off the hull, but none that would join two neighbors once more."""
    for edge in draw.sample(range(mesh.num_undirected_edges()), mesh.num_undirected_edges() // 2):
        corners = [mesh.to(mesh.next(half)) for half in (2 * edge, 2 * edge + 1)]
        off_hull = all(mesh.face(half) != 0 for half in (2 * edge, 2 * edge + 1))
        if off_hull and mesh.can_flip(edge) and mesh.get_edge_from_neighbors(*corners) is None:
            mesh.flip_cw(edge)


def take_out(mesh: Dcel, vertex: int) -> None:
    """Takes out a vertex that lies inside triangles, and fills the hole with triangles."""
    border = [mesh.next(edge) for edge in reversed(mesh.out_edges(vertex))]
    edges, faces, _ = mesh.isolate_vertex_and_fill_hole(border, vertex)
    mesh.cleanup_isolated_vertex(edges, faces)
    mesh.swap_remove_vertex(vertex)


def places(mesh: Dcel, rounds: int = 500) -> list[complex]:
    """A place for each vertex."""
    links = mesh.directed_edges()
    hull = [links.origin[edge] for edge in mesh.face_edges(0)]
    turn = 2j * math.pi / len(hull)
    found = [0j] * mesh.num_vertices()
    for number, vertex in enumerate(hull):
        found[vertex] = math.e ** (number * turn)
    inside = set(range(len(found))) - set(hull)
    neighbors = {vertex: [links.origin[edge ^ 1] for edge in mesh.out_edges(vertex)] for vertex in inside}
    for _ in range(rounds):
        for vertex, others in neighbors.items():
            found[vertex] = sum(found[it] for it in others) / len(others)
    return [(place + 1 + 1j) * SIZE / 2 for place in found]


def svg(mesh: Dcel) -> str:
    at = places(mesh)
    lines = [f'<svg xmlns="http://www.w3.org/2000/svg" viewBox="-10 -10 {SIZE + 20} {SIZE + 20}" stroke="black">']
    for edge in range(mesh.num_undirected_edges()):
        one, two = at[mesh.from_(2 * edge)], at[mesh.to(2 * edge)]
        lines.append(f'<line x1="{one.real:.1f}" y1="{one.imag:.1f}" x2="{two.real:.1f}" y2="{two.imag:.1f}"/>')
    for vertex, place in enumerate(at):
        lines.append(f'<circle cx="{place.real:.1f}" cy="{place.imag:.1f}" r="4"><title>{vertex}</title></circle>')
    return "\n".join([*lines, "</svg>"])


def main() -> None:
    draw = random.Random(1)
    with grown(20, draw) as mesh:
        flip_some(mesh, draw)
        take_out(mesh, 3)
        print(svg(mesh))


if __name__ == "__main__":
    main()
