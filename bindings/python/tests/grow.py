#!/usr/bin/env python3
"""Grows a mesh of 10,000 vertices by edits, flips many of its edges, walks round each vertex, and takes a tenth of the vertices out:
`grow.py FILE`. It writes each edit as a line (docs/LINES.md) into the file, and then to its output what the line `words` shows of the mesh
that is left. The program bindings/c/grow.c does and writes the same."""

from __future__ import annotations

import sys
from collections.abc import Iterator
from typing import TextIO

from dcel import BadRing, Dcel

VERTICES = 10000


def numbers() -> Iterator[int]:
    """Numbers that look random, the same on every machine."""
    state = 1
    while True:
        state = (state * 6364136223846793005 + 1442695040888963407) % 2**64
        yield state >> 33


DRAWN = numbers()


def draw(below: int) -> int:
    return next(DRAWN) % below


def listed(word: str, numbers: object) -> str:
    return " ".join([word, *map(str, numbers)])  # type: ignore[call-overload]


def grow(mesh: Dcel, lines: TextIO) -> None:
    mesh.new_triangle(0, 1, 2)
    lines.write("triangle 0 1 2\n")
    for datum in range(3, VERTICES):
        face = 1 + draw(mesh.num_faces() - 1)
        vertex = mesh.append_unconnected_vertex(datum)
        mesh.insert_into_triangle(vertex, face)
        edge = draw(mesh.num_undirected_edges())
        if mesh.can_flip(edge):
            mesh.flip_cw(edge)
        lines.write(f"append {datum}\ninsert {vertex} {face}\nflip {edge}\n")


def walk_round(mesh: Dcel) -> None:
    """Goes round each vertex, by calls and along the links."""
    links, count = mesh.directed_edges(), 0
    for vertex in range(mesh.num_vertices()):
        walk = mesh.out_edges(vertex)
        for edge, after in zip(walk, [*walk[1:], walk[0]]):
            assert links.origin[edge] == mesh.from_(edge) == vertex and links.prev[edge] ^ 1 == mesh.ccw(edge) == after
        count += len(walk)
    assert count == mesh.num_directed_edges() == len(links)


def take_out(mesh: Dcel, vertex: int, lines: TextIO) -> bool:
    """Takes a vertex out, if it lies inside triangles with no other edge between the same vertices."""
    border = [mesh.next(edge) for edge in reversed(mesh.out_edges(vertex))]
    lines.write(listed(f"isolate {vertex}", border) + "\n")
    try:
        edges, faces, _ = mesh.isolate_vertex_and_fill_hole(border, vertex)
    except BadRing:
        return False
    mesh.cleanup_isolated_vertex(edges, faces)
    mesh.swap_remove_vertex(vertex)
    lines.write(f"{listed('cleanup', edges)} {listed('/', faces)}\nremove {vertex}\n")
    return True


def words(mesh: Dcel) -> Iterator[str]:
    """The half edges round each face, from the least on."""
    for face in range(mesh.num_faces()):
        edges = mesh.face_edges(face)
        least = edges.index(min(edges))
        yield listed(f"F{face}", edges[least:] + edges[:least])


def main() -> None:
    with open(sys.argv[1], "w", encoding="ascii") as lines, Dcel() as mesh:
        grow(mesh, lines)
        walk_round(mesh)
        gone = 0
        while gone < VERTICES // 10:
            gone += take_out(mesh, draw(mesh.num_vertices()), lines)
        assert mesh.num_vertices() == VERTICES - gone
        lines.write("words\n")
        print("\n".join(words(mesh)))


if __name__ == "__main__":
    main()
