#!/usr/bin/env python3
"""Measures the calls as dcel_speed measures the mesh (docs/SPEED.md): `speed.py insert,walk,flip,remove 1000,100000`. It does the same work
and prints the same lines, but for the time: workload, size, nanoseconds for an operation, checksum, operations. So `PROGRAM=` this file
`tools/speed insert,walk,flip,remove` compares them; `full` changes nothing, and `checksums` leaves the times out."""

from __future__ import annotations

import sys
from collections.abc import Callable, Iterator
from time import perf_counter_ns

from dcel import BadRing, Dcel

ROUNDS, LONG_ENOUGH = 3, 100_000_000  # no fewer rounds than these, which take so many nanoseconds together
BITS = 2**64


def random(own: int) -> Callable[[int], int]:
    """Numbers below a count, the same on every machine; each workload has a seed of its own."""
    state = 20240607 + own

    def below(count: int) -> int:
        nonlocal state
        state = (state * 6364136223846793005 + 1442695040888963407) % BITS
        return (state >> 33) * count >> 31

    return below


def triangulated(size: int) -> Dcel:
    """A triangle with so many vertices in it."""
    mesh, below = Dcel(), random(0)
    mesh.new_triangle(0, 1, 2)
    for datum in range(3, 3 + size):
        mesh.insert_into_triangle(mesh.append_unconnected_vertex(datum), 1 + below(mesh.num_faces() - 1))
    return mesh


def mixed(state: int, number: int) -> int:
    return (state ^ number) * 0x100000001B3 % BITS


def digest(mesh: Dcel, *more: int) -> int:
    """Tells two meshes apart, and what was answered besides."""
    state = 0xCBF29CE484222325
    for number in (mesh.num_vertices(), mesh.num_undirected_edges(), mesh.num_faces(), *mesh.directed_edges().flat):
        state = mixed(state, number)
    for number in more:
        state = mixed(state, number)
        state = (state << 17 | state >> 47) % BITS
    return state


Run = tuple[int, int, int]  # nanoseconds, checksum, operations


def insert(size: int) -> Iterator[Run]:
    while True:
        start = perf_counter_ns()
        mesh = triangulated(size)
        yield perf_counter_ns() - start, digest(mesh), size


def walk(size: int) -> Iterator[Run]:
    """Goes round each vertex along the links, and sums where its half edges lead. Taking the links out is timed too."""
    mesh = triangulated(size)
    while True:
        start = perf_counter_ns()
        links, total = mesh.directed_edges(), 0
        prev, origin = links.prev, links.origin
        for vertex in range(mesh.num_vertices()):
            first = edge = mesh.out_edge(vertex)
            while True:
                total += origin[edge ^ 1]
                edge = prev[edge] ^ 1
                if edge == first:
                    break
        yield perf_counter_ns() - start, total, mesh.num_directed_edges()


def flip(size: int) -> Iterator[Run]:
    built = triangulated(size)
    count = built.num_undirected_edges()
    while True:
        mesh, below, flips = built.copy(), random(3), 0
        start = perf_counter_ns()
        for _ in range(size):
            edge = below(count)
            if mesh.can_flip(edge):
                mesh.flip_cw(edge)
                flips += 1
        yield perf_counter_ns() - start, digest(mesh, flips), size


def take_out(mesh: Dcel, vertex: int) -> int | None:
    """Takes a vertex out, and returns its datum, or None if it doesn't lie so that it can be."""
    walk = mesh.out_edges(vertex)
    least = walk.index(min(walk))
    border = [mesh.next(edge) for edge in reversed(walk[least:] + walk[:least])]
    try:
        edges, faces, _ = mesh.isolate_vertex_and_fill_hole(border, vertex)
    except BadRing:
        return None
    mesh.cleanup_isolated_vertex(edges, faces)
    return mesh.swap_remove_vertex(vertex).datum


def planned(mesh: Dcel) -> list[int]:
    """Vertices in an order in which they can be taken out, each by the number that it has by then."""
    inside, below, plan = list(range(3, mesh.num_vertices())), random(6), []
    for place in range(len(inside) - 1, 0, -1):
        other = below(place + 1)
        inside[place], inside[other] = inside[other], inside[place]
    numbers = list(range(mesh.num_vertices()))
    for first_number in inside:
        vertex = numbers[first_number]
        if take_out(mesh, vertex) is not None:
            plan.append(vertex)
            if vertex < mesh.num_vertices():
                numbers[mesh.vertex_data(vertex)] = vertex
    return plan


def remove(size: int) -> Iterator[Run]:
    built = triangulated(size)
    plan = planned(built.copy())
    while True:
        mesh, total = built.copy(), 0
        start = perf_counter_ns()
        for vertex in plan:
            total = (total * 31 + (take_out(mesh, vertex) or 0)) % BITS
        yield perf_counter_ns() - start, digest(mesh, total), len(plan)


WORKLOADS = {it.__name__: it for it in (insert, walk, flip, remove)}


def best(runs: Iterator[Run]) -> Run:
    """The fastest of some rounds."""
    found: list[Run] = []
    while len(found) < ROUNDS or sum(time for time, _, _ in found) < LONG_ENOUGH:
        found.append(next(runs))
    return min(found)


def main() -> None:
    workloads, sizes = (word.split(",") for word in sys.argv[1:3])
    for name in workloads:
        for size in sizes:
            runs, is_timed = WORKLOADS[name](int(size)), "checksums" not in sys.argv
            time, checksum, operations = best(runs) if is_timed else next(runs)
            shown = [f"{time / max(operations, 1):.1f}"] if is_timed else []
            print(" ".join([name, size, *shown, str(checksum), str(operations)]))


if __name__ == "__main__":
    main()
