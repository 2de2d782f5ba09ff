#!/usr/bin/env python3
"""Measures triangulations as speed_points.c does: `speed_points.py POINTS PLACES`, files of pairs of 64-bit numbers, x before y. With the word
`scipy` behind them, scipy's. With `mesh` it measures edits of a mesh instead: so many of a list by one call, and edges that are collapsed."""

from __future__ import annotations

import sys
from collections.abc import Callable
from time import perf_counter_ns

import numpy

EDITS, COLLAPSES = 100_000, 2_000


def timed(name: str, run: Callable[[], int]) -> None:
    start = perf_counter_ns()
    told = run()
    print(name, perf_counter_ns() - start, told)


def triangulations(kind: type, given: list[str]) -> None:
    points, places = (numpy.fromfile(name, numpy.int64).reshape(-1, 2) for name in given)
    made = []

    def triangulate() -> int:
        made.append(kind(points))
        return len(made[0].simplices)

    timed("triangulate", triangulate)
    timed("locate", lambda: int((made[0].find_simplex(places) >= 0).sum()))


def mesh() -> None:
    from dcel import Call, Dcel

    edits = numpy.zeros((2 * EDITS + 1, 4), numpy.uint64)
    edits[0] = Call.NEW_TRIANGLE, 0, 1, 2
    edits[1::2, 0], edits[1::2, 1] = Call.APPEND_UNCONNECTED_VERTEX, numpy.arange(3, EDITS + 3)
    edits[2::2, 0], edits[2::2, 1] = Call.INSERT_INTO_TRIANGLE, numpy.arange(3, EDITS + 3)
    drawn = numpy.random.default_rng(1).random(EDITS)
    edits[2::2, 2] = 1 + (drawn * (1 + 2 * numpy.arange(EDITS))).astype(numpy.uint64)
    made = Dcel()
    timed("edits", lambda: int((made.apply_all(edits)[:, 0] == 0).sum()))

    def collapse() -> int:
        done = 0
        for _ in range(COLLAPSES):
            spoke = made.out_edge(made.num_vertices() - 1)
            if spoke is not None and made.can_collapse_edge(spoke):
                made.collapse_edge(spoke)
                done += 1
        return done

    timed("collapse", collapse)


def main() -> None:
    match sys.argv[1:]:
        case ["mesh"]:
            mesh()
        case [points, places, "scipy"]:
            from scipy.spatial import Delaunay as Other

            triangulations(Other, [points, places])
        case [points, places]:
            from dcel import Delaunay

            triangulations(Delaunay, [points, places])
        case _:
            sys.exit(__doc__)


if __name__ == "__main__":
    main()
