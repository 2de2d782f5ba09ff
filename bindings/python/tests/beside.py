#!/usr/bin/env python3
"""Compares what Python and C list of triangulations with what the proved program writes of the same points and segments: `beside.py [SETS]`,
by default 200. PROGRAM names the program, by default crates/delaunay/out/delaunay."""

from __future__ import annotations

import sys
from pathlib import Path

from dcel import ConstrainedDelaunay, Delaunay

sys.path.append(str(Path(__file__).resolve().parents[3] / "tools/lib"))
from delaunay import beside, laid, library  # noqa: E402

Point = tuple[int, int]


def in_python(made: Delaunay | ConstrainedDelaunay) -> laid.Lists:
    """What Python lists."""
    return laid.Lists(*(getattr(made, name).tolist() for name in ("simplices", "neighbors", "edges", "hull")), [], [])


def in_c(points: list[Point], segments: list[tuple[int, int]]) -> laid.Lists:
    """What C lists, by the places of points."""
    with library.Kept(points, segments) as kept:
        lists, row_of = kept.told().lists, {vertex: row for row, vertex in enumerate(kept.vertices)}
    triangles, edges = ([tuple(row_of[it] for it in row) for row in rows] for rows in (lists.triangles, lists.edges))
    return laid.Lists(triangles, lists.neighbors, edges, [row_of[it] for it in lists.hull], [], [])


def main() -> int:
    sets = int(sys.argv[1]) if len(sys.argv) > 1 else 200
    faults = joined = 0
    for seed in range(sets):
        points, segments = beside.some_set(seed)
        joined += len(segments)
        found = {"ConstrainedDelaunay": in_python(ConstrainedDelaunay(points, segments)), "C": in_c(points, segments)}
        if not segments:
            found["Delaunay"] = in_python(Delaunay(points))
        for name, lists in found.items():
            for fault in [*beside.differences(points, segments, lists), *(beside.unfound(points, segments, lists) if seed == 0 else [])]:
                print(f"set {seed}, {name}: {fault}")
                faults += 1
    print(f"beside delaunay: {sets} sets of points with {joined} segments, {faults} faults")
    return 1 if faults or not joined else 0


if __name__ == "__main__":
    sys.exit(main())
