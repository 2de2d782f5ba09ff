#!/usr/bin/env python3
"""Solves Poisson's equation on a lake with islands by linear finite elements: `poisson.py [--picture FILE] [LARGEST AREA ..]`. It wants NumPy.

The outline is refined first: no angle is below 25 degrees, and no triangle larger than the area that is given. On the shores the solution
is known, and inside its Laplacian. The error, as the root of its mean square, falls as the area does. The picture, as SVG, shows the first
solution: a triangle is blue where it is low, and red where it is high."""

from __future__ import annotations

import sys
from pathlib import Path
from typing import Any

import numpy as np

from dcel import ConstrainedDelaunay, Grid

AREAS = [0.4, 0.1, 0.025]
WIDTH = 600
COLORS = np.array([[43, 108, 176], [255, 255, 255], [192, 86, 33]])


def shore(x: float, y: float, radius: float, count: int, bays: int) -> Any:
    """So many points around a middle, with bays."""
    turn = np.arange(count) * 2 * np.pi / count
    far = radius * (1 + 0.15 * np.cos(bays * turn))
    return np.stack([x + far * np.cos(turn), y + far * np.sin(turn)], 1)


def lake(max_area: float) -> tuple[Any, Any, Any]:
    """A lake with two islands, refined: its points, the corners of its triangles, and the points on shores."""
    rings = [shore(0, 0, 8, 72, 5), shore(-3, 1, 1.5, 24, 3), shore(3, -1, 2, 30, 4)]
    points = np.concatenate(rings)
    ends = np.cumsum([len(it) for it in rings])
    rows = [np.arange(end - len(ring), end) for ring, end in zip(rings, ends, strict=True)]
    sides = np.concatenate([np.stack([it, np.roll(it, -1)], 1) for it in rows])
    made = ConstrainedDelaunay(Grid.fit(points, free_bits=12).round(points), sides)
    if not made.refine(25, max_area).done:
        raise SystemExit(f"no triangles have at least 25 degrees and at most the area {max_area}")
    return made.points, made.simplices[made.inside()], np.unique(made.constraints)


def known(points: Any) -> Any:
    """The solution."""
    return np.sin(points[..., 0] / 2) * np.cos(points[..., 1] / 3)


def source(points: Any) -> Any:
    """Its Laplacian, with the sign turned."""
    return (1 / 4 + 1 / 9) * known(points)


def solved(points: Any, triangles: Any, shores: Any) -> Any:
    """The values at the points, by the method of conjugate gradients."""
    corners = points[triangles]
    across = np.roll(corners, -1, 1) - np.roll(corners, 1, 1)
    area = (across[:, 0, 0] * across[:, 1, 1] - across[:, 0, 1] * across[:, 1, 0]) / 2
    stiffness = across @ across.transpose(0, 2, 1) / (4 * area)[:, None, None]

    def summed(shares: Any) -> Any:
        return np.bincount(triangles.ravel(), shares.ravel(), len(points))

    def applied(values: Any) -> Any:
        return np.where(is_free, summed((stiffness @ values[triangles][..., None])[..., 0]), 0)

    is_free = np.ones(len(points), bool)
    is_free[shores] = False
    values = np.where(is_free, 0, known(points))
    load = summed(np.repeat((source(corners.mean(1)) * area / 3)[:, None], 3, 1))
    rest = np.where(is_free, load - summed((stiffness @ values[triangles][..., None])[..., 0]), 0)
    way, square = rest.copy(), rest @ rest
    while square > 1e-20:
        changed = applied(way)
        step = square / (way @ changed)
        values, rest = values + step * way, rest - step * changed
        square, before = rest @ rest, square
        way = rest + square / before * way
    return values


def drawn(points: Any, triangles: Any, values: Any) -> str:
    """A picture of values at the points."""
    left, top = points[:, 0].min(), points[:, 1].max()
    places = (points - (left, top)) * (1, -1) * (WIDTH / np.ptp(points[:, 0]))
    means = values[triangles].mean(1)
    parts = (means - means.min()) / np.ptp(means) * (len(COLORS) - 1)
    colors = np.stack([np.interp(parts, range(len(COLORS)), it) for it in COLORS.T], 1).round().astype(int)
    rows = [f'<path fill="#{bytes(color).hex()}" d="M{"L".join(f"{x:.1f} {y:.1f}" for x, y in row)}z"/>' for color, row in zip(colors.tolist(), places[triangles].tolist(), strict=True)]
    head = f'<svg xmlns="http://www.w3.org/2000/svg" viewBox="-1 -1 {WIDTH + 2} {places[:, 1].max() + 2:.1f}" stroke="#667" stroke-width=".3">'
    return "\n".join([head, *rows, "</svg>", ""])


def main() -> None:
    picture, given = (sys.argv[2], sys.argv[3:]) if sys.argv[1:2] == ["--picture"] else (None, sys.argv[1:])
    print("largest area   points  triangles          error")
    for max_area in map(float, given or AREAS):
        points, triangles, shores = lake(max_area)
        values = solved(points, triangles, shores)
        error = np.sqrt(np.mean((values - known(points)) ** 2))
        print(f"{max_area:12g} {len(points):8d} {len(triangles):10d} {error:14.3e}")
        if picture:
            Path(picture).write_text(drawn(points, triangles, values))
            picture = None


if __name__ == "__main__":
    main()
