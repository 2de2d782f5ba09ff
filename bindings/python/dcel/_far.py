"""Queries of points that are beyond the range of the library: by walks over its lists, in whole numbers of any size."""

from __future__ import annotations

from array import array
from itertools import chain
from typing import TYPE_CHECKING

from ._declared import NO_LINK, Place

if TYPE_CHECKING:
    from ._triangulation import Triangulation

Steps = tuple[int, int]


def nearest_row(made: Triangulation, point: Steps, row: int) -> int:
    """The row of the point that is nearest, by a walk from any row: without constraints, or on a line, an edge joins every other point to a
    nearer one."""
    indptr, indices = made.vertex_neighbor_vertices
    while True:
        around = indices[indptr[row] : indptr[row + 1]].tolist()
        near = min(row, *around, key=lambda it: apart(made._steps(it), point)) if around else row
        if near == row:
            return row
        row = near


def apart(one: Steps, other: Steps) -> int:
    """The square of the distance."""
    return (one[0] - other[0]) ** 2 + (one[1] - other[1]) ** 2


def far_position(made: Triangulation, point: Steps, near: array[int]) -> array[int]:
    """Where a point beyond the grid is, as the library says it, if it says this of the nearest place in range."""
    kind, number = near
    for half in chain([number] if kind == Place.OUTSIDE else [], made._border):
        if is_left(made, half, point):
            return array("I", [Place.OUTSIDE, half])
    if not len(made._border):
        return array("I", [Place.NOWHERE, NO_LINK])
    end = nearest_row(made, point, made._rows[number if kind == Place.BEYOND_LINE else 0])
    return array("I", [Place.BEYOND_LINE, made._vertices[end]])


def is_left(made: Triangulation, half: int, point: Steps) -> bool:
    """Whether a point is strictly on the left of a half edge."""
    edge, end = divmod(half, 2)
    (ax, ay), (bx, by) = (made._steps(made.edges[edge, it]) for it in (end, 1 - end))
    return (bx - ax) * (point[1] - ay) > (by - ay) * (point[0] - ax)
