"""A Delaunay triangulation of points, under scipy's names."""

from __future__ import annotations

from collections.abc import Iterable
from ctypes import c_uint64
from typing import Any, Literal

from . import _declared
from ._arrays import start_of, zeros
from ._calls import calls_of
from ._far import nearest_row
from ._grid import Grid, clipped, floats, rounded
from ._tables import by_table
from ._triangulation import Triangulation, in_shape
from ._turns import in_turn


class Delaunay(Triangulation):
    """The Delaunay triangulation of points in the plane, exactly: of the points as they are on its grid.

    Points are named by their rows in `points`, also after `insert` and `remove`; equal ones are one, under the least of their rows.
    Triangles are named by their rows in `simplices`, and a change gives them others.

    `points` is an array of shape (n, 2) of real numbers, in any order, or an iterable of pairs. Raises ValueError or TypeError, which
    names the row, for nan, infinities, masked ones and what is no pair of numbers, OutOfRange for whole numbers beyond 2**53, and
    OutOfMemory. Other numbers than floats are rounded to such first.

    `grid` says to which multiples coordinates are rounded. "fit" is `Grid.fit`, the finest one: a coarser one while there are points out
    of its range. A coordinate moves by 2**-53 of the greatest one at most, and whole numbers don't while all are within 2**53. With
    "exact" Inexact is raised if a point would move. A `Grid` is kept: a point beyond 2**53 steps raises OutOfRange, whose `row` is that
    point's.

    Arrays are NumPy's if that is installed, and otherwise memoryviews of the same shape; points that are asked for are then pairs. Those
    of attributes can't be written to. Threads may share a triangulation: they take turns. A change that an interrupt ends is made wholly
    or not at all, but that `remove` may have removed some. A signal handler or a finalizer that comes into the midst of one gets Busy.

    >>> made = Delaunay([(0, 0), (4, 0), (0, 3), (5, 5), (2, 2)])
    >>> made
    <Delaunay: 5 points, 4 triangles>
    >>> sorted(map(sorted, made.simplices.tolist()))
    [[0, 1, 4], [0, 2, 4], [1, 3, 4], [2, 3, 4]]
    >>> made.nearest([(4.5, 0.25), (2, 2.5)]).tolist()
    [1, 4]
    """

    _Kept = _declared.Triangulation
    _calls = calls_of("triangulation")
    _free = _calls.free

    def __init__(self, points: Iterable[Any] = (), *, grid: Grid | Literal["fit", "exact"] = "fit") -> None:
        self._start(grid)
        self.insert(points)

    @in_turn
    def nearest(self, xi: Any) -> Any:
        """The row of the point that is nearest to each of some points, (..), of 32 bits, for points (.., 2): -1 if there is none. Of
        several that are equally near it is any.

        Points are rounded to the grid. Raises what `find_simplex` does."""
        flat = floats(xi, "xi", True)
        steps, far = clipped(flat, self._power)
        count = len(steps) // 2
        found = zeros(count)
        self._calls.nearest_all(self._whole(), start_of(steps, _declared.Point), count, start_of(found), count, c_uint64())
        rows = by_table(self._rows, found)
        for row in far if len(self._rows) else ():
            rows[row] = nearest_row(self, rounded(flat[2 * row : 2 * row + 2], self._power), int(rows[row]))
        return in_shape(rows, xi, "i")
