"""What a triangulation of points has, with constraints or without: its points under their rows, and its lists under scipy's names."""

from __future__ import annotations

from array import array
from collections.abc import Callable, Iterable, Sequence
from ctypes import Structure, c_uint32, c_uint64, sizeof
from operator import index
from types import SimpleNamespace
from typing import Any, ClassVar, Literal, NoReturn, Self

from . import _declared
from ._arrays import numpy, shaped, start_of, zeros
from ._errors import Unfinished, refused
from ._far import far_position
from ._grid import (
    LEAST_POWER,
    Grid,
    clipped,
    far_moved,
    first_moved,
    floats,
    is_one,
    least_and_most,
    power_of,
    power_of_step,
    refuse_unequal,
    rounded,
    snapped,
)
from ._mesh import Dcel
from ._tables import (
    by_table,
    coordinates_of,
    corner_triangles,
    equal_ones,
    joined,
    least_rows,
    loop,
    named,
    only_ones,
    places_of,
    renumbered,
    rings,
    set_at,
    there,
    triangles_at,
)
from ._turns import Turn, in_turn, kept_list


class Triangulation:
    """What `Delaunay` and `ConstrainedDelaunay` have in common."""

    _Kept: ClassVar[type[Structure]]  # what the library keeps
    _calls: ClassVar[SimpleNamespace]  # the library's, for its kind
    _free: ClassVar[Any]  # one of them, which is wanted also when modules are gone, as Python ends
    _kept: Any
    _power: int  # of the grid's step, as a power of two
    _fits: bool  # whether the grid is the finest one, and may change
    _is_exact: bool
    _flat: array[float]  # the coordinates, as they were given
    _vertices: array[int]  # by row, -1 where it was removed
    _rows: array[int]  # by vertex, the least one
    _turn: Turn  # of calls
    moved: float  #: how far the grid moved a point at most, in the unit of the coordinates: 0.0 if it moved none

    def __new__(cls, *given: Any, **named: Any) -> Self:
        self = super().__new__(cls)
        self._kept = self._Kept()
        self._turn = Turn()
        return self

    @in_turn
    def _start(self, grid: Grid | Literal["fit", "exact"]) -> None:
        """Begins with no points."""
        if not isinstance(grid, Grid) and grid not in ("fit", "exact"):
            raise ValueError(f"grid: a Grid, 'fit' or 'exact', and not {grid!r}")
        self._is_exact, self._fits = grid == "exact", not isinstance(grid, Grid)
        self._power = power_of_step(grid.step) if isinstance(grid, Grid) else LEAST_POWER
        self._flat, self._vertices, self._rows, self.moved = array("d"), array("i"), array("i"), 0.0
        self._begin_change()
        self._calls.new(self._kept)

    def __del__(self) -> None:
        self._free(self._kept)

    @in_turn
    def __repr__(self) -> str:
        triangles = self._calls.num_triangles(self._kept)
        return f"<{type(self).__name__}: {len(there(self._vertices))} points, {triangles} triangles>"

    @in_turn
    def copy(self) -> Self:
        """An equal triangulation of its own. Raises OutOfMemory."""
        made = type(self).__new__(type(self))
        self._calls.clone(self._kept, made._kept)
        made._power, made._fits, made._is_exact, made.moved = self._power, self._fits, self._is_exact, self.moved
        made._flat, made._vertices, made._rows = self._flat[:], self._vertices[:], self._rows[:]
        return made

    __copy__ = copy

    def __deepcopy__(self, memo: object) -> Self:
        return self.copy()

    def __reduce__(self) -> NoReturn:
        raise TypeError(f"a {type(self).__name__} can't be pickled")

    # Points.

    @property
    def grid(self) -> Grid:
        """The grid on which the points are."""
        return Grid(2.0**self._power)

    @kept_list
    def points(self) -> Any:
        """The points as they were given, (n, 2), of floats, also those that were removed. A copy."""
        return shaped(self._flat[:], 2, "d")

    @property
    def ndim(self) -> int:
        """How many coordinates a point has: 2."""
        return 2

    @property
    def npoints(self) -> int:
        """How many rows `points` has."""
        return len(self._vertices)

    @property
    def nsimplex(self) -> int:
        """How many triangles there are."""
        return int(self._calls.num_triangles(self._kept))

    @kept_list
    def min_bound(self) -> Any:
        """The least coordinates of the points that are there, (2,), of floats: inf if there are none."""
        return least_and_most(coordinates_of(self._flat, there(self._vertices)))[0]

    @kept_list
    def max_bound(self) -> Any:
        """The greatest coordinates of the points that are there, (2,), of floats: -inf if there are none."""
        return least_and_most(coordinates_of(self._flat, there(self._vertices)))[1]

    @in_turn
    def insert(self, points: Iterable[Any]) -> Any:
        """Adds points, (k, 2), and returns their rows: (k,). Raises what the class says; then nothing is added."""
        flat = floats(points, "points", is_exact=self._is_exact)
        first, count, power = len(self._vertices), len(flat) // 2, self._power
        if self._fits:
            power = max(power, power_of(flat))
        steps = snapped(flat, power, "points")
        moved = far_moved(flat, steps, power)
        if self._is_exact and moved:
            refuse_inexact(flat, steps, power, range(count))
        self._begin_change()
        if power != self._power and first:
            self._regrid(power, flat)
        else:
            self._add(flat, steps, power, max(self.moved, moved))
        return shaped(array("i", range(first, first + count)), 1)

    def _add(self, flat: Any, steps: Any, power: int, moved: float) -> None:
        """Adds points: all, or if that is ended by an error or an interrupt, none."""
        first, before = len(self._vertices), len(self._rows)
        try:
            vertices = self._put(self._kept, steps)
            if len(vertices) == 1:  # in place, as all rows may be many
                self._rows.extend([first] if vertices[0] == before else [])
                self._vertices.extend(vertices)
            elif vertices:
                vertices = self._vertices + vertices
                self._vertices, self._rows = vertices, least_rows(vertices, self._calls.num_vertices(self._kept))
            self._flat.frombytes(memoryview(flat).cast("B") if len(flat) else b"")
            self._power, self.moved = power, moved
        except BaseException:
            self._take_back(first, before)
            raise

    def _put(self, kept: Any, steps: Any) -> array[int]:
        """Puts points into a triangulation. Returns their vertices. If it raises an error, some may be there."""
        count, told = len(steps) // 2, c_uint32()
        if count == 1:
            try:
                self._calls.insert(kept, _declared.Point(int(steps[0]), int(steps[1])), told)
            except Unfinished:  # the point is there, and what reads makes the triangulation whole
                return array("i", [self._calls.num_vertices(kept) - 1])
            return array("i", [told.value])
        vertices = zeros(count)
        try:
            self._calls.insert_all(kept, start_of(steps, _declared.Point), count, start_of(vertices), count, c_uint64())
        except Unfinished:  # who asked for them takes back those that are there
            raise refused(_declared.Status.OUT_OF_MEMORY, self._calls.insert_all) from None
        return array("i", vertices.tobytes())

    def _take_back(self, first: int, before: int) -> None:
        """Removes the rows and the vertices from these numbers on. If even that is ended, the triangulation is freed, and raises NoMesh."""
        try:
            del self._flat[2 * first :], self._vertices[first:], self._rows[before:]
            while (last := self._calls.num_vertices(self._kept)) > before:
                self._take_out(last - 1)
        except BaseException:
            self._free(self._kept)
            raise

    def _take_out(self, vertex: int) -> None:
        """Removes a vertex, whose number the last one gets."""
        try:
            self._calls.remove(self._kept, vertex, c_uint64())
        except Unfinished:  # the vertex is gone, and what reads makes the triangulation whole
            pass

    def _regrid(self, power: int, flat: Any) -> None:
        """Triangulates the points that are there anew, with more, on another grid. If that is ended, all stays."""
        rows = there(self._vertices)
        every = joined(coordinates_of(self._flat, rows), flat)
        steps = snapped(every, power, "points")
        moved = far_moved(every, steps, power)
        if self._is_exact and moved:
            refuse_inexact(every, steps, power, rows)

        def fill(spare: Any) -> array[int]:
            self._calls.new(spare)
            vertices, new = self._vertices[:], self._put(spare, steps)
            set_at(vertices, rows, new[: len(rows)])
            vertices += new[len(rows) :]
            self._carry_over(spare, vertices)
            return vertices

        self._replace(fill, flat, power, moved)

    def _carry_over(self, spare: Any, vertices: array[int]) -> None:
        """Puts into a triangulation on another grid, in which rows have these vertices, what there is besides points."""

    def _replace(self, fill: Callable[[Any], array[int]], flat: Any, power: int, moved: float) -> None:
        """Replaces the triangulation by one that `fill` makes, which returns the vertices of rows, and adds coordinates. If that is ended,
        all stays."""
        spare = self._Kept()
        try:
            vertices = fill(spare)
            least = least_rows(vertices, self._calls.num_vertices(spare))
            changed = self._kept, spare, vertices, least, self._flat + array("d", flat.tobytes()), power, moved
            spare, self._kept, self._vertices, self._rows, self._flat, self._power, self.moved = changed
        finally:
            self._free(spare)

    @in_turn
    def remove(self, rows: int | Iterable[int]) -> None:
        """Removes the points of some rows, and no other point gets another row. An equal point stays.

        Raises IndexError for a row that isn't there or was removed, and TypeError for what is no row; then nothing is removed. If memory
        runs out, OutOfMemory: some are removed then, whose `vertex_to_simplex` is -1."""
        wanted = self._wanted(rows)
        gone = only_ones(self._vertices, wanted, len(self._rows))
        self._begin_change()
        try:
            for vertex in gone:
                self._take_out(vertex)
            self._leave_out(wanted, gone)
        except BaseException:
            self._catch_up(wanted, gone)
            raise
        self._refit(wanted)

    def _leave_out(self, wanted: list[int], gone: list[int]) -> None:
        """Leaves out rows, and of their vertices, which were to go one after the other, those that have gone."""
        before = len(self._rows)
        count = self._calls.num_vertices(self._kept)
        vertices, left = self._vertices[:], set(gone[before - count :])
        for row in wanted:
            if vertices[row] not in left:
                vertices[row] = -1
        vertices = renumbered(vertices, gone[: before - count], before)
        self._vertices, self._rows = vertices, least_rows(vertices, count)

    def _catch_up(self, wanted: list[int], gone: list[int]) -> None:
        """Leaves out what has gone, if that isn't done yet. If even that is ended, the triangulation is freed, and raises NoMesh."""
        try:
            if self._calls.num_vertices(self._kept) < len(self._rows):
                self._leave_out(wanted, gone)
        except BaseException:
            self._free(self._kept)
            raise

    def _refit(self, rows: list[int]) -> None:
        """Takes the finest grid again, once the points of some rows, which may have been the farthest, are removed. Without memory for
        that it stays."""
        if not self._fits or power_of(coordinates_of(self._flat, rows)) < self._power:
            return
        power = power_of(coordinates_of(self._flat, there(self._vertices)))
        if power < self._power:
            try:
                self._regrid(power, array("d"))
            except MemoryError:
                pass

    def _wanted(self, rows: int | Iterable[int]) -> list[int]:
        """The rows that are named, which are there, each once."""
        given = rows.tolist() if hasattr(rows, "tolist") else rows
        wanted = set()
        for row in [given] if isinstance(given, int) else given:
            wanted.add(self._row(row, "rows"))
        return list(wanted)

    def _row(self, it: Any, name: str) -> int:
        """A row that is there."""
        try:
            row = index(None if isinstance(it, bool) else it)  # a mask has no rows
        except TypeError:
            raise TypeError(f"{name}: {it!r} is no row") from None
        if not 0 <= row < len(self._vertices) or self._vertices[row] < 0:
            raise IndexError(f"{name}: there is no row {row}" if not 0 <= row < len(self._vertices) else f"{name}: row {row} was removed")
        return row

    def _begin_change(self) -> None:
        """Forgets arrays, before a change. None is found until the call ends."""
        self._turn.change()
        for name in list(self.__dict__):
            if isinstance(getattr(type(self), name, None), kept_list):
                del self.__dict__[name]

    # Lists.

    def _whole(self) -> Any:
        """The triangulation, made whole first if memory ran out before that in a change. Raises OutOfMemory."""
        if not self._calls.is_whole(self._kept):
            self._calls.finish(self._kept)
        return self._kept

    def _listed(self, call: Any, kind: Any, count: int) -> array[int]:
        """What a call puts into a buffer with this many items, of which each is some numbers of 32 bits."""
        found = zeros(count * sizeof(kind) // 4)
        call(self._whole(), start_of(found, kind), count, c_uint64())
        return found

    @kept_list
    def simplices(self) -> Any:
        """The triangles, (m, 3), of 32 bits: the rows of their corners, counterclockwise."""
        count = self._calls.num_triangles(self._kept)
        return self._by_row(self._listed(self._calls.triangles, _declared.Triangle, count), 3)

    @kept_list
    def neighbors(self) -> Any:
        """The triangles beside each, (m, 3), of 32 bits: across from each of its corners in `simplices`, -1 where there is none."""
        count = self._calls.num_triangles(self._kept)
        return shaped(self._listed(self._calls.neighbors, _declared.Across, count), 3)

    @kept_list
    def edges(self) -> Any:
        """The edges, (e, 2), of 32 bits: the rows of their ends."""
        count = self._calls.num_edges(self._kept)
        return self._by_row(self._listed(self._calls.edges, _declared.Ends, count), 2)

    @kept_list
    def hull(self) -> Any:
        """The rows of the points on the convex hull, counterclockwise, (h,), of 32 bits: also those between corners of it.

        While all points are on one line it goes there and back, so each point comes twice but the ends."""
        count = 2 * len(self._rows)  # no hull is longer
        found, needed = zeros(count), c_uint64()
        self._calls.hull(self._whole(), start_of(found), count, needed)
        return self._by_row(found[: needed.value], 1)

    @kept_list
    def convex_hull(self) -> Any:
        """The edges of the convex hull, (h, 2), of 32 bits: the rows of their ends, counterclockwise, one after the other."""
        return shaped(loop(self.hull), 2)

    @kept_list
    def transform(self) -> Any:
        """What makes barycentric coordinates of points, (m, 3, 2), of floats, as scipy's: with T = transform[k, :2] and r = transform[k, 2]
        the first two of point x are T @ (x - r), and the third is what they lack to 1. Rounded; of a triangle too thin for floats, nan.
        Wants NumPy."""
        found = numpy()
        if found is None:
            raise ImportError("transform wants NumPy")
        corners = self.points[self.simplices]
        last = corners[:, 2]
        (a, b), (c, d) = (corners[:, :2] - last[:, None]).transpose(2, 1, 0)
        with found.errstate(divide="ignore", invalid="ignore"):
            inverse = found.stack([d, -b, -c, a], 1) / (a * d - b * c)[:, None]
        inverse[~found.isfinite(inverse).all(axis=1)] = found.nan
        return found.concatenate([inverse.reshape(-1, 2, 2), last[:, None]], 1)

    @kept_list
    def vertex_to_simplex(self) -> Any:
        """For each row a triangle that has its point as a corner, (n,), of 32 bits, -1 if none has or it was removed."""
        return shaped(corner_triangles(self.simplices, self._vertices, self._rows), 1)

    @kept_list
    def coplanar(self) -> Any:
        """The points that are equal to one before them, (k, 3), of 32 bits: the row, a triangle at the point or -1, and the least row of
        the equal points, which stands for it."""
        return shaped(equal_ones(self._vertices, self._rows, self.vertex_to_simplex), 3)

    @kept_list
    def vertex_neighbor_vertices(self) -> tuple[Any, Any]:
        """The rows that edges join to each, as two arrays of 32 bits: those of row r are indices[indptr[r] : indptr[r + 1]], ascending."""
        indptr, indices = rings(self.edges, len(self._vertices))
        return shaped(indptr, 1), shaped(indices, 1)

    @kept_list
    def _faces(self) -> memoryview:
        """The face of each half edge."""
        count = 2 * self._calls.num_edges(self._kept)
        return memoryview(self._listed(self._calls.directed_edges, _declared.HalfEdge, count))[3::4]

    @kept_list
    def _border(self) -> Any:
        """The half edges of the outer face."""
        return places_of(self._faces, 0)

    def _steps(self, row: int) -> tuple[int, int]:
        """How many steps of the grid the coordinates of a row are."""
        return rounded(self._flat[2 * int(row) : 2 * int(row) + 2], self._power)

    def _by_row(self, vertices: array[int], width: int) -> Any:
        """Lists vertices by their rows. Of 2**32 - 1, which is none, -1 is made."""
        return shaped(by_table(self._rows, vertices), width)

    # Queries, of points that are rounded to the grid.

    def _positions(self, steps: Any) -> array[int]:
        """Where points are: of each an enum dcel_place, and a number."""
        count = len(steps) // 2
        found = zeros(2 * count)
        starts = start_of(steps, _declared.Point), count, start_of(found, _declared.Position), count
        self._calls.locate_all(self._whole(), *starts, c_uint64())
        return found

    @in_turn
    def find_simplex(self, xi: Any) -> Any:
        """A triangle in which each point is, (..), of 32 bits, for points (.., 2): -1 outside of the hull. On a side it is either one.

        Points are rounded to the grid. Raises ValueError or TypeError, which names the row, for what are no points, OutOfMemory."""
        steps, far = clipped(floats(xi, "xi", True), self._power)
        triangles = triangles_at(self._positions(steps), lambda: self._faces, lambda: by_table(self.vertex_to_simplex, self._rows))
        for row in far:
            triangles[row] = -1
        return in_shape(triangles, xi, "i")

    @in_turn
    def locate(self, xi: Any) -> tuple[Any, Any]:
        """What is where each point is, for points (.., 2), exactly: a `Place`, of 8 bits, and its number, of 32 bits, both (..).

        ON_FACE has a row of `simplices`, ON_EDGE and OUTSIDE one of `edges`: outside, that of an edge of the hull whose outer side the
        point is on. ON_VERTEX has a row of `points`, as BEYOND_LINE: while all points are on one line, the end of it before the point.
        NOWHERE has -1: there is at most one point, and elsewhere. Points are rounded to the grid. Raises what `find_simplex` does."""
        flat = floats(xi, "xi", True)
        steps, far = clipped(flat, self._power)
        positions = self._positions(steps)
        for row in far:
            place = slice(2 * row, 2 * row + 2)
            positions[place] = far_position(self, rounded(flat[place], self._power), positions[place])
        kinds, numbers = named(positions, self._rows)
        return in_shape(kinds, xi, "B"), in_shape(numbers, xi, "i")

    @in_turn
    def mesh(self) -> Dcel:
        """The triangulation as a mesh of its own, with the same edges; triangle t is face t + 1. The datum of a vertex is its row."""
        count = 2 * self._calls.num_edges(self._kept)
        links = self._listed(self._calls.directed_edges, _declared.HalfEdge, count)
        faces = self._calls.num_triangles(self._kept) + 1
        return Dcel.from_links(links, array("Q", self._rows), array("Q", bytes(8 * faces)))


def refuse_inexact(flat: Any, steps: Any, power: int, rows: Sequence[int]) -> NoReturn:
    """Raises Inexact for the first point that isn't on the grid. Points are in these rows."""
    refuse_unequal("points", int(rows[first_moved(flat, steps, power)]))


def in_shape(items: Any, xi: Any, code: str) -> Any:
    """One item for each point, in the shape of the points."""
    flat = shaped(items, 1, code)
    if (found := numpy()) is None:
        return flat.cast("B").cast(code, []) if is_one(xi) else flat
    shape = found.shape(xi) if hasattr(xi, "__len__") else (0,)
    return flat if shape == (0,) else flat.reshape(shape[:-1])
