"""A Delaunay triangulation with edges that stay."""

from __future__ import annotations

from array import array
from collections.abc import Iterable
from ctypes import c_bool, c_uint32, c_uint64
from typing import Any, Literal

from . import _declared
from ._arrays import shaped, start_of
from ._calls import calls_of
from ._errors import Crosses, NoSuchEdge, Unfinished, refused
from ._grid import Grid, coordinates
from ._refining import Refined, parameters
from ._segments import pairs_of, vertices_at
from ._tables import bools, by_table, edge_between, odd_ones
from ._triangulation import Triangulation
from ._turns import in_turn, kept_list


class ConstrainedDelaunay(Triangulation):
    """The Delaunay triangulation of points in the plane, but for edges that are constraints and stay: no point that a triangle sees, past
    no constraint, lies inside its circle.

    Points, grid, arrays, errors, threads and interrupts are as of `Delaunay`, but there is no `nearest`. A constraint becomes two if a
    point is inserted on it, and is removed with either of its ends, even if that end then stays since memory runs out. Points beyond
    the grid take constraints to a coarser one, and raise Crosses if two cross there; while there are constraints the grid gets no
    finer.

    `segments` are pairs of rows of `points`: an array of shape (k, 2) of whole numbers, or an iterable of pairs. Each becomes an edge,
    or several if it passes through points. Segments may meet in points, and overlap. If one crosses an earlier one elsewhere, Crosses
    is raised, whose `row` is that of the segment, and `pair` what it has there; with `crossing="skip"` it is left out. Raises
    TypeError, ValueError or IndexError, which names the row, for what is no pair of rows.

    >>> made = ConstrainedDelaunay([(0, 0), (4, 0), (4, 4), (0, 4), (3, 2)], [(0, 1), (1, 4), (4, 2), (2, 3), (3, 0)])
    >>> made
    <ConstrainedDelaunay: 5 points, 4 triangles, 5 constraints>
    >>> made.inside().tolist().count(True)
    3
    >>> made.add([(0, 2), (0, 4), (1, 2)], crossing="skip").tolist()
    [True, True, True]
    >>> made.can_add(1, 3)
    False
    """

    _Kept = _declared.Constrained
    _calls = calls_of("constrained")
    _free = _calls.free

    def __init__(
        self,
        points: Iterable[Any] = (),
        segments: Iterable[Any] = (),
        *,
        grid: Grid | Literal["fit", "exact"] = "fit",
        crossing: Literal["raise", "skip"] = "raise",
    ) -> None:
        self._start(grid)
        self.insert(points)
        self.add(segments, crossing=crossing)

    @in_turn
    def __repr__(self) -> str:
        return f"{super().__repr__()[:-1]}, {self._calls.num_constraints(self._kept)} constraints>"

    # Points.

    def _add(self, flat: Any, steps: Any, power: int, moved: float) -> None:
        """Adds points: all, or if that is ended by an error or an interrupt, none.

        What has split a constraint can't be taken back, as its parts would go with it. So points are put into a copy; one alone is put in
        place, and stays if an interrupt comes then."""
        if len(steps) != 2:
            if len(steps):
                self._replace(lambda spare: self._vertices + self._put(self._copied(spare), steps), flat, power, moved)
            return
        first, before = len(self._vertices), len(self._rows)
        try:
            self._note(first, self._put(self._kept, steps)[0], before, flat)
            self._power, self.moved = power, moved
        except BaseException:
            self._end_addition(first, before, flat, power, moved)
            raise

    def _note(self, first: int, vertex: int, before: int, flat: Any) -> None:
        """Notes the vertex of a row that follows so many, also if some of that is done. There were so many vertices before."""
        self._rows[before:] = array("i", [first] if vertex == before else [])
        self._vertices[first:] = array("i", [vertex])
        self._flat[2 * first :] = array("d", flat)

    def _end_addition(self, first: int, before: int, flat: Any, power: int, moved: float) -> None:
        """Notes a point that is there, and forgets one that isn't. If even that is ended, the triangulation is freed, and raises NoMesh."""
        try:
            if self._calls.num_vertices(self._kept) > before:
                self._note(first, before, before, flat)
                self._power, self.moved = power, moved
            else:
                del self._flat[2 * first :], self._vertices[first:], self._rows[before:]
        except BaseException:
            self._free(self._kept)
            raise

    def _copied(self, spare: Any) -> Any:
        """Makes it an equal one."""
        self._calls.clone(self._kept, spare)
        return spare

    def _carry_over(self, spare: Any, vertices: array[int]) -> None:
        rows = array("i", by_table(self._rows, self._ends()).tobytes())
        self._lay(spare, rows, vertices_at(array("q", rows), vertices), "on the coarser grid the constraint in")

    def _refit(self, rows: list[int]) -> None:
        if not self._calls.num_constraints(self._kept):
            super()._refit(rows)

    @in_turn
    def refine(
        self,
        min_angle: float = 20.0,
        max_area: float | None = None,
        max_additional_points: int = 1_000_000,
        *,
        inside: bool = True,
    ) -> Refined:
        """Adds points until no triangle has an angle below `min_angle` degrees, but for angles between two constraints, and none an area
        above `max_area`, in the unit of the coordinates squared; or until `max_additional_points` are added, or none is found that
        would help. They come behind the others in `points`, and on constraints, which become several.

        Returns `Refined(added, done, excepted)`: how many were added, whether each triangle is as asked, exactly, and how many angles
        between two constraints are smaller. With `inside` only triangles that `inside()` is true of are refined, else all.

        A constraint is split only at points of the grid that are on it, which whole numbers leave enough of; of other floats take
        `Grid.fit(points, free_bits=12).round(points)` first. Sides of the hull are split only if they are constraints. Up to 20.7 degrees
        the angle is mostly reached, above 34 rarely: angles are from 0, for any, to 60.

        Raises ValueError or TypeError for what is no such number, and NoRoom and OutOfMemory; then nothing is added.

        >>> made = ConstrainedDelaunay([(0, 0), (9, 0), (9, 1), (0, 1)], [(0, 1), (1, 2), (2, 3), (3, 0)])
        >>> made.refine(min_angle=30).done, made.refine(min_angle=30)
        (True, Refined(added=0, done=True, excepted=0))
        """
        wanted = parameters(min_angle, max_area, max_additional_points, inside, self._power)
        added, excepted, done, flat, first = c_uint64(), c_uint64(), c_bool(), array("d"), len(self._rows)

        def fill(spare: Any) -> array[int]:
            try:
                self._calls.refine(self._copied(spare), wanted, added, excepted, done)
            except Unfinished:  # the copy is given up
                raise refused(_declared.Status.OUT_OF_MEMORY, self._calls.refine) from None
            flat.frombytes(coordinates(self._steps_of(spare)[2 * first :], self._power).tobytes())
            return self._vertices + array("i", range(first, first + added.value))

        self._begin_change()
        self._replace(fill, flat, self._power, self.moved)
        return Refined(added.value, done.value, excepted.value)

    def _steps_of(self, kept: Any) -> array[int]:
        """How many steps the coordinates of all vertices are."""
        count = self._calls.num_vertices(kept)
        steps = array("q", bytes(16 * count))
        self._calls.points(kept, start_of(steps, _declared.Point), count, c_uint64())
        return steps

    # Constraints.

    @in_turn
    def add(self, segments: Iterable[Any], *, crossing: Literal["raise", "skip"] = "raise") -> Any:
        """Makes segments constraints, (k, 2), and returns for each whether it is one, (k,), of bools: all are, but with `crossing="skip"`
        those that cross a constraint. One between equal points has no edge.

        Raises what the class says, and OutOfMemory; then none is added, but that without memory parts of one that is alone may be."""
        if crossing not in ("raise", "skip"):
            raise ValueError(f"crossing: 'raise' or 'skip', and not {crossing!r}")
        rows = pairs_of(segments)
        ends, laid = vertices_at(rows, self._vertices), bytearray()

        def fill(kept: Any) -> array[int]:
            laid[:] = self._lay(kept, rows, ends, "segments:" if crossing == "raise" else None)
            return self._vertices

        self._begin_change()
        if len(ends) == 2:
            fill(self._kept)
        elif len(ends):
            self._replace(lambda spare: fill(self._copied(spare)), array("d"), self._power, self.moved)
        return bools(laid)

    def _lay(self, kept: Any, rows: array[int], ends: array[int], what: str | None) -> bytearray:
        """Makes segments between vertices constraints, and returns for each whether it is one. The first that crosses one is called this
        in an error that is raised, with its rows; with None it is left out."""
        first, count, done = 0, len(ends) // 2, c_uint64()
        laid = bytearray(b"\1") * count
        while first < count:
            try:
                rest = memoryview(ends)[2 * first :]
                self._calls.add_constraints(kept, start_of(rest, _declared.Ends), count - first, done)
                break
            except Crosses:
                first += done.value
                if what is not None:
                    raise crossing_of(what, first, (rows[2 * first], rows[2 * first + 1])) from None
                laid[first] = False
                first += 1
        return laid

    @in_turn
    def can_add(self, a: int, b: int) -> bool:
        """Whether the segment between two rows crosses no constraint, but in points. Raises IndexError and TypeError for what is no row."""
        answer = c_bool()
        one, other = self._vertex(a, "a"), self._vertex(b, "b")
        self._calls.can_add_constraint(self._whole(), one, other, answer)
        return answer.value

    @in_turn
    def is_constraint(self, a: int, b: int) -> bool:
        """Whether a constraint is the edge between two rows. Raises IndexError and TypeError for what is no row."""
        return bool(self._calls.exists_constraint(self._kept, self._vertex(a, "a"), self._vertex(b, "b")))

    @in_turn
    def remove_constraint(self, a: int, b: int) -> None:
        """Makes the edge between two rows no constraint any more. Raises NoSuchEdge if it is none, IndexError and TypeError for what is no
        row, and OutOfMemory, after which it may be none."""
        one, other = self._vertex(a, "a"), self._vertex(b, "b")
        if not self._calls.exists_constraint(self._kept, one, other):
            raise NoSuchEdge(f"remove_constraint: no constraint is an edge between rows {a} and {b}")
        count = self._calls.num_edges(self._kept)
        edge = edge_between(self._listed(self._calls.edges, _declared.Ends, count), one, other)
        self._begin_change()
        self._calls.remove_constraint(self._kept, edge, c_bool())

    def _vertex(self, row: Any, name: str) -> int:
        """The vertex of a row that is there."""
        return self._vertices[self._row(row, name)]

    def _ends(self) -> array[int]:
        """The vertices at the ends of all constraints."""
        self._whole()
        return self._listed(self._calls.constraints, _declared.Ends, self._calls.num_constraints(self._kept))

    @kept_list
    def constraints(self) -> Any:
        """The edges that are constraints, (c, 2), of 32 bits: the rows of their ends."""
        return self._by_row(self._ends(), 2)

    @kept_list
    def regions(self) -> Any:
        """How deep each triangle is, (m,), of 32 bits: how many constraints a way to it from outside of the hull crosses at least."""
        count = self._calls.num_triangles(self._kept)
        return shaped(self._listed(self._calls.regions, c_uint32, count), 1)

    @in_turn
    def inside(self) -> Any:
        """Whether each triangle is in a polygon, (m,), of bools: whether its region is odd. This is so if constraints are the borders of
        polygons and of their holes, no two of which have an edge in common; `triangulate_polygon` takes others too."""
        return odd_ones(self.regions)


def crossing_of(what: str, row: int, pair: tuple[int, int]) -> Crosses:
    """The error of a segment in some row, which is called this."""
    error = Crosses(f"{what} row {row}, from {pair[0]} to {pair[1]}, crosses a constraint")
    error.row, error.pair = row, pair
    return error
