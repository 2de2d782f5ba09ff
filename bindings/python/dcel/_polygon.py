"""The triangles of polygons with holes."""

from __future__ import annotations

from array import array
from collections import Counter
from collections.abc import Iterable, Iterator
from typing import Any

from ._arrays import shaped
from ._constrained import ConstrainedDelaunay
from ._errors import Crosses
from ._grid import floats
from ._tables import bools, triples_where

Edge = frozenset[int]  # the rows of its ends, of equal points the least


def triangulate_polygon(shell: Any, holes: Iterable[Any] = (), points: Iterable[Any] = ()) -> tuple[Any, Any]:
    """The triangles of a polygon: its points, (n, 2), of floats, and the rows of the corners of each triangle, (m, 3), of 32 bits,
    counterclockwise.

    `shell` is the outer ring and `holes` are others: of each its points, (k, 2), either way round; the last may be the first again, and
    comes once. `points` are further ones. All come out in this order. In place of rings there may be one object with `__geo_interface__`
    that is a Polygon or a MultiPolygon, such as shapely's, of which heights are left out.

    A triangle is inside if a way to it from outside crosses an odd number of sides, so rings may touch, and share sides. If sides cross,
    Crosses is raised: its `row` is that of the point where the later side starts, and `pair` has the rows of both ends. Else it raises what
    `ConstrainedDelaunay` does, and ValueError for a ring of fewer than three points.

    >>> points, triangles = triangulate_polygon([(0, 0), (4, 0), (4, 4), (0, 4)], holes=[[(1, 1), (3, 1), (2, 3)]])
    >>> len(points), len(triangles)
    (7, 7)
    """
    rings = rings_of(shell, holes)
    flats = [opened(floats(ring, name), name) for name, ring in rings.items()]
    sides, flat = array("i"), array("d")
    for it in flats:
        first, count = len(flat) // 2, len(it) // 2
        sides.extend(first + (place + side) % count for place in range(count) for side in (0, 1))
        flat += it
    flat += array("d", floats(points, "points").tobytes())
    made = ConstrainedDelaunay(shaped(flat, 2, "d"))
    try:
        made.add(shaped(sides, 2))
    except Crosses as error:
        name = [name for name, it in zip(rings, flats, strict=True) for _ in range(len(it) // 2)][error.row]
        raise crossing_side(name, *error.pair) from None
    return shaped(flat, 2, "d"), triples_where(made.simplices, inside(made, sides))


def rings_of(shell: Any, holes: Iterable[Any]) -> dict[str, Any]:
    """The rings of a polygon or of a shape, by their names."""
    shape, holes = getattr(shell, "__geo_interface__", None), list(holes)
    if shape is None:
        return named([shell, *holes])
    if holes:
        raise TypeError("holes: a shape has its own")
    kind = shape["type"]
    if kind not in ("Polygon", "MultiPolygon"):
        raise TypeError(f"shell: a Polygon or a MultiPolygon, and not a {kind}")
    polygons = [shape["coordinates"]] if kind == "Polygon" else shape["coordinates"]
    flat = [[[point[:2] for point in ring] for ring in polygon] for polygon in polygons]
    if kind == "Polygon":
        return named(flat[0])
    return {name: ring for place, rings in enumerate(flat) for name, ring in named(rings, f"polygons[{place}].").items()}


def named(rings: list[Any], before: str = "") -> dict[str, Any]:
    return {f"{before}holes[{place - 1}]" if place else f"{before}shell": ring for place, ring in enumerate(rings)}


def opened(flat: Any, name: str) -> array[float]:
    """The coordinates of a ring, without a last point that is the first again."""
    ring = array("d", flat.tobytes())
    if len(ring) > 2 and ring[:2] == ring[-2:]:
        del ring[-2:]
    if len(ring) < 6:
        raise ValueError(f"{name}: a ring has at least three points, and not {len(ring) // 2}")
    return ring


def crossing_side(name: str, start: int, end: int) -> Crosses:
    """The error of a side of a ring of this name."""
    error = Crosses(f"{name}: the side from row {start} to row {end} crosses another one")
    error.row, error.pair = start, (start, end)
    return error


def inside(made: ConstrainedDelaunay, sides: array[int]) -> Any:
    """Whether a way from outside to each triangle crosses an odd number of sides."""
    least = [made._rows[made._vertices[row]] for row in sides]
    marked: set[Edge] = set(map(frozenset, made.constraints.tolist()))
    counts = Counter(edge for place in range(0, len(sides), 2) for edge in edges_of(made, marked, least[place], least[place + 1]))
    borders = {edge for edge, count in counts.items() if count % 2 == 1}
    return made.inside() if len(borders) == len(counts) else flooded(made, borders)


def edges_of(made: ConstrainedDelaunay, marked: set[Edge], row: int, end: int) -> Iterator[Edge]:
    """The edges of the segment between two rows, one after the other. All of them are marked."""
    indptr, indices = made.vertex_neighbor_vertices
    while row != end:
        near = end
        if frozenset((row, end)) not in marked:
            near = next(it for it in indices[indptr[row] : indptr[row + 1]].tolist() if is_ahead(made, row, it, end))
        yield frozenset((row, near))
        row = near


def is_ahead(made: ConstrainedDelaunay, row: int, other: int, end: int) -> bool:
    """Whether another row is on the way from a row to an end, or beyond that."""
    (ax, ay), (bx, by), (cx, cy) = map(made._steps, (row, other, end))
    (bx, by), (cx, cy) = (bx - ax, by - ay), (cx - ax, cy - ay)
    return bx * cy == by * cx and bx * cx + by * cy > 0


def flooded(made: ConstrainedDelaunay, borders: set[Edge]) -> Any:
    """Whether a way from outside to each triangle crosses an odd number of these edges."""
    triangles, beside = made.simplices.tolist(), made.neighbors.tolist()
    found: list[bool | None] = [None] * len(triangles)
    todo = [(it, is_border(triangles[it], others.index(-1), borders)) for it, others in enumerate(beside) if -1 in others]
    while todo:
        triangle, is_inside = todo.pop()
        if found[triangle] is None:
            found[triangle] = is_inside
            sides = [(other, is_inside != is_border(triangles[triangle], corner, borders)) for corner, other in enumerate(beside[triangle])]
            todo += [(other, it) for other, it in sides if other >= 0]
    return bools(map(bool, found))


def is_border(rows: list[int], corner: int, borders: set[Edge]) -> bool:
    """Whether the side across from a corner of a triangle is one of these edges."""
    return frozenset(rows) - {rows[corner]} in borders
