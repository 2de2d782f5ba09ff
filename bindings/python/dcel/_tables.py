"""Tables between rows of points and numbers of vertices: by NumPy if it is installed, and otherwise one by one."""

from __future__ import annotations

from array import array
from collections.abc import Callable, Iterable, Sequence
from typing import Any

from ._arrays import numpy, shaped
from ._declared import Place


def viewed(items: Any, code: str = "i") -> Any:
    """The items as an array of NumPy's, where they lie."""
    found = numpy()
    assert found is not None
    return found.frombuffer(items, code) if len(items) else found.empty(0, code)


def kept(items: Any) -> array[int]:
    """The items of an array of NumPy's, of 32 bits."""
    return array("i", items.astype("i").tobytes())


def by_table(table: Any, numbers: Any) -> Any:
    """What a table has under each number, and -1 under -1, or 2**32 - 1."""
    if numpy() is not None:
        places = viewed(numbers)
        found = viewed(table).take(places, mode="clip") if len(table) else places.copy()
        found[places < 0] = -1
        return found
    return array("i", (-1 if it in (-1, 2**32 - 1) else table[it] for it in numbers))


def least_rows(vertices: array[int], count: int) -> array[int]:
    """For each of so many vertices the least row that has it."""
    if (found := numpy()) is not None:
        at = viewed(vertices)
        there, rows = found.flatnonzero(at >= 0)[::-1], found.zeros(count, "i")
        rows[at[there]] = there  # of those with one vertex the last one is kept
        return kept(rows)
    rows = array("i", bytes(4 * count))
    for row in range(len(vertices) - 1, -1, -1):
        if vertices[row] >= 0:
            rows[vertices[row]] = row
    return rows


def only_ones(vertices: array[int], wanted: list[int], count: int) -> list[int]:
    """The vertices, of so many, that some rows have, and no others. The greatest are first."""
    if (found := numpy()) is not None:
        rest = viewed(vertices).copy()
        rest[wanted] = -1
        stay = found.zeros(count + 1, bool)
        stay[rest] = True  # and the last one for -1
        these = found.unique(viewed(vertices)[wanted])
        gone: list[int] = these[~stay[these]][::-1].tolist()
        return gone
    rest = vertices[:]
    for row in wanted:
        rest[row] = -1
    return sorted({vertices[row] for row in wanted}.difference(rest), reverse=True)


def renumbered(vertices: array[int], gone: list[int], before: int) -> array[int]:
    """The vertices of rows, of which there were so many, once some went one after the other, whose numbers the last ones got. -1 for -1."""
    found = numpy()
    where = array("i", range(before)) if found is None else found.arange(before, dtype="i")
    for count, vertex in enumerate(gone, 1):
        where[vertex] = where[before - count]
    where = where[: before - len(gone)]
    if found is not None:
        now, at = found.full(before + 1, -1, "i"), viewed(vertices)
        now[where] = found.arange(len(where))
        return kept(now[at])  # and the last one for -1
    table = array("i", [-1]) * (before + 1)
    for vertex, old in enumerate(where):
        table[old] = vertex
    return array("i", map(table.__getitem__, vertices))


def there(vertices: array[int]) -> Sequence[int]:
    """The rows that weren't removed."""
    if (found := numpy()) is not None:
        rows: Sequence[int] = found.flatnonzero(viewed(vertices) >= 0)
        return rows
    return [row for row, vertex in enumerate(vertices) if vertex >= 0]


def coordinates_of(flat: array[float], rows: Sequence[int]) -> Any:
    """The coordinates of some rows, one after the other."""
    if numpy() is not None:
        return viewed(flat, "d").reshape(-1, 2)[rows].reshape(-1)
    return array("d", (flat[2 * row + side] for row in rows for side in (0, 1)))


def joined(one: Any, other: Any) -> Any:
    """Both rows of numbers of 64 bits, one after the other."""
    found = numpy()
    return one + other if found is None else found.concatenate([one, other])


def set_at(vertices: array[int], rows: Sequence[int], values: array[int]) -> None:
    """Sets the vertices of some rows."""
    if numpy() is not None:
        viewed(vertices)[rows] = viewed(values)
        return
    for row, vertex in zip(rows, values, strict=True):
        vertices[row] = vertex


def corner_triangles(simplices: Any, vertices: array[int], rows: array[int]) -> Any:
    """For each row a triangle that has its point as a corner, or -1."""
    if (found := numpy()) is not None:
        table = found.full(len(vertices), -1, "i")
        table[simplices] = found.arange(len(simplices), dtype="i")[:, None]
    else:
        table = array("i", [-1]) * len(vertices)
        for triangle, corners in enumerate(simplices.tolist()):
            for row in corners:
                table[row] = triangle
    return by_table(by_table(table, rows), vertices)


def equal_ones(vertices: array[int], rows: array[int], triangles: Any) -> Any:
    """Each row that has the vertex of a row before it, with a triangle there and the least such row, in a row."""
    if (found := numpy()) is not None:
        live = there(vertices)
        least = viewed(rows)[viewed(vertices)[live]] if len(rows) else live
        live, least = live[least != live], least[least != live]
        return kept(found.stack([live, triangles[least], least], 1).reshape(-1))
    pairs = ((row, rows[vertices[row]]) for row in there(vertices))
    return array("i", (it for row, least in pairs if row != least for it in (row, triangles[least], least)))


def rings(edges: Any, rows: int) -> tuple[Any, Any]:
    """The rows that edges join to each, ascending, one row after the other, and where those of each begin, with their count last."""
    if (found := numpy()) is not None:
        starts, ends = found.concatenate([edges, edges[:, ::-1]]).T
        counts = found.bincount(starts, minlength=rows)
        return kept(found.concatenate([[0], counts.cumsum()])), kept(ends[found.lexsort((ends, starts))])
    around: list[list[int]] = [[] for _ in range(rows)]
    for one, other in edges.tolist():
        around[one].append(other)
        around[other].append(one)
    begins = array("i", [0])
    for it in around:
        begins.append(begins[-1] + len(it))
    return begins, array("i", (row for it in around for row in sorted(it)))


def loop(rows: Any) -> Any:
    """The pairs of rows that follow each other, the last and the first too, in a row. One row alone has none."""
    if len(rows) < 2:
        return array("i")
    if (found := numpy()) is not None:
        return found.stack([rows, found.roll(rows, -1)], 1).reshape(-1)
    return array("i", (it for place in range(len(rows)) for it in (rows[place - 1], rows[place])))[2:] + array("i", [rows[-1], rows[0]])


def places_of(items: memoryview, value: int) -> array[int]:
    """Where a number is among others."""
    if (found := numpy()) is not None:
        return kept(found.flatnonzero(found.asarray(items) == value))
    return array("i", (place for place, it in enumerate(items) if it == value))


def edge_between(ends: array[int], one: int, other: int) -> int:
    """Which of some edges, by the vertices of their ends, joins two vertices."""
    if (found := numpy()) is not None:
        pairs = viewed(ends).reshape(-1, 2)
        return int(((pairs == (one, other)) | (pairs == (other, one))).all(axis=1).argmax())
    return next(edge for edge in range(len(ends) // 2) if {ends[2 * edge], ends[2 * edge + 1]} == {one, other})


def odd_ones(numbers: Any) -> Any:
    """For each number whether it is odd: an array of bools."""
    if numpy() is not None:
        return numbers % 2 == 1
    return bools(it % 2 == 1 for it in numbers)


def bools(items: Iterable[int]) -> Any:
    """An array of bools, or without NumPy a memoryview, of numbers that are 0 or 1."""
    if (found := numpy()) is not None:
        return found.fromiter(items, bool)
    flags = bytearray(items)
    return memoryview(flags).cast("?") if flags else memoryview(flags)


def triples_where(triangles: Any, flags: Any) -> Any:
    """The triangles that have a flag, in rows of three."""
    if numpy() is not None:
        return triangles[flags]
    return shaped(array("i", (it for row, flag in zip(triangles.tolist(), flags.tolist(), strict=True) if flag for it in row)), 3)


def triangles_at(positions: array[int], faces: Callable[[], memoryview], of_vertex: Callable[[], Any]) -> Any:
    """The triangle of each position: that it is on, or one beside its edge or at its vertex, or else -1. What it needs not isn't called."""
    if (found := numpy()) is not None:
        kinds, numbers = viewed(positions)[::2], viewed(positions)[1::2]
        on_edge, on_vertex = kinds == Place.ON_EDGE, kinds == Place.ON_VERTEX
        triangles = found.where(kinds == Place.ON_FACE, numbers, -1).astype("i")
        if on_edge.any():
            beside, halves = found.asarray(faces()).astype("q"), numbers[on_edge]
            triangles[on_edge] = found.maximum(beside[halves], beside[halves ^ 1]) - 1
        if on_vertex.any():
            triangles[on_vertex] = of_vertex()[numbers[on_vertex]]
        return triangles
    plain, kinds = array("i"), positions[::2]
    beside, corner_of = faces() if Place.ON_EDGE in kinds else (), of_vertex() if Place.ON_VERTEX in kinds else ()
    for kind, number in zip(kinds, positions[1::2], strict=True):
        if kind == Place.ON_EDGE:
            number = max(beside[number], beside[number ^ 1]) - 1
        elif kind == Place.ON_VERTEX:
            number = corner_of[number]
        plain.append(number if kind in (Place.ON_FACE, Place.ON_EDGE, Place.ON_VERTEX) else -1)
    return plain


def named(positions: array[int], rows: array[int]) -> tuple[Any, Any]:
    """What is at each position, and its number: of vertices the row, of half edges the edge, and -1 for none."""
    if (found := numpy()) is not None:
        kinds, numbers = viewed(positions)[::2].astype("B"), viewed(positions)[1::2].copy()
        halves = (kinds == Place.ON_EDGE) | (kinds == Place.OUTSIDE)
        vertices = (kinds == Place.ON_VERTEX) | (kinds == Place.BEYOND_LINE)
        numbers[halves] >>= 1
        numbers[vertices] = found.asarray(by_table(rows, numbers[vertices]))
        return kinds, numbers
    told = array("i")
    for kind, number in zip(positions[::2], positions[1::2], strict=True):
        if kind in (Place.ON_EDGE, Place.OUTSIDE):
            number >>= 1
        elif kind in (Place.ON_VERTEX, Place.BEYOND_LINE):
            number = rows[number]
        told.append(-1 if kind == Place.NOWHERE else number)
    return array("B", positions[::2]), told
