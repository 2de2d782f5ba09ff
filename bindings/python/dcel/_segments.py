"""Segments as they are given: pairs of rows of points."""

from __future__ import annotations

from array import array
from operator import index
from typing import Any, NoReturn

from ._arrays import numpy
from ._tables import kept, viewed

MOST = 2**62


def vertices_at(rows: array[int], vertices: array[int]) -> array[int]:
    """The vertices of rows at the ends of segments, where each row of points has one of these vertices, or -1 if it was removed."""
    if numpy() is None or not vertices:
        refuse_first(rows, vertices)
        return array("i", (vertices[row] for row in rows))
    given = viewed(rows, "q")
    found = viewed(vertices).take(given, mode="clip")
    if ((given < 0) | (given >= len(vertices)) | (found < 0)).any():
        refuse_first(rows, vertices)
    return kept(found)


def refuse_first(rows: array[int], vertices: array[int]) -> None:
    """Raises IndexError for the first segment that ends at a row without a vertex."""
    for place, row in enumerate(rows):
        if not 0 <= row < len(vertices):
            refuse_row(place // 2, row)
        if vertices[row] < 0:
            raise IndexError(f"segments: row {place // 2} has row {row} of points, which was removed")


def refuse_row(number: int, row: int) -> NoReturn:
    raise IndexError(f"segments: row {number} has {row}, and there is no such row of points")


def pairs_of(segments: Any) -> array[int]:
    """The rows at the ends of segments, one after the other, of 64 bits.

    The segments are an array of shape (k, 2) of whole numbers, or an iterable of pairs. Raises TypeError, ValueError or IndexError, which
    names the row of the segment, for what is no pair of rows or is masked."""
    if not hasattr(segments, "__len__"):
        segments = list(segments)
    if (found := numpy()) is None or isinstance(segments, (list, tuple)):  # which may have bools among numbers
        return each_pair(segments)
    if (masks := found.ma.getmask(segments)).any():
        raise ValueError(f"segments: row {int(masks.argmax()) // 2} is masked")
    given = found.asarray(segments)
    if given.ndim != 2 or given.shape[1] != 2:
        if given.ndim == 1:
            return each_pair(given.tolist())
        raise ValueError(f"segments: an array of shape (k, 2), and not {given.shape}")
    if given.size and (given.dtype.kind not in "iu" or given.dtype == found.uint64):
        return each_pair(given.tolist())
    return array("q", given.astype(found.int64).tobytes())


def each_pair(segments: Any) -> array[int]:
    """The same, one segment after the other."""
    view = None
    try:
        view = memoryview(segments)
    except TypeError:
        pass
    if view is not None:
        if view.nbytes and (view.ndim != 2 or view.shape[1] != 2):  # type: ignore[index]
            raise ValueError(f"segments: an array of shape (k, 2), and not {view.shape}")
        segments = view.tolist()
    rows = array("q")
    for number, pair in enumerate(segments):
        try:
            one, other = pair
        except (TypeError, ValueError):
            raise ValueError(f"segments: row {number} is no pair of rows of points: {pair!r}") from None
        rows.extend((end_of(one, number), end_of(other, number)))
    return rows


def end_of(it: Any, number: int) -> int:
    """A row of points, which may not be there."""
    try:
        row = index(None if isinstance(it, bool) else it)  # a mask has no rows
    except TypeError:
        raise TypeError(f"segments: row {number} has {it!r}, which is no row of points") from None
    if abs(row) > MOST:
        refuse_row(number, row)
    return row
