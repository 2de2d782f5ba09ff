"""Numbers as C takes them, in and out without a loop in Python."""

from __future__ import annotations

from array import array
from collections.abc import Iterable
from ctypes import addressof, c_char, c_uint32
from functools import cache
from importlib import import_module
from operator import index
from types import ModuleType
from typing import Any

assert (array("I").itemsize, array("Q").itemsize) == (4, 8)

# What numbers without a sign are called, of 32 and of 64 bits.
FORMATS = {"I": {"I"}, "Q": {"Q"} | ({"L"} if array("L").itemsize == 8 else set())}


def number(value: int) -> int:
    """The number, if it has 32 bits."""
    value = index(value)  # NumPy's numbers too
    if value >> 32:
        raise OverflowError(f"{value} isn't from 0 to 2**32 - 1")
    return value


def wide(value: int) -> int:
    """The number, if it has 64 bits."""
    value = index(value)
    if value >> 64:
        raise OverflowError(f"{value} isn't from 0 to 2**64 - 1")
    return value


def numbers(values: Iterable[int], code: str = "I") -> memoryview:
    """The numbers in a row, of 32 bits or with the code "Q" of 64, of a length that stays. Where they lie so already, in a place for such
    numbers, and can be written to, they are taken as they lie; others are copied."""
    try:
        view = memoryview(values)  # type: ignore[arg-type]
    except TypeError:
        return memoryview(array(code, values))
    if view.ndim != 1:
        raise TypeError(f"a list of numbers has one dimension, and not {view.ndim}")
    if view.format not in FORMATS[code]:
        return memoryview(array(code, iter(values)))
    return memoryview(array(code, view.tobytes())) if view.readonly or not view.contiguous or not is_aligned(view) else view


def is_aligned(view: memoryview) -> bool:
    """Whether the items lie where C puts such numbers. Those of a slice of bytes may lie anywhere."""
    return not view or addressof(c_char.from_buffer(view)) % view.itemsize == 0


def corners_of(corners: Iterable[Any], counts: Iterable[int] | None) -> tuple[memoryview, memoryview]:
    """The corners of all faces in a row, and how many each has. Without counts there is a row for each face: of an array of two
    dimensions, or of any iterable."""
    if counts is not None:
        return numbers(flat(corners)), numbers(counts)
    try:
        view = memoryview(corners)  # type: ignore[arg-type]
    except TypeError:
        return rows(corners)
    if view.ndim != 2:
        raise TypeError(f"faces without counts are an array of two dimensions, and not of {view.ndim}")
    return numbers(flat(corners)), memoryview(array("I", [view.shape[1]]) * view.shape[0])  # type: ignore[index]


def flat(values: Iterable[Any], width: int | None = None) -> Iterable[Any]:
    """The items of an array of two dimensions, row after row; and anything else as it is. With a width, ValueError for another one."""
    try:
        view = memoryview(values)  # type: ignore[arg-type]
    except TypeError:
        return values
    if view.ndim != 2:
        return values
    if width not in (None, view.shape[1]):  # type: ignore[index]
        raise ValueError(f"an array of shape (m, {width}), and not {view.shape}")
    if view.c_contiguous and view.format in FORMATS["I"] and not view.readonly:
        return view.cast("B").cast("I") if view.nbytes else array("I")
    try:
        return memoryview(view.tobytes()).cast(view.format)  # type: ignore[call-overload]
    except ValueError:  # the bytes of its numbers stand in another order than here
        return [item for row in values for item in row]


def rows(faces: Iterable[Iterable[int]]) -> tuple[memoryview, memoryview]:
    corners, counts = array("I"), array("I")
    for face in faces:
        before = len(corners)
        corners.extend(face)
        counts.append(len(corners) - before)
    return memoryview(corners), memoryview(counts)


def in_rows(values: Iterable[Any], width: int) -> memoryview:
    """The numbers of an array of shape (k, width) in a row, of 64 bits, or of rows that may be shorter, which zeros fill."""
    try:
        view = memoryview(values)  # type: ignore[arg-type]
    except TypeError:
        return memoryview(array("Q", [it for row in values for it in filled(row, width)]))
    if view.ndim != 2 or view.shape[1] != width:  # type: ignore[index]
        raise ValueError(f"an array of shape (k, {width}), and not {view.shape}")
    if view.format in FORMATS["Q"] and view.c_contiguous and view.nbytes:
        return memoryview(array("Q", view.tobytes()))
    return memoryview(array("Q", [it for row in view.tolist() for it in row]))


def filled(row: Iterable[int], width: int) -> list[int]:
    """The numbers of a row, with zeros behind them."""
    found = [wide(it) for it in row]
    if len(found) > width:
        raise ValueError(f"a row of up to {width} numbers, and not {len(found)}")
    return found + [0] * (width - len(found))


def zeros(length: int) -> array[int]:
    return array("I", bytes(4 * length))


def start_of(items: array[int] | bytearray | memoryview, kind: Any = c_uint32) -> Any:
    """The first item, which ctypes passes by its place, and as long as it is there, the items aren't moved. If there is none it is another
    one, so that no pointer is null."""
    return kind.from_buffer(items) if len(items) else kind()


def listed(items: array[int] | bytearray | memoryview, kind: Any = c_uint32) -> tuple[Any, int]:
    """A list as the calls take it: where it begins, and how long it is."""
    return start_of(items, kind), len(items)


@cache
def numpy() -> ModuleType | None:
    """NumPy, if it is installed."""
    try:
        return import_module("numpy")
    except ImportError:
        return None


def shaped(items: Any, width: int, code: str = "i") -> Any:
    """The items, in rows of so many if that isn't 1: an array of NumPy's, or without it a memoryview, which has one dimension if it is
    empty. They aren't copied; the code is what they are: "i" for 32 bits with a sign."""
    if (found := numpy()) is not None:
        flat = found.frombuffer(items, code) if len(items) else found.empty(0, code)
        return flat.reshape(-1, width) if width > 1 else flat
    view = memoryview(items)
    if not items or (width == 1 and view.format == code):
        return view.cast("B").cast(code) if items else memoryview(array(code))
    flat = view.cast("B")
    return flat.cast(code, (flat.nbytes // (width * array(code).itemsize), width)) if width > 1 else flat.cast(code)
