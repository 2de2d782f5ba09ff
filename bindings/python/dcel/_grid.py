"""Points as they are given, and the grid that they are put on."""

from __future__ import annotations

from array import array
from collections.abc import Iterable
from math import frexp, hypot, inf, isfinite, ldexp
from numbers import Integral, Real
from operator import index
from typing import Any, NamedTuple, NoReturn

from ._arrays import numpy, shaped
from ._errors import Inexact, OutOfRange

MOST = 2**53  #: how many steps from 0 a coordinate may be
LEAST_POWER = -1074  #: of the least float above 0


class Grid(NamedTuple):
    """The multiples of a step, on which coordinates become whole numbers: as many steps. A coordinate is at most 2**53 steps from 0.

    The step is a power of two, in the unit of the coordinates, so that a multiple of it is exactly a float.

    >>> Grid.fit([(0.1, 0.2), (1, 0.5)])
    Grid(step=1.1102230246251565e-16)
    >>> Grid(0.25).snap([(0.5, 1), (1.1, -3)]).tolist()
    [[2, 4], [4, -12]]
    """

    step: float

    @classmethod
    def fit(cls, points: Iterable[Any], free_bits: int = 0) -> Grid:
        """The finest grid on which these points, (n, 2), are in range: of which all coordinates are at most 2**53 steps from 0.

        The nearest multiple of its step is then at most 2**-53 of the greatest coordinate away. With `free_bits` the step is so many times
        doubled: on the finest grid of points that are rounded to this one, that many bits of each coordinate are 0. Raises ValueError as
        `Delaunay` does, and for `free_bits` that aren't from 0 to 53."""
        if isinstance(free_bits, bool) or not 0 <= index(free_bits) <= 53:
            raise ValueError(f"free_bits: from 0 to 53, and not {free_bits!r}")
        return cls(ldexp(1.0, power_of(floats(points, "points")) + index(free_bits)))

    def round(self, points: Iterable[Any]) -> Any:
        """The nearest points on the grid, (n, 2), of floats. Raises what `snap` does."""
        return shaped(coordinates(snapped(floats(points, "points"), power_of_step(self.step), "points"), power_of_step(self.step)), 2, "d")

    def snap(self, points: Iterable[Any]) -> Any:
        """How many steps the coordinates of points are, rounded to the nearest whole number, of two to the even one: (n, 2), of 64 bits.

        Raises OutOfRange, whose `row` is that of the first point with a coordinate beyond 2**53 steps, and else what `Delaunay` does."""
        return shaped(snapped(floats(points, "points"), power_of_step(self.step), "points"), 2, "q")

    def back(self, steps: Iterable[Any]) -> Any:
        """The coordinates that are so many steps: (n, 2), of floats. Raises ValueError as `Delaunay` does."""
        flat = floats(steps, "steps")
        if (found := numpy()) is not None:
            return flat.reshape(-1, 2) * found.float64(self.step)
        return shaped(array("d", (it * self.step for it in flat)), 2, "d")


def power_of_step(step: float) -> int:
    """The power of two that a step is. Raises ValueError if it is none."""
    half, power = frexp(step) if isinstance(step, Real) and isfinite(step) else (0.0, 0)
    if half != 0.5:
        raise ValueError(f"grid: the step is a power of two, and not {step!r}")
    return power - 1


def power_of(flat: Any) -> int:
    """The power of the finest step of which these coordinates are at most 2**53."""
    found = numpy()
    most = 0.0 if not len(flat) else float(found.abs(flat).max()) if found is not None else max(map(abs, flat))
    half, power = frexp(most)
    return max(power - (54 if half == 0.5 else 53), LEAST_POWER) if most else LEAST_POWER


def snapped(flat: Any, power: int, name: str) -> Any:
    """How many steps of 2**power the coordinates are, rounded. Raises OutOfRange."""
    if (found := numpy()) is not None:
        with found.errstate(over="ignore", under="ignore"):
            steps = found.rint(found.ldexp(flat, -power))
        far = found.abs(steps) > MOST
        if far.any():
            refuse_far(name, int(far.argmax()) // 2)
        return steps.astype(found.int64)
    steps = array("q")
    for place, it in enumerate(flat):
        whole = round_steps(it, power)
        if abs(whole) > MOST:
            refuse_far(name, place // 2)
        steps.append(whole)
    return steps


def coordinates(steps: Any, power: int) -> Any:
    """The coordinates that are so many steps of 2**power, each exactly a float."""
    if (found := numpy()) is not None:
        return found.ldexp(found.asarray(steps).astype(found.float64), power)
    return array("d", (ldexp(float(it), power) for it in steps))


def clipped(flat: Any, power: int) -> tuple[Any, list[int]]:
    """How many steps of 2**power the coordinates are, and which points have one beyond 2**53: it is 2**53 there."""
    if (found := numpy()) is not None:
        with found.errstate(over="ignore", under="ignore"):
            steps = found.rint(found.ldexp(flat, -power))
        far = (found.abs(steps) > MOST).reshape(-1, 2).any(axis=1)
        return found.clip(steps, -MOST, MOST).astype(found.int64), found.flatnonzero(far)
    steps = [round_steps(it, power) for it in flat]
    return array("q", (min(max(it, -MOST), MOST) for it in steps)), [place // 2 for place, it in enumerate(steps) if abs(it) > MOST]


def round_steps(it: float, power: int) -> int:
    """How many steps of 2**power a finite number is, rounded."""
    half, exponent = frexp(it)
    if exponent - power > 53:  # a whole number, and maybe greater than floats are
        return int(ldexp(half, 53)) << (exponent - power - 53)
    return round(ldexp(half, exponent - power))


def rounded(point: Any, power: int) -> tuple[int, int]:
    """How many steps of 2**power the coordinates of a point are, rounded."""
    x, y = point
    return round_steps(x, power), round_steps(y, power)


def far_moved(flat: Any, steps: Any, power: int) -> float:
    """How far the points are at most from where so many steps of 2**power are."""
    if (found := numpy()) is not None:
        apart = (flat - found.ldexp(steps.astype(found.float64), power)).reshape(-1, 2)
        return float(found.hypot(apart[:, 0], apart[:, 1]).max(initial=0.0))
    apart = [it - ldexp(float(many), power) for it, many in zip(flat, steps, strict=True)]
    return max(map(hypot, apart[::2], apart[1::2]), default=0.0)


def first_moved(flat: Any, steps: Any, power: int) -> int:
    """The first point that isn't where so many steps of 2**power are."""
    if (found := numpy()) is not None:
        return int((flat != found.ldexp(steps.astype(found.float64), power)).argmax()) // 2
    return next(place // 2 for place, it in enumerate(flat) if it != ldexp(float(steps[place]), power))


def least_and_most(flat: Any) -> tuple[Any, Any]:
    """The least and the greatest coordinates of points, (2,) each: inf and -inf of none."""
    if (found := numpy()) is not None:
        return flat.reshape(-1, 2).min(axis=0, initial=found.inf), flat.reshape(-1, 2).max(axis=0, initial=-found.inf)
    columns = flat[::2], flat[1::2]
    least, most = (array("d", (kind(it, default=none) for it in columns)) for kind, none in ((min, inf), (max, -inf)))
    return shaped(least, 1, "d"), shaped(most, 1, "d")


def refuse_far(name: str, row: int) -> NoReturn:
    error = OutOfRange(f"{name}: {OutOfRange.__doc__} It is in row {row}.")
    error.row = row
    raise error


def refuse_unequal(name: str, row: int) -> NoReturn:
    error = Inexact(f"{name}: {Inexact.__doc__} It is in row {row}.")
    error.row = row
    raise error


def floats(points: Any, name: str, is_query: bool = False, is_exact: bool = False) -> Any:
    """The coordinates of points in a row, as they lie if they are floats of NumPy's in that order.

    The points are an array of shape (n, 2) of real numbers, or an iterable of pairs. Raises ValueError or TypeError, which names the row:
    for another shape, for what is no number or is masked, for nan and infinities; OutOfRange for whole numbers beyond 2**53; and with
    `is_exact` Inexact for numbers that no float is. Those of a query may be of shape (.., 2), and whole numbers of any size."""
    if not hasattr(points, "__len__"):
        points = list(points)
    if (found := numpy()) is None:
        return each(points, name, is_query, is_exact)
    if (masks := found.ma.getmask(points)).any():
        raise ValueError(f"{name}: row {int(masks.argmax()) // 2} is masked")
    try:
        given = found.asarray(points)
    except ValueError:  # rows of other lengths
        return found.asarray(each(points, name, is_query, is_exact))
    if given.dtype.kind not in "biuf":
        if given.dtype.kind != "O":
            raise TypeError(f"{name}: coordinates are real numbers, and not {given.dtype}")
        return found.asarray(each(points if given.ndim != 2 else given.tolist(), name, is_query, is_exact))
    if given.ndim == 1 and not given.size:
        return found.empty(0)
    if given.ndim < 1 or given.shape[-1] != 2 or (given.ndim != 2 and not is_query):
        raise ValueError(f"{name}: an array of shape {'(.., 2)' if is_query else '(n, 2)'}, and not {given.shape}")
    if given.dtype.kind == "f" and isinstance(points, (list, tuple)) and not is_query and (found.abs(given) >= MOST).any():
        return found.asarray(each(points, name, is_query, is_exact))  # whole numbers among them were rounded
    return checked(given, name, is_query, is_exact)


def checked(given: Any, name: str, is_query: bool, is_exact: bool) -> Any:
    """The coordinates in a row, where NumPy has them as real numbers."""
    found = numpy()
    assert found is not None
    if given.dtype.kind in "iu" and given.dtype.itemsize == 8 and not is_query:
        far = given > MOST if given.dtype.kind == "u" else (given > MOST) | (given < -MOST)
        if far.any():
            refuse_far(name, int(far.reshape(-1).argmax()) // 2)
    flat = found.ascontiguousarray(given, found.float64).reshape(-1)
    if not (fine := found.isfinite(flat)).all():
        place = int(fine.argmin())
        raise ValueError(f"{name}: row {place // 2} has {flat[place]}")
    if is_exact and (unequal := flat != given.reshape(-1)).any():
        refuse_unequal(name, int(unequal.argmax()) // 2)
    return flat


def is_one(points: Any) -> bool:
    """Whether it is one point, of two numbers, and no list of them."""
    return hasattr(points, "__len__") and len(points) == 2 and all(isinstance(it, Real) for it in points)


def each(points: Any, name: str, is_query: bool, is_exact: bool) -> array[float]:
    """The coordinates in a row, one point after the other."""
    if is_query and is_one(points):
        points = [tuple(points)]
    view = None
    try:
        view = memoryview(points)
    except TypeError:
        pass
    if view is not None:
        if view.nbytes and (view.ndim != 2 or view.shape[1] != 2):  # type: ignore[index]
            raise ValueError(f"{name}: an array of shape (n, 2), and not {view.shape}")
        points = view.tolist()
    flat = array("d")
    for row, pair in enumerate(points):
        try:
            x, y = pair
        except (TypeError, ValueError):
            raise ValueError(f"{name}: row {row} is no pair of numbers: {pair!r}") from None
        for it in (x, y):
            if isinstance(it, Integral) and not is_query and not -MOST <= it <= MOST:
                refuse_far(name, row)
            flat.append(coordinate(it, name, row))
            if is_exact and flat[-1] != it:
                refuse_unequal(name, row)
    return flat


def coordinate(it: Any, name: str, row: int) -> float:
    """A number as a float. Raises an error that names the row."""
    if isinstance(it, (str, bytes, complex)) or it is None:
        raise TypeError(f"{name}: row {row} has {it!r}, which is no real number")
    try:
        found = float(it)
    except OverflowError:
        refuse_far(name, row)
    except (TypeError, ValueError):
        raise TypeError(f"{name}: row {row} has {it!r}, which is no real number") from None
    if not isfinite(found):
        raise ValueError(f"{name}: row {row} has {found}")
    return found
