"""What a refinement is to reach, as the library takes it, and what it came to."""

from __future__ import annotations

from fractions import Fraction
from math import ceil, floor, inf, radians, tan
from numbers import Rational, Real
from operator import index
from typing import Any, NamedTuple

from ._declared import Refinement

MOST = 2**16 - 1  #: of the numbers that a tangent is a fraction of
LARGEST_ANGLE = 60  #: of three angles one is as small
ANY_AREA = 2**127  #: twice an area, in steps by steps, from which on any will do


class Refined(NamedTuple):
    """What a refinement came to."""

    added: int  #: how many points it added
    done: bool  #: whether each triangle is as asked
    excepted: int  #: how many angles between two constraints are smaller than asked


def parameters(min_angle: Any, max_area: Any, max_additional_points: Any, inside: bool, power: int) -> Refinement:
    """The parameters on a grid whose step is this power of two. Raises TypeError or ValueError, which names the one that is wrong."""
    rise, run = tangent_of(min_angle)
    high, low = divmod(doubled_steps(max_area, power), 2**64)
    return Refinement(high, low, count_of(max_additional_points), rise, run, bool(inside))


def real(it: Any, name: str) -> Any:
    """A real number."""
    if isinstance(it, bool) or not isinstance(it, Real):
        raise TypeError(f"{name}: {it!r} is no real number")
    return it


def tangent_of(min_angle: Any) -> tuple[int, int]:
    """A fraction that is at least the tangent of an angle, and little more: numerator and denominator."""
    if not 0 <= real(min_angle, "min_angle") <= LARGEST_ANGLE:
        raise ValueError(f"min_angle: from 0 to {LARGEST_ANGLE} degrees, and not {min_angle!r}")
    tangent, more = tan(radians(min_angle)), 1 + 2.0**-50  # as floats are rounded
    if min_angle <= 45:
        return min(ceil(tangent * MOST * more), MOST), MOST
    return MOST, floor(MOST / (tangent * more))


def doubled_steps(max_area: Any, power: int) -> int:
    """Twice an area, in steps of 2**power by such steps, rounded down."""
    if max_area is None or real(max_area, "max_area") == inf:
        return ANY_AREA
    if not max_area > 0:
        raise ValueError(f"max_area: above 0, and not {max_area!r}")
    exact = Fraction(max_area if isinstance(max_area, Rational) else float(max_area))
    return min(floor(2 * exact / Fraction(4) ** power), ANY_AREA)


def count_of(max_additional_points: Any) -> int:
    """A number of points."""
    try:
        count = index(None if isinstance(max_additional_points, bool) else max_additional_points)
    except TypeError:
        raise TypeError(f"max_additional_points: {max_additional_points!r} is no whole number") from None
    if count < 0:
        raise ValueError(f"max_additional_points: 0 or more, and not {count}")
    return min(count, 2**64 - 1)
