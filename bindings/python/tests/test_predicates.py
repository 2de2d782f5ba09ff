"""Orientations and circles at quadruples of points of every size, beside Python's whole numbers: triangles of four points show what the
predicates answer of them."""

from __future__ import annotations

import random
import sys
import unittest
from ctypes import c_uint64
from pathlib import Path

from dcel import _declared
from dcel._calls import library

sys.path.append(str(Path(__file__).resolve().parents[3] / "tools/lib"))
from delaunay import plane  # noqa: E402

LIMIT, COUNT = 2**53, 50_000
# How far apart points may be, about, for determinants to be computed in machine words: of circles, and of the angles across an edge.
NEAR, NARROW = 2**30, 2**31
Point = tuple[int, int]


def place(rng: random.Random, size: int) -> Point:
    return rng.randint(-size, size), rng.randint(-size, size)


def moved(point: Point, by: Point) -> Point:
    return point[0] + by[0], point[1] + by[1]


def steps(rng: random.Random, longest: int) -> Point:
    """Steps that are about as long as those for machine words may be."""
    x, y = (rng.choice([longest + rng.randint(-2, 1), -longest + rng.randint(-2, 1), rng.randint(-longest, longest)]) for _ in range(2))
    return x, y


def quadruple(rng: random.Random, number: int) -> list[Point]:
    size, kind = 1 << number % 54, number // 54 % 5
    first, (x, y) = place(rng, size), place(rng, size // (2 if kind == 3 else 8))
    if kind == 0:
        return [first, *(place(rng, size) for _ in range(3))]
    if kind == 1:  # just near enough, and just not
        return [*(moved(first, steps(rng, NEAR)) for _ in range(3)), first]
    if kind == 2:  # two seen from two others, which are beside each other
        return [moved(first, steps(rng, NARROW)), moved(first, steps(rng, NARROW)), first, moved(first, place(rng, 2))]
    if kind == 3:  # the corners of a square, the last of which may have moved by one
        return [moved(first, it) for it in ((x, y), (-y, x), (-x, -y), (y, rng.randint(-2, 1) - x))]
    times = rng.randint(-8, 7)
    return [first, moved(first, (x, y)), moved(first, (x * times, y * times + rng.randint(-2, 1))), place(rng, size)]


def in_circle(a: Point, b: Point, c: Point, point: Point) -> int:
    """Above 0 if the point lies inside the circle of the triangle."""
    (ax, ay), (bx, by), (cx, cy) = ((x - point[0], y - point[1]) for x, y in (a, b, c))
    return (ax * ax + ay * ay) * (bx * cy - by * cx) + (bx * bx + by * by) * (cx * ay - cy * ax) + (cx * cx + cy * cy) * (ax * by - ay * bx)


class Predicates(unittest.TestCase):
    def test_quadruples(self) -> None:
        """Triangles of four points go counterclockwise, have empty circles, and tile the hull."""
        rng, given, found = random.Random(1), (_declared.Point * 4)(), (_declared.Triangle * 4)()
        needed, row, tried = c_uint64(), c_uint64(), 0
        for number in range(COUNT):
            points = quadruple(rng, number)
            if max(abs(it) for point in points for it in point) > LIMIT:
                continue
            tried += 1
            for at, point in zip(given, points, strict=True):
                at.x, at.y = point
            library.dcel_triangulate(given, 4, found, 4, needed, row)
            covered = 0
            for it in found[: needed.value]:
                a, b, c = points[it.first], points[it.second], points[it.third]
                double = plane.turn(a, b, c)
                covered += double
                self.assertTrue(double > 0 and max(in_circle(a, b, c, point) for point in points) <= 0, points)
            # The hull is the largest of the polygons through the points.
            a, b, c, d = points
            orders = (a, b, c, d), (a, b, d, c), (a, c, b, d)
            quads = [abs(plane.turn(*it[:3]) + plane.turn(it[0], *it[2:])) for it in orders]
            corners = [abs(plane.turn(*it)) for it in ((a, b, c), (a, b, d), (a, c, d), (b, c, d))]
            self.assertEqual(covered, max(*quads, *corners), points)
        self.assertGreater(tried, COUNT // 2)
