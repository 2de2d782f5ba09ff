"""Triangulations of points, beside what Delaunay's condition says of them."""

from __future__ import annotations

import copy
import itertools
import math
import pickle
import random
import sys
import threading
import unittest
from array import array
from collections.abc import Callable
from ctypes import c_uint64
from decimal import Decimal
from fractions import Fraction
from pathlib import Path
from typing import Any
from unittest import mock

from dcel import DcelError, Delaunay, Grid, Inexact, NoMesh, OutOfMemory, OutOfRange, Place, _declared
from dcel._calls import library
from interrupting import interrupted

sys.path.append(str(Path(__file__).resolve().parents[3] / "tools/lib"))
from delaunay import laid  # noqa: E402

LIMIT = 2**53
FIVE = [(0, 0), (4, 0), (0, 3), (5, 5), (2, 2)]
Point = tuple[int, int]


def area(a: Point, b: Point, c: Point) -> int:
    """Twice the area of a triangle, above 0 if it goes counterclockwise."""
    return (b[0] - a[0]) * (c[1] - a[1]) - (b[1] - a[1]) * (c[0] - a[0])


def in_circle(a: Point, b: Point, c: Point, point: Point) -> int:
    """Above 0 if the point lies inside the circle of the triangle."""
    (ax, ay), (bx, by), (cx, cy) = ((x - point[0], y - point[1]) for x, y in (a, b, c))
    return (ax * ax + ay * ay) * (bx * cy - by * cx) + (bx * bx + by * by) * (cx * ay - cy * ax) + (cx * cx + cy * cy) * (ax * by - ay * bx)


def hull_area(points: list[Point]) -> int:
    """Twice the area of the convex hull."""
    chain: list[Point] = []
    for run in (sorted(set(points)), sorted(set(points), reverse=True)):
        start = len(chain)
        for point in run:
            while len(chain) - start > 1 and area(chain[-2], chain[-1], point) <= 0:
                chain.pop()
            chain.append(point)
        del chain[-1:]
    return sum(area((0, 0), a, b) for a, b in zip(chain, chain[1:] + chain[:1], strict=True))


class Triangles(unittest.TestCase):
    def check(self, made: Delaunay, points: list[Point]) -> None:
        """The triangles are empty, and as large together as the hull. Of equal points they have the first."""
        triangles = made.simplices.tolist()
        for rows in triangles:
            self.assertTrue(all(points.index(points[row]) == row for row in rows))
            corners = [points[row] for row in rows]
            self.assertGreater(area(*corners), 0)
            self.assertTrue(all(in_circle(*corners, other) <= 0 for other in points))
        self.assertEqual(sum(area(*(points[row] for row in rows)) for rows in triangles), hull_area(points))

    def test_random(self) -> None:
        for seed in range(30):
            random.seed(seed)
            width = random.choice([3, 10, LIMIT])
            points = [(random.randint(-width, width), random.randint(-width, width)) for _ in range(random.randint(0, 40))]
            with self.subTest(seed=seed):
                made = Delaunay(points)
                self.check(made, points)
                self.assertEqual(made.points.tolist(), [list(it) for it in points])

    def test_sets(self) -> None:
        """200 sets, each list beside exact checks."""
        for seed in range(200):
            points = laid.some_points(random.Random(seed), seed, 40)
            with self.subTest(seed=seed):
                made = Delaunay(points)
                lists = (getattr(made, name).tolist() for name in ("simplices", "neighbors", "edges", "hull"))
                laid.judge(dict(enumerate(points)), set(), laid.Lists(*lists, [], [0] * len(made.simplices)))

    def test_thousands(self) -> None:
        """Lists of thousands of points fit together, points are found at their rows, and half of them can go."""
        points = [(it * 619 % 5009, it * it % 5011) for it in range(5000)]
        made = Delaunay(points)
        self.check_large(made, 5000)
        self.assertEqual(made.nearest(points).tolist(), list(range(5000)))
        kinds, rows = (it.tolist() for it in made.locate(points))
        self.assertEqual((set(kinds), rows), ({Place.ON_VERTEX}, list(range(5000))))
        other = made.copy()
        other.remove(range(0, 5000, 2))
        self.check_large(other, 2500)
        self.check_large(made, 5000)
        self.assertEqual(made.insert(points).tolist(), list(range(5000, 10_000)))
        self.check_large(made, 5000)

    def check_large(self, made: Delaunay, count: int) -> None:
        """Neighbors have a side in common, and lists are as long as Euler's formula says."""
        triangles, hull = made.simplices.tolist(), made.hull.tolist()
        self.assertEqual((len(triangles) + len(hull) + 2, len(made.edges) + len(hull) + 3), (2 * count, 3 * count))
        outer = {*zip(hull, hull[1:] + hull[:1], strict=True)}
        for rows, others in zip(triangles, made.neighbors.tolist(), strict=True):
            for corner, other in enumerate(others):
                a, b = rows[corner - 2], rows[corner - 1]
                beyond = triangles[other] if other >= 0 else []
                self.assertTrue((a, b) in outer if other < 0 else (b, a) in zip(beyond, beyond[1:] + beyond[:1], strict=True))

    def test_line(self) -> None:
        for count in range(4):
            self.assertEqual(len(Delaunay([(it, 2 * it) for it in range(count)]).simplices), 0)


class Raw(unittest.TestCase):
    """The call of the library that keeps no triangulation, which the class never makes."""

    def test_thousands(self) -> None:
        """Half of the points equal others. Triangles have the first of these, go counterclockwise, and are as large together as the hull."""
        points = [(it * 379 % 2503, it * it % 2503) for it in range(5000)]
        given, found, needed, row = (_declared.Point * 5000)(*points), (_declared.Triangle * 10_000)(), c_uint64(), c_uint64()
        library.dcel_triangulate(given, 5000, found, 10_000, needed, row)
        self.assertEqual(needed.value, Delaunay(points).nsimplex)
        self.assertGreater(needed.value, 4096)
        firsts = {point: number for number, point in reversed([*enumerate(points)])}
        triangles = [(it.first, it.second, it.third) for it in found[: needed.value]]
        self.assertTrue(all(firsts[points[corner]] == corner for it in triangles for corner in it))
        areas = [area(*(points[corner] for corner in it)) for it in triangles]
        self.assertGreater(min(areas), 0)
        self.assertEqual(sum(areas), hull_area(points))


class In(unittest.TestCase):
    def test_forms(self) -> None:
        flat = array("q", [it for point in FIVE for it in point])
        wanted = sorted(Delaunay(FIVE).simplices.tolist())
        forms: list[Any] = [iter(FIVE), map(list, FIVE), *(memoryview(array(code, flat)).cast("B").cast(code, (5, 2)) for code in "bhilqBHILQfd")]
        for given in forms:
            with self.subTest(form=getattr(given, "format", type(given))):
                self.assertEqual(sorted(Delaunay(given).simplices.tolist()), wanted)

    def test_no_points(self) -> None:
        """What are no points is refused with the argument's name, and the row if there is one, wherever points are given."""
        flat, nan, made = memoryview(array("q", range(12))), float("nan"), Delaunay(FIVE)
        rows = [[(0, 0), it] for it in ((1, 2, 3), (1,), (), 7, "ab", ("a", 1), (1, None), (1, 2j), (nan, 0), (0, float("-inf")))]
        others: list[Any] = [flat, flat.cast("B").cast("q", (4, 3)), [1, 2, 3], "points", [[[1, 2, 3]]], 3, None, {1: 2}]
        calls = {"points": [Delaunay, made.insert, Grid.fit, Grid(1.0).snap], "xi": [made.find_simplex, made.locate, made.nearest], "steps": [Grid(1.0).back]}
        for name, its in calls.items():
            for call in its:
                for wrong in rows:
                    with self.subTest(call=call, given=wrong), self.assertRaisesRegex((TypeError, ValueError), f"^{name}: (row 1|coordinates|an array)"):
                        call(wrong)
                for wrong in others:
                    with self.subTest(call=call, given=wrong), self.assertRaises((TypeError, ValueError)):
                        call(wrong)
        self.assertEqual((len(made.points), len(made.simplices)), (5, 4))

    def test_out_of_range(self) -> None:
        self.assertEqual(len(Delaunay([(LIMIT, -LIMIT), (-LIMIT, 0), (0, LIMIT)]).simplices), 1)
        for far in ((LIMIT + 1, 0), (0, -LIMIT - 1), (-(2**63), 0), (0, 2**70), (10**400, 0)):
            with self.subTest(point=far):
                with self.assertRaisesRegex(OutOfRange, "points: .* row 1") as raised:
                    Delaunay([(1, 1), far, far])
                self.assertEqual(raised.exception.row, 1)

    def test_other_numbers(self) -> None:
        """A whole number beyond 2**53 is refused beside floats too, and with an exact grid what no float is. Else that is rounded."""
        for grid in ("fit", "exact"):
            with self.assertRaisesRegex(OutOfRange, "row 1"):
                Delaunay([(0.0, 0), (LIMIT + 1, 1), (5, 7)], grid=grid)  # type: ignore[arg-type]
        self.assertEqual(Delaunay([(0.5, 0), (LIMIT, 1), (2.0**60, 7)]).points.tolist()[1:], [[LIMIT, 1], [2.0**60, 7]])
        for it in (Fraction(1, 3), Decimal("0.1"), 1 + Fraction(1, 2**60)):
            with self.subTest(number=it), self.assertRaisesRegex(Inexact, "row 1"):
                Delaunay([(0, 0.5), (1, it)], grid="exact")
            self.assertEqual(Delaunay([(0, 0.5), (1, it)]).points[1, 1], float(it))
        self.assertEqual(Delaunay([(Fraction(1, 4), Decimal("0.5"))], grid="exact").moved, 0.0)

    def test_given_points_stay(self) -> None:
        """The points are copied, and what is shown can't be written to."""
        given = array("q", [0, 0, 4, 0, 0, 3])
        made = Delaunay(memoryview(given).cast("B").cast("q", (3, 2)))
        given[0] = 9
        self.assertEqual((made.points.tolist(), repr(made)), ([[0, 0], [4, 0], [0, 3]], "<Delaunay: 3 points, 1 triangles>"))
        made.insert([(9, 9)])
        self.assertEqual(made.points.tolist()[0], [0, 0])
        for name in ("points", "simplices", "neighbors", "edges", "hull", "convex_hull", "vertex_to_simplex", "min_bound", "max_bound"):
            self.assertTrue(memoryview(getattr(made, name)).readonly)
        self.assertTrue(all(memoryview(it).readonly for it in made.vertex_neighbor_vertices))


class OnGrid(unittest.TestCase):
    def test_fit(self) -> None:
        """It is the finest step, a power of two, of which the greatest coordinate is at most 2**53."""
        for most in (1.0, 0.1, 3, 2.0**53, 5e-324, 1e-310, 1.7976931348623157e308, 2**53 - 1):
            step = Fraction(Grid.fit([(0, most), (-most, 0)]).step)
            with self.subTest(most=most):
                self.assertEqual(step, Fraction(2.0 ** math.frexp(step)[1]) / 2)
                self.assertLessEqual(Fraction(most), 2**53 * step)
                self.assertTrue(step == Fraction(5e-324) or Fraction(most) > 2**52 * step)

    def test_snap(self) -> None:
        for seed in range(200):
            random.seed(seed)
            grid = Grid(2.0 ** random.randint(-20, 5))
            points = [(random.gauss(0, 100), random.choice([-1, 1]) * random.randint(0, 99) * grid.step / 2) for _ in range(10)]
            steps = grid.snap(points).tolist()
            self.assertEqual(steps, [[round(Fraction(it) / Fraction(grid.step)) for it in point] for point in points])
            self.assertEqual(grid.back(steps).tolist(), [[it * grid.step for it in row] for row in steps])

    def test_moved(self) -> None:
        """It is how far the grid moves a point at most, and nothing is moved that needn't be."""
        for points in (FIVE, [(0.5, 0.25), (2.0**-20, 3.0), (7, 2)], [(LIMIT, 1), (0, 1), (1, 0)]):
            self.assertEqual(Delaunay(points).moved, 0.0)
        self.assertEqual(Delaunay([(0.3, 0), (4, 0.5), (1, 2)], grid=Grid(1.0)).moved, 0.5)
        random.seed(1)
        points = [(random.gauss(0, 9), random.gauss(0, 9)) for _ in range(100)]
        made = Delaunay(points)
        self.assertTrue(0 < made.moved <= made.grid.step)
        self.assertEqual(made.points.tolist(), [list(it) for it in points])

    def test_exact(self) -> None:
        self.assertEqual(Delaunay(FIVE, grid="exact").moved, 0.0)
        with self.assertRaisesRegex(Inexact, "row 1") as raised:
            Delaunay([(1.0, 2.0), (2.0**-54, 0.5)], grid="exact")
        self.assertEqual((raised.exception.row, raised.exception.status), (1, None))
        self.assertIsInstance(raised.exception, DcelError)
        made = Delaunay([(2.0**-50, 0), (1, 1)], grid="exact")
        made.remove([0])
        made.insert([(2.0**-53, 0)])
        with self.assertRaisesRegex(Inexact, "row 2") as raised:
            made.insert([(10, 2.0**40)])
        self.assertEqual((raised.exception.row, len(made.points), made.grid), (2, 3, Grid(2.0**-53)))

    def test_wrong(self) -> None:
        for wrong in (Grid(0.3), Grid(0.0), Grid(-1.0), Grid(float("inf")), Grid(float("nan")), "best", Grid("1"), 0.5, None):  # type: ignore[arg-type]
            with self.subTest(grid=wrong), self.assertRaisesRegex(ValueError, "^grid: "):
                Delaunay(FIVE, grid=wrong)  # type: ignore[arg-type]

    def test_kept(self) -> None:
        """A grid that was given stays, and refuses what is beyond it."""
        made = Delaunay(FIVE, grid=Grid(1.0))
        with self.assertRaisesRegex(OutOfRange, "row 1") as raised:
            made.insert([(1, 1), (2.0**54, 0)])
        self.assertEqual((raised.exception.row, len(made.points), made.grid), (1, 5, Grid(1.0)))

    def test_coarser(self) -> None:
        """Points beyond the grid get a coarser one, on which rows stay, also those that were removed."""
        made = Delaunay([*FIVE, (0, 0)])
        made.remove([1])
        before = made.grid
        self.assertEqual(made.insert([(1000, 1000), (2, 2)]).tolist(), [6, 7])
        self.assertTrue(made.grid.step > before.step and made.moved == 0.0)
        self.assertEqual(made.nearest([(999, 999), (4, 0)]).tolist(), [6, 4])
        self.assertEqual([it[::2] for it in made.coplanar.tolist()], [[5, 0], [7, 4]])

    def test_finer(self) -> None:
        """Once the farthest points are removed, the grid is the finest one again, and points that it made equal aren't."""
        points = [(0.25, 0.5), (1, 0.75), (0.5, 0), (0, 1)]
        made = Delaunay(points)
        before = made.grid
        made.insert([(1e20, 0), (3, 0)])
        self.assertEqual((len(made.simplices), made.moved), (0, 3.0))
        made.remove(4)
        self.assertEqual((made.grid, made.moved), (Grid.fit([(3, 0)]), 0.0))
        made.remove([5, 1])
        self.assertEqual((made.grid, made.nearest(points).tolist()), (before, [0, 0, 2, 3]))
        made.remove([0, 2, 3])
        self.assertEqual(made.grid, Delaunay().grid)
        self.assertEqual((made.insert(points).tolist(), made.nearest(points).tolist()), ([6, 7, 8, 9], [6, 7, 8, 9]))
        kept = Delaunay([(0.1, 0), (2, 9)], grid=Grid(1.0))
        kept.remove(1)
        self.assertEqual(kept.grid, Grid(1.0))


class Changes(unittest.TestCase):
    def triangles(self, made: Delaunay) -> set[frozenset[tuple[float, float]]]:
        points = made.points.tolist()
        return {frozenset(tuple(points[row]) for row in rows) for rows in made.simplices.tolist()}

    def test_random(self) -> None:
        """Points that come and go leave the triangulation of those that are there, each under its row."""
        for seed in range(60):
            random.seed(seed)
            made, live = Delaunay(), {}
            for _ in range(12):
                if random.random() < 0.6 or not live:
                    new = [(random.gauss(0, 9), random.gauss(0, 9)) for _ in range(random.choice([0, 1, 2, 5]))]
                    new += random.sample(list(live.values()), min(len(live), random.choice([0, 0, 1])))
                    live.update(zip(made.insert(new).tolist(), new, strict=True))
                else:
                    rows = random.sample(list(live), min(len(live), random.choice([1, 3])))
                    made.remove(rows)
                    for row in rows:
                        del live[row]
                fresh = Delaunay(live.values(), grid=made.grid)
                self.assertEqual(self.triangles(made), self.triangles(fresh))
                points = made.points.tolist()
                self.assertTrue(all(tuple(points[row]) == point for row, point in live.items()))
                self.assertLessEqual({*sum(made.edges.tolist(), []), *made.hull.tolist()}, set(live))
                if live:
                    ahead = [min(it for it, other in live.items() if other == point) for point in live.values()]
                    self.assertEqual(made.nearest(list(live.values())).tolist(), ahead)
                self.assertEqual(self.triangles(made.copy()), self.triangles(made))

    def test_rows(self) -> None:
        made = Delaunay([*FIVE, (4, 0)])
        for wrong, kind in (([6], IndexError), ([-1], IndexError), ([0, 1.5], TypeError), (["a"], TypeError), ([[1]], TypeError), (None, TypeError), (True, TypeError), ([False, True], TypeError)):
            with self.subTest(rows=wrong), self.assertRaises(kind):
                made.remove(wrong)  # type: ignore[arg-type]
        made.remove(1)
        self.assertEqual((made.nearest([(4, 0)]).tolist(), made.coplanar.tolist()), ([5], []))
        self.assertEqual((repr(made), made.npoints), ("<Delaunay: 5 points, 4 triangles>", 6))
        with self.assertRaisesRegex(IndexError, "row 1 was removed"):
            made.remove([0, 1])
        self.assertEqual(made.nearest([(0, 0)]).tolist(), [0])
        made.remove(range(2, 6))
        made.remove([0])
        self.assertEqual((len(made.simplices), made.hull.tolist(), made.nearest([(0, 0)]).tolist()), (0, [], [-1]))
        self.assertEqual(made.insert(FIVE).tolist(), [6, 7, 8, 9, 10])

    def test_copies(self) -> None:
        made = Delaunay(FIVE)
        others = [made.copy(), copy.copy(made), copy.deepcopy(made)]
        made.remove([4])
        self.assertTrue(all(len(it.simplices) == 4 for it in others))
        with self.assertRaisesRegex(TypeError, "pickled"):
            pickle.dumps(made)

    def test_new_again(self) -> None:
        """Arrays of before are forgotten, also if the points are refused."""
        made = Delaunay(FIVE)
        self.assertEqual((len(made.simplices), len(made.points)), (4, 5))
        with self.assertRaises(TypeError):
            made.__init__([(1, "a")])  # type: ignore[misc]
        self.assertEqual((len(made.simplices), len(made.points), made.nearest([(0, 0)]).tolist()), (0, 0, [-1]))

    def test_without_memory(self) -> None:
        """Points that were inserted before memory ran out are taken back, and arrays are of what is left."""
        made, insert_all = Delaunay([*FIVE, (0, 1), (3, 0)]), Delaunay._calls.insert_all

        def inserts_and_fails(*given: Any) -> None:
            insert_all(*given)
            raise OutOfMemory

        before = made.simplices
        with mock.patch.object(Delaunay._calls, "insert_all", inserts_and_fails), self.assertRaises(OutOfMemory):
            made.insert([(1, 1), (2, 1), (3, 2), (1, 1)])
        self.assertIsNot(made.simplices, before)
        self.assertEqual(made.simplices.tolist(), made.copy().simplices.tolist())
        self.assertEqual((sorted(map(sorted, made.simplices.tolist())), len(made.points)), (sorted(map(sorted, before.tolist())), 7))

    def test_threads(self) -> None:
        """Threads that share a triangulation take turns, however often they are switched."""
        made, each = Delaunay(FIVE), 60
        failed: list[BaseException] = []

        def change(left: int) -> None:
            try:
                for turn in range(each):
                    rows = made.insert([(left + turn, turn * turn % 97), (left, turn)] if turn % 2 else [(left + turn, turn)]).tolist()
                    if turn % 3 == 0:
                        made.remove(rows)
                    self.assertEqual(made.nearest([(0, 0)]).tolist(), [0])
                    self.assertLess(max(made.simplices.tolist()[-1]), made.npoints)
            except BaseException as error:
                failed.append(error)
                raise

        interval = sys.getswitchinterval()
        sys.setswitchinterval(1e-6)
        threads = [threading.Thread(target=change, args=(left,)) for left in (1000, -1000)]
        for thread in threads:
            thread.start()
        for thread in threads:
            thread.join()
        sys.setswitchinterval(interval)
        self.assertEqual((failed, made.npoints), ([], 5 + 3 * each))
        points = made.points.tolist()
        live = [row for row, it in enumerate(made.vertex_to_simplex) if it >= 0]
        self.assertEqual([points[row] for row in made.nearest([points[row] for row in live])], [points[row] for row in live])
        self.assertEqual(self.triangles(made), self.triangles(Delaunay([points[row] for row in live], grid=made.grid)))


class Interrupts(unittest.TestCase):
    """A change that is interrupted before any line of the package is made wholly or not at all, or the triangulation is freed."""

    def check(self, made: Delaunay) -> tuple[int, ...]:
        """Everything in it is of the same points. Returns the rows that are there."""
        points, live = made.points.tolist(), [row for row, it in enumerate(made.vertex_to_simplex) if it >= 0]
        self.assertEqual(made.npoints, len(points))
        self.assertEqual([points[row] for row in made.nearest([points[row] for row in live])], [points[row] for row in live])
        fresh = Delaunay([points[row] for row in live])
        self.assertEqual((made.grid >= fresh.grid, made.moved, len(made.simplices)), (True, 0.0, len(fresh.simplices)))
        self.assertLessEqual({*sum(made.simplices.tolist(), [])}, {*live})
        self.assertEqual(made.simplices.tolist(), made.copy().simplices.tolist())
        rows = made.insert([(1, 0.25), (0.5, 0.5)]).tolist()
        self.assertEqual((rows, made.nearest([(1, 0.25), (0.5, 0.5)]).tolist()), ([len(points), len(points) + 1], rows))
        return tuple(live)

    def test_each(self) -> None:
        all_rows = tuple(range(7))
        calls: list[tuple[Callable[[Delaunay], object], set[tuple[int, ...]]]] = [
            *((lambda made, it=it: made.insert(it), {all_rows, all_rows + tuple(range(7, 7 + len(it)))}) for it in ([(1, 1)], [(1, 1), (3, 1), (2, 0.5)], [(9, 9), (0.25, 1)])),
            *((lambda made, it=it: made.remove(it), {all_rows, tuple(row for row in all_rows if row not in it)}) for it in ([4], [3])),
            (lambda made: made.remove([4, 5, 6]), {all_rows, (0, 1, 2, 3), *((0, 1, 2, 3, *some) for some in ((4,), (5,), (6,), (4, 5), (4, 6), (5, 6)))}),
        ]
        for call, wanted in calls:
            found = set()
            for lines in itertools.count():
                made = Delaunay([*FIVE, (3, 1), (1, 2)])
                self.assertEqual((len(made.simplices), len(made.points), len(made.edges)), (8, 7, 14))
                ended = not interrupted(lambda: call(made), lines)  # noqa: B023
                with self.subTest(lines=lines):
                    found.add(self.check(made))
                if ended:
                    break
            self.assertLessEqual(found, wanted)
            self.assertTrue(all_rows in found and len(found) > 1)

    def test_twice(self) -> None:
        """One that can't be taken back is freed."""
        made = Delaunay(FIVE)
        with mock.patch.object(Delaunay, "_take_out", side_effect=KeyboardInterrupt), mock.patch("dcel._triangulation.least_rows", side_effect=KeyboardInterrupt):
            with self.assertRaises(KeyboardInterrupt):
                made.insert([(1, 1), (3, 1)])
        for call in (lambda: made.simplices, lambda: made.nearest([(0, 0)]), lambda: made.insert([(1, 1)])):
            with self.assertRaises(NoMesh):
                call()


class Out(unittest.TestCase):
    def test_lists(self) -> None:
        made = Delaunay([*FIVE, (4, 0)])
        triangles, beside = made.simplices.tolist(), made.neighbors.tolist()
        for rows, others in zip(triangles, beside, strict=True):
            for corner, other in enumerate(others):
                side = {*rows} - {rows[corner]}
                self.assertEqual([it for it in triangles if side < {*it} and it != rows], [triangles[other]] if other >= 0 else [])
        self.assertEqual(sorted(map(sorted, made.convex_hull.tolist())), [[0, 1], [0, 2], [1, 3], [2, 3]])
        self.assertEqual({*map(frozenset, made.edges.tolist())}, {frozenset(it) for rows in triangles for it in itertools.combinations(rows, 2)})
        self.assertTrue(all(row in triangles[made.vertex_to_simplex[row]] for row in range(5)) and made.vertex_to_simplex[5] == made.vertex_to_simplex[1])
        self.assertEqual(made.coplanar.tolist(), [[5, made.vertex_to_simplex[1], 1]])
        indptr, indices = made.vertex_neighbor_vertices
        rings = [indices[indptr[row] : indptr[row + 1]].tolist() for row in range(6)]
        self.assertEqual(rings, [[1, 2, 4], [0, 3, 4], [0, 3, 4], [1, 2, 4], [0, 1, 2, 3], []])

    def test_line(self) -> None:
        made = Delaunay([(2, 2), (0, 0), (1, 1)])
        self.assertEqual((made.simplices.tolist(), made.neighbors.tolist(), made.vertex_to_simplex.tolist()), ([], [], [-1] * 3))
        self.assertEqual(sorted(map(sorted, made.edges.tolist())), [[0, 2], [1, 2]])
        self.assertEqual(sorted(made.hull.tolist()), [0, 1, 2, 2])
        self.assertEqual([it.tolist() for it in made.locate([(0.5, 0.5), (1, 1), (-1, -1), (1, 0)])][0], [1, 2, 4, 3])
        self.assertEqual(made.find_simplex([(0.5, 0.5), (1, 1), (7, 7), (1, 0)]).tolist(), [-1] * 4)

    def test_few(self) -> None:
        self.assertEqual([it.tolist() for it in Delaunay().locate([(0, 0)])], [[5], [-1]])
        one = Delaunay([(3, 4)])
        self.assertEqual([it.tolist() for it in one.locate([(3, 4), (0, 0)])], [[2, 5], [0, -1]])
        self.assertEqual((one.hull.tolist(), one.convex_hull.tolist(), one.edges.tolist()), ([0], [], []))

    def test_queries(self) -> None:
        made = Delaunay([*FIVE, (4, 0)])
        kinds, numbers = (it.tolist() for it in made.locate([(0.5, 0.75), (1, 1), (4, 0), (-1, 1)]))
        self.assertEqual(kinds, [Place.ON_FACE, Place.ON_EDGE, Place.ON_VERTEX, Place.OUTSIDE])
        edges = made.edges.tolist()
        self.assertEqual((set(edges[numbers[1]]), numbers[2], set(edges[numbers[3]])), ({0, 4}, 1, {0, 2}))
        self.assertEqual(set(made.simplices.tolist()[numbers[0]]), {0, 2, 4})
        found = made.find_simplex([(0.5, 0.75), (1, 1), (4, 0), (-1, 1), (1e300, 0), (0, -8)]).tolist()
        self.assertEqual((found[0], found[3:]), (numbers[0], [-1] * 3))
        self.assertTrue({0, 4} < set(made.simplices.tolist()[found[1]]) and 1 in made.simplices.tolist()[found[2]])
        self.assertEqual(made.nearest([(0, 0), (9, 0), (0, 10**300)]).tolist(), [0, 1, 3])
        for call in (made.find_simplex, made.locate, made.nearest):
            with self.assertRaisesRegex(OutOfRange, "xi: .* row 1") as raised:
                call([(0, 0), (10**400, 0)])
            self.assertEqual(raised.exception.row, 1)

    def test_what_a_query_makes(self) -> None:
        """Where it is enough to ask the library, no list is made."""
        made = Delaunay(FIVE)
        self.assertEqual(made.find_simplex([(0.5, 0.75), (-1, 1)]).tolist()[1], -1)
        self.assertFalse({"simplices", "_faces", "vertex_to_simplex"} & set(vars(made)))

    def test_shapes(self) -> None:
        made = Delaunay(FIVE)
        for call in (made.find_simplex, made.nearest, lambda xi: made.locate(xi)[1]):
            self.assertEqual((call([]).tolist(), call(()).tolist()), ([], []))
            self.assertEqual((call((4, 0)).tolist(), call((4, 0)).shape), (call([(4, 0)]).tolist()[0], ()))
            self.assertEqual(call(it for it in FIVE).tolist(), call(FIVE).tolist())

    def test_names(self) -> None:
        made = Delaunay([*FIVE, (-1, 9)])
        made.remove(5)
        self.assertEqual((made.ndim, made.npoints, made.nsimplex), (2, 6, 4))
        self.assertEqual((made.min_bound.tolist(), made.max_bound.tolist()), ([0, 0], [5, 5]))
        self.assertEqual((Delaunay().min_bound.tolist(), Delaunay().max_bound.tolist()), ([math.inf] * 2, [-math.inf] * 2))

    def test_far(self) -> None:
        """Any point may be asked for, also beyond the grid."""
        for seed in range(60):
            random.seed(seed)
            width, count = random.choice([2, 9, 100]), random.choice([0, 1, 2, 3, 8, 30])
            points = [(random.randint(-width, width), random.randint(-width, width)) for _ in range(count)]
            points = [(x, 2 * x) for x, _ in points] if seed % 5 == 0 else points
            made = Delaunay(points)
            far = [(random.choice([-1, 1]) * random.randint(0, 5 * width), random.randint(-5 * width, 5 * width)) for _ in range(20)]
            far += [(it, 2 * it) for it in (-(2**70), -9 * width, 9 * width, 2**70)] + [(2**600, -1), (width + 1, -(2**300))]
            with self.subTest(seed=seed):
                self.check_far(made, points, far)

    def check_far(self, made: Delaunay, points: list[Point], far: list[Point]) -> None:
        def apart(row: int, point: Point) -> int:
            return (points[row][0] - point[0]) ** 2 + (points[row][1] - point[1]) ** 2

        edges, triangles = made.edges.tolist(), made.simplices.tolist()
        outer = {(b, a) for (a, b) in made.convex_hull.tolist()}
        places = zip(far, made.nearest(far).tolist(), made.find_simplex(far).tolist(), *(it.tolist() for it in made.locate(far)), strict=True)
        for point, near, triangle, kind, number in places:
            self.assertEqual(apart(near, point) if points else near, min((apart(row, point) for row in range(len(points))), default=-1))
            if kind == Place.OUTSIDE:
                sides = [it for it in (tuple(edges[number]), tuple(edges[number][::-1])) if it in outer]
                self.assertTrue(any(area(points[a], points[b], point) > 0 for a, b in sides))
            elif kind == Place.BEYOND_LINE:
                self.assertEqual((triangles, number), ([], near))
                self.assertTrue(len(edges) and all(area(points[a], points[b], point) == 0 for a, b in edges))
            elif kind == Place.NOWHERE:
                self.assertTrue(number == -1 and not edges and point not in points)
            elif kind == Place.ON_FACE:
                self.assertEqual(triangle, number)
            self.assertEqual(triangle >= 0, kind <= Place.ON_VERTEX and len(triangles) > 0)

    def test_mesh(self) -> None:
        made = Delaunay([*FIVE, (4, 0)])
        mesh = made.mesh()
        self.assertTrue(mesh.sanity_check())
        for face in range(1, mesh.num_faces()):
            corners = {mesh.vertex_data(mesh.from_(edge)) for edge in mesh.face_edges(face)}
            self.assertEqual(corners, set(made.simplices.tolist()[face - 1]))
