"""Refinement, beside exact checks: those of tools/lib/delaunay, and the definitions of angles and areas."""

from __future__ import annotations

import importlib.util
import itertools
import math
import random
import re
import subprocess
import sys
import tempfile
import unittest
from fractions import Fraction
from pathlib import Path
from typing import Any
from unittest import mock
from xml.etree import ElementTree

from dcel import ConstrainedDelaunay, DcelError, Grid, NoMesh, OutOfMemory, OutOfRange, Refined, Unfinished, _declared
from dcel._refining import ANY_AREA, doubled_steps, tangent_of
from interrupting import interrupted

sys.path.append(str(Path(__file__).resolve().parents[3] / "tools/lib"))
from delaunay import laid, plane  # noqa: E402

EXAMPLES = Path(__file__).resolve().parents[1] / "examples"
PICTURE = Path(__file__).resolve().parents[3] / "docs/pictures/poisson.svg"
SQUARE = [(0, 0), (64, 0), (64, 64), (0, 64)]
BORDER = [(0, 1), (1, 2), (2, 3), (3, 0)]
HAS_NUMPY = importlib.util.find_spec("numpy") is not None
Point = tuple[int, int]
Pairs = list[tuple[int, int]]


def ring_of(rows: range) -> Pairs:
    """The sides of a ring through rows."""
    return [(row, rows[(place + 1) % len(rows)]) for place, row in enumerate(rows)]


def star(rng: random.Random, middle: float, least: float, most: float) -> list[tuple[float, float]]:
    """The corners of a polygon that its middle sees, counterclockwise."""
    count = rng.randint(4, 9)
    turns = [2 * math.pi * (place + rng.uniform(0.3, 0.7)) / count for place in range(count)]
    return [(middle + far * math.cos(turn), middle + far * math.sin(turn)) for turn in turns for far in [rng.uniform(least, most)]]


def outline(rng: random.Random) -> tuple[list[tuple[float, float]], Pairs]:
    """A polygon, in half of them with a hole: points and segments."""
    points = star(rng, 0.5, 0.3, 0.5)
    segments = ring_of(range(len(points)))
    if rng.random() < 0.5:
        hole = star(rng, 0.5, 0.02, 0.1)
        segments += ring_of(range(len(points), len(points) + len(hole)))
        points += hole
    return points, segments


def exceptions_of(made: ConstrainedDelaunay, points: list[Point], limit: tuple[int, int], inside: bool) -> int:
    """How many corners between two constraints have a tangent below rise / run: in whole numbers."""
    rise, run = limit
    marked = {frozenset(pair) for pair in made.constraints.tolist()}
    count = 0
    for corners, depth in zip(made.simplices.tolist(), made.regions.tolist(), strict=True):
        for place in range(3 if depth % 2 == 1 or not inside else 0):
            u, v, w = (corners[(place + it) % 3] for it in range(3))
            (px, py), (ax, ay), (bx, by) = points[u], points[v], points[w]
            dot = (ax - px) * (bx - px) + (ay - py) * (by - py)
            count += rise * dot > run * plane.turn(points[u], points[v], points[w]) and {frozenset((u, v)), frozenset((u, w))} <= marked
    return count


def are_corners_good(made: ConstrainedDelaunay, points: list[Point], limit: tuple[int, int], area: int, inside: bool) -> bool:
    """Whether each corner has a tangent of at least rise / run, or both its sides are constraints, and each triangle at most twice the
    area: in whole numbers."""
    rise, run = limit
    marked = {frozenset(pair) for pair in made.constraints.tolist()}
    for corners, depth in zip(made.simplices.tolist(), made.regions.tolist(), strict=True):
        for place in range(3 if depth % 2 == 1 or not inside else 0):
            u, v, w = (corners[(place + it) % 3] for it in range(3))
            (px, py), (ax, ay), (bx, by) = points[u], points[v], points[w]
            dot, double = (ax - px) * (bx - px) + (ay - py) * (by - py), plane.turn(points[u], points[v], points[w])
            if double > area or (rise * dot > run * double and not {frozenset((u, v)), frozenset((u, w))} <= marked):
                return False
    return True


class Outlines(unittest.TestCase):
    def check(self, rng: random.Random, points: list[Point], segments: Pairs, wanted: tuple[float, float, int, bool]) -> bool:
        """Refines whole points, and checks all that is then there. Returns whether it is as asked."""
        angle, area, most, inside = wanted
        made = ConstrainedDelaunay(points, segments, grid=Grid(1.0))
        came = made.refine(angle, area, most, inside=inside)
        every = [(int(x), int(y)) for x, y in made.points.tolist()]
        self.assertEqual((every[: len(points)], len(every)), (points, len(points) + came.added))
        self.assertLessEqual(came.added, most)
        self.assertEqual(made.moved, 0.0)
        names = ("simplices", "neighbors", "edges", "hull", "constraints", "regions")
        marked = laid.marked_by(every, segments, [True] * len(segments))
        laid.judge(dict(enumerate(every)), marked, laid.Lists(*(getattr(made, name).tolist() for name in names)))
        self.assertEqual(came.excepted, exceptions_of(made, every, tangent_of(angle), inside))
        self.assertEqual(came.done, are_corners_good(made, every, tangent_of(angle), math.floor(2 * Fraction(area)), inside))
        self.assertEqual(made.insert([points[0], every[-1]]).tolist(), [len(every), len(every) + 1])
        self.assertEqual(made.copy().refine(angle, area, 0, inside=inside), Refined(0, came.done, came.excepted))
        return came.done

    def test_random(self) -> None:
        """200 outlines, on a grid with bits to spare."""
        done = 0
        for seed in range(200):
            rng = random.Random(seed)
            given, segments = outline(rng)
            points = [(round(x * 2**10) * 2**12, round(y * 2**10) * 2**12) for x, y in given]
            wanted = rng.choice([0, 5.5, 15, 20, 20]), 2.0**44 * rng.uniform(0.01, 0.1), rng.choice([5, 80, 80]), rng.random() < 0.8
            with self.subTest(seed=seed):
                done += self.check(rng, points, segments, wanted)
        self.assertGreater(done, 80)

    def test_worked(self) -> None:
        """A square with a point near its middle and one near a side, and a triangle with a corner of 14 degrees, whose angle stays."""
        unit, whole = 4096, Grid(1.0)
        square = [(0, 0), (1000, 0), (1000, 1000), (0, 1000), (510, 500), (500, 10)]
        made = ConstrainedDelaunay([(unit * x, unit * y) for x, y in square], BORDER, grid=whole)
        came = made.refine(20, None, 200)
        self.assertTrue(came.done and 0 < came.added <= 40 and came.excepted == 0 and len(made.constraints) > 4)
        sharp = ConstrainedDelaunay([(0, 0), (1000 * unit, 0), (1000 * unit, 250 * unit)], [(0, 1), (1, 2), (2, 0)], grid=whole)
        self.assertEqual(sharp.refine(20, None, 200), Refined(0, True, 1))
        self.assertEqual(sharp.refine(20, 2.0**37, 1), Refined(1, False, 1))

    def test_no_room(self) -> None:
        """Without a point of the grid on constraints some outlines stay as they are, which is said."""
        done = 0
        for seed in range(40):
            rng = random.Random(seed)
            given, segments = outline(rng)
            points = [(round(x * 2**20), round(y * 2**20)) for x, y in given]
            with self.subTest(seed=seed):
                done += self.check(rng, points, segments, (20, 2.0**33, 40, True))
        self.assertLess(done, 20)

    def test_floats(self) -> None:
        """Floats are rounded once, and then refined where they are: angles and areas are as asked, as floats see them."""
        for seed in range(30):
            rng = random.Random(seed)
            given, segments = outline(rng)
            points = Grid.fit(given, free_bits=12).round(given)
            made = ConstrainedDelaunay(points, segments)
            came = made.refine(15, 0.01)
            with self.subTest(seed=seed):
                self.assertEqual((made.moved, made.points.tolist()[: len(given)]), (0.0, points.tolist()))
                marked, every = {frozenset(pair) for pair in made.constraints.tolist()}, made.points.tolist()
                for corners, is_inside in zip(made.simplices.tolist(), made.inside().tolist(), strict=True):
                    if came.done and is_inside:
                        self.check_floats(corners, every, marked)

    def check_floats(self, corners: list[int], every: list[list[float]], marked: set[frozenset[int]]) -> None:
        for place in range(3):
            u, v, w = (corners[(place + it) % 3] for it in range(3))
            (px, py), (ax, ay), (bx, by) = every[u], every[v], every[w]
            double = (ax - px) * (by - py) - (ay - py) * (bx - px)
            angle = math.degrees(math.atan2(double, (ax - px) * (bx - px) + (ay - py) * (by - py)))
            self.assertTrue(angle > 15 - 1e-6 or {frozenset((u, v)), frozenset((u, w))} <= marked)
            self.assertLess(double, 0.02 * (1 + 1e-9))

    def test_faults_are_found(self) -> None:
        """A corner below the limit, and an area above, are seen."""
        made = ConstrainedDelaunay([(0, 0), (8, 0), (8, 8), (0, 8), (7, 4)], BORDER)
        points = [(int(x), int(y)) for x, y in made.points.tolist()]
        right = (1, 5), 56, True
        self.assertTrue(are_corners_good(made, points, *right))
        self.assertFalse(are_corners_good(made, points, (1, 1), *right[1:]))
        self.assertFalse(are_corners_good(made, points, right[0], 55, True))
        self.assertFalse(are_corners_good(made, points, right[0], 55, False))


class Given(unittest.TestCase):
    def test_wrong(self) -> None:
        """What is no parameter is named, and nothing is added."""
        made = ConstrainedDelaunay(SQUARE, BORDER)
        wrong: list[tuple[str, Any, type[Exception]]] = [
            *(("min_angle", it, ValueError) for it in (-1, -1e-300, 60.001, 90, math.nan, math.inf, -math.inf)),
            *(("min_angle", it, TypeError) for it in (None, "20", True, 20j, [20])),
            *(("max_area", it, ValueError) for it in (0, 0.0, -1, math.nan, -math.inf, Fraction(-1, 3))),
            *(("max_area", it, TypeError) for it in ("1", False, 1j, [1])),
            *(("max_additional_points", it, ValueError) for it in (-1, -(2**70))),
            *(("max_additional_points", it, TypeError) for it in (None, 1.0, "1", True, math.nan)),
        ]
        for name, it, kind in wrong:
            with self.subTest(name=name, it=it):
                with self.assertRaisesRegex(kind, f"^{name}: ") as raised:
                    made.refine(**{name: it})
                self.assertNotIsInstance(raised.exception, DcelError)
        self.assertEqual((made.npoints, len(made.simplices)), (4, 2))

    def test_right(self) -> None:
        """The least and the greatest of each parameter, and numbers of any kind."""
        for given in ({"min_angle": 0}, {"min_angle": Fraction(1, 3)}, {"max_area": math.inf}, {"max_area": None}, {"max_area": 10**400}, {"max_area": 2048.0}):
            self.assertEqual(ConstrainedDelaunay(SQUARE, BORDER).refine(**given), Refined(0, True, 0))
        for given in ({"max_area": 1e-300}, {"max_area": Fraction(1, 10**400)}, {"min_angle": 60}):
            self.assertEqual(ConstrainedDelaunay(SQUARE, BORDER).refine(**given, max_additional_points=0), Refined(0, False, 0))
            self.assertFalse(ConstrainedDelaunay(SQUARE, BORDER).refine(**given, max_additional_points=9).done)
        self.assertTrue(ConstrainedDelaunay(SQUARE, BORDER).refine(max_area=2047.9, max_additional_points=10**40).done)

    def test_tangents(self) -> None:
        """The tangent is on the safe side, and near: by the angle of the fraction, far more exactly than floats."""
        self.assertEqual([tangent_of(it) for it in (0, 45)], [(0, 65535), (65535, 65535)])
        for hundredths in range(1, 6001):
            rise, run = tangent_of(hundredths / 100)
            angle = math.degrees(math.atan2(rise, run))
            self.assertTrue(hundredths / 100 <= angle + 1e-13 and angle < hundredths / 100 + 0.003 and max(rise, run) == 65535)

    def test_areas(self) -> None:
        """Twice the area, in squares of steps, rounded down."""
        self.assertEqual([doubled_steps(it, 0) for it in (0.5, 1, 2.75, 0.1, None, 1e300)], [1, 2, 5, 0, ANY_AREA, ANY_AREA])
        self.assertEqual([doubled_steps(it, 2) for it in (7, 8, 16)], [0, 1, 2])
        self.assertEqual((doubled_steps(0.1, -53), doubled_steps(5e-324, -1074)), (math.floor(Fraction(0.1) * 2**107), ANY_AREA))

    def test_nothing(self) -> None:
        """Nothing is to be refined without triangles inside."""
        for points in ([], [(1, 2)], [(0, 0), (3, 3), (9, 9)], SQUARE):
            self.assertEqual(ConstrainedDelaunay(points).refine(50, 1e-9), Refined(0, True, 0))
        made = ConstrainedDelaunay(SQUARE)
        self.assertEqual(made.refine(0, 2048, inside=False), Refined(0, True, 0))
        self.assertFalse(made.refine(0, 1, 50, inside=False).done)

    def test_free_bits(self) -> None:
        """The grid is so many bits coarser, and the points that are rounded to it have so many to spare."""
        points = [(0.1, 0.2), (1, 0.5), (-0.7, 1e-9)]
        fine, coarse = Grid.fit(points), Grid.fit(points, free_bits=12)
        self.assertEqual((coarse.step, Grid.fit(points, 0)), (fine.step * 2**12, fine))
        rounded = coarse.round(points).tolist()
        self.assertTrue(all(abs(a - b) <= coarse.step / 2 for one, other in zip(points, rounded, strict=True) for a, b in zip(one, other, strict=True)))
        self.assertTrue(all(it % 2**12 == 0 for pair in fine.snap(rounded).tolist() for it in pair))
        self.assertEqual(Grid(1.0).round([(0.5, 1.5), (2.5, -0.5)]).tolist(), [[0, 2], [2, 0]])
        self.assertEqual(Grid.fit([], free_bits=3).round([]).tolist(), [])
        for wrong in (-1, 54, True):
            with self.assertRaises(ValueError):
                Grid.fit(points, free_bits=wrong)
        with self.assertRaises(OutOfRange):
            Grid(1.0).round([(0, 0), (0, 2.0**54)])


class Ended(unittest.TestCase):
    def test_each_line(self) -> None:
        """A refinement that is interrupted before any line of the package is made wholly or not at all."""
        found = set()
        for lines in itertools.count():
            made = ConstrainedDelaunay(SQUARE, BORDER)
            self.assertEqual((len(made.simplices), len(made.constraints)), (2, 4))
            ended = not interrupted(lambda: made.refine(20, 600), lines)  # noqa: B023
            added = made.npoints - 4
            found.add(added)
            self.assertEqual(made.refine(20, 600), Refined(0, True, 0) if added else Refined(max(found | {made.npoints - 4}), True, 0))
            self.assertEqual(made.insert([(1, 4), (1, 5)]).tolist(), [made.npoints - 2, made.npoints - 1])
            if ended:
                break
        self.assertEqual((len(found), min(found)), (2, 0))

    def test_unfinished(self) -> None:
        """Where memory ends in the middle, nothing is added."""
        made, refine = ConstrainedDelaunay(SQUARE, BORDER), ConstrainedDelaunay._calls.refine

        def refines_and_fails(*given: Any) -> None:
            refine(*given)
            raise Unfinished

        refines_and_fails.__name__ = "dcel_constrained_refine"
        with mock.patch.object(ConstrainedDelaunay._calls, "refine", refines_and_fails), self.assertRaises(OutOfMemory):
            made.refine(20, 10)
        self.assertEqual((made.npoints, len(made.simplices), made.refine(20, 2048).added), (4, 2, 0))

    def test_closed(self) -> None:
        """A triangulation that was freed has none to refine."""
        made = ConstrainedDelaunay(SQUARE, BORDER)
        made._free(made._kept)
        with self.assertRaises(NoMesh):
            made.refine()

    def test_kept_lists(self) -> None:
        """Arrays are found anew."""
        made = ConstrainedDelaunay(SQUARE, BORDER)
        self.assertEqual((len(made.points), len(made.simplices)), (4, 2))
        came = made.refine(20, 100)
        self.assertEqual(len(made.points), 4 + came.added)
        self.assertGreater(len(made.simplices), 40)
        self.assertEqual(made.locate([made.points.tolist()[-1]])[1].tolist(), [3 + came.added])
        self.assertTrue(all(made.inside().tolist()))
        self.assertEqual(_declared.Refinement._fields_[-1][0], "inside")


def triangles_drawn(path: str | Path) -> list[tuple[list[float], list[int]]]:
    """The corners and the color of each triangle of a picture."""
    rows = [it.attrib for it in ElementTree.parse(path).getroot()]
    return [([float(it) for it in re.findall(r"-?[\d.]+", row["d"])], list(bytes.fromhex(row["fill"][1:]))) for row in rows]


@unittest.skipIf(not HAS_NUMPY, "the example wants NumPy")
class Elements(unittest.TestCase):
    def test_poisson(self) -> None:
        """The error falls as the largest area does, or nearly so."""
        with tempfile.TemporaryDirectory() as folder:
            words = [EXAMPLES / "poisson.py", "--picture", f"{folder}/drawn.svg", "0.4", "0.1", "0.025"]
            ran = subprocess.run([sys.executable, *words], capture_output=True, text=True, check=True)
            picture = ElementTree.parse(f"{folder}/drawn.svg").getroot()
            drawn = triangles_drawn(f"{folder}/drawn.svg")
        rows = [list(map(float, line.split())) for line in ran.stdout.splitlines()[1:]]
        self.assertEqual([area for area, _, _, _ in rows], [0.4, 0.1, 0.025])
        self.assertTrue(all(later[-1] < earlier[-1] / 3 for earlier, later in itertools.pairwise(rows)), rows)
        self.assertTrue(all(triangles > 180 / area for area, _, triangles, _ in rows), rows)
        self.assertLess(rows[-1][-1], 2e-4)
        paths = [it.attrib for it in picture]
        self.assertEqual((len(paths), len({it["d"] for it in paths})), (rows[0][2], rows[0][2]))
        self.assertTrue({"#2b6cb0", "#c05621"} < {it["fill"] for it in paths})
        stored = triangles_drawn(PICTURE)
        self.assertEqual(len(drawn), len(stored))
        for (corners, color), (others, other) in zip(drawn, stored, strict=True):
            # NumPy's last digits differ between processors: what is written may be off by one.
            self.assertLess(max(abs(a - b) for a, b in zip(corners, others, strict=True)), 0.11)
            self.assertLessEqual(max(abs(a - b) for a, b in zip(color, other, strict=True)), 1)


if __name__ == "__main__":
    unittest.main()
