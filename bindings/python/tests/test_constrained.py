"""Triangulations with constraints, beside exact checks of what they have to be: those of tools/lib/delaunay."""

from __future__ import annotations

import itertools
import random
import sys
import threading
import unittest
from array import array
from collections.abc import Callable
from ctypes import POINTER, c_bool, c_uint32, c_uint64, cast, sizeof
from pathlib import Path
from time import process_time
from typing import Any
from unittest import mock

from dcel import (
    ConstrainedDelaunay,
    Crosses,
    DcelError,
    Delaunay,
    Grid,
    NoMesh,
    NoSuchEdge,
    NoSuchVertex,
    OutOfMemory,
    OutOfRange,
    Place,
    Short,
    _declared,
    triangulate_polygon,
)
from dcel._calls import library
from interrupting import interrupted

sys.path.append(str(Path(__file__).resolve().parents[3] / "tools/lib"))
from delaunay import constrained, laid, plane  # noqa: E402

LIMIT = 2**53
SQUARE = [(0, 0), (6, 0), (6, 6), (0, 6), (2, 3), (4, 3)]
BORDER = [(0, 1), (1, 2), (2, 3), (3, 0)]
Point = tuple[int, int]
Edge = frozenset[Point]


class Checked(unittest.TestCase):
    def check(self, made: ConstrainedDelaunay, live: dict[int, Point], marked: set[Edge]) -> None:
        """All lists are those of these points, by their rows, with these constraints between them. Raises what is wrong otherwise."""
        lists = (getattr(made, name).tolist() for name in ("simplices", "neighbors", "edges", "hull", "constraints", "regions"))
        laid.judge(live, marked, laid.Lists(*lists))
        self.assertEqual(made.inside().tolist(), [it % 2 == 1 for it in made.regions.tolist()])
        self.assertIn(f"{len(made.simplices)} triangles, {len(marked)} constraints", repr(made))

    def check_place(self, made: ConstrainedDelaunay, points: list[Point], point: Point) -> None:
        """What is said of where a point is is so."""
        (kind,), (number,) = (it.tolist() for it in made.locate([point]))
        triangle = made.find_simplex(point).tolist()
        if kind == Place.ON_VERTEX:
            self.assertEqual(points[number], point)
        elif kind == Place.ON_EDGE:
            a, b = (points[row] for row in made.edges.tolist()[number])
            self.assertTrue(plane.turn(a, b, point) == 0 and min(a, b) < point < max(a, b))
        elif kind == Place.ON_FACE:
            a, b, c = (points[row] for row in made.simplices.tolist()[number])
            self.assertTrue(min(plane.turn(a, b, point), plane.turn(b, c, point), plane.turn(c, a, point)) > 0 and number == triangle)
        elif kind == Place.OUTSIDE:
            sides = [plane.turn(points[a], points[b], point) for a, b in made.convex_hull.tolist()]
            self.assertTrue(min(sides) < 0 and number >= 0)
        else:
            self.assertNotIn(point, points)
            self.assertEqual(len(made.simplices), 0)
        self.assertEqual(triangle >= 0, kind <= Place.ON_VERTEX and len(made.simplices) > 0)


class Random(Checked):
    def test_sets(self) -> None:
        """200 sets of points and segments."""
        crossed = 0
        for seed in range(200):
            rng = random.Random(seed)
            points = laid.some_points(rng, seed, 25)
            segments = laid.some_segments(rng, points)
            answers = laid.laid_ones(points, segments)
            marked = laid.marked_by(points, segments, answers)
            with self.subTest(seed=seed):
                made = ConstrainedDelaunay(points)
                self.assertEqual(made.add(segments, crossing="skip").tolist(), answers)
                self.check(made, dict(enumerate(points)), marked)
                self.assertEqual([made.can_add(a, b) for a, b in segments], answers)
                if all(answers):
                    self.check(ConstrainedDelaunay(points, segments), dict(enumerate(points)), marked)
                else:
                    crossed += 1
                    with self.assertRaises(Crosses) as raised:
                        ConstrainedDelaunay(points, segments)
                    self.assertEqual((raised.exception.row, raised.exception.pair), (answers.index(False), segments[answers.index(False)]))
                near = [(x + rng.randint(-2, 2), y + rng.randint(-2, 2)) for x, y in points[:6]]
                near += [((points[0][0] + x) // 2, (points[0][1] + y) // 2) for x, y in points[:6]]
                asked = [(min(max(x, -LIMIT), LIMIT), min(max(y, -LIMIT), LIMIT)) for x, y in near]
                for point, kind in zip(asked, made.locate(asked)[0].tolist(), strict=True):
                    self.check_place(made, points, point)
                    self.assertEqual(made.locate([point])[0].tolist(), [kind])
        self.assertGreater(crossed, 20)

    def test_many_places(self) -> None:
        """Locating places takes some of the time that triangulating as many points does: to look at each half edge would take a hundredfold."""
        rng = random.Random(1)
        points, places = ([(rng.randint(-LIMIT, LIMIT), rng.randint(-LIMIT, LIMIT)) for _ in range(20_000)] for _ in range(2))
        made = ConstrainedDelaunay(points, [(0, 1)])
        begun = process_time()
        wanted = len(Delaunay(points).simplices)
        triangulated = process_time()
        found = made.find_simplex(places)
        located = process_time()
        self.assertEqual((wanted, len(found)), (len(made.simplices), len(places)))
        self.assertLess(located - triangulated, 5 * (triangulated - begun))

    def test_thousands(self) -> None:
        """Thousands of constraints stay while points come and go, and points are found among them, each as it is by itself."""
        points, segments = [(it, it * it % 1013) for it in range(5000)], [(it, it + 1) for it in range(4999)]
        made = ConstrainedDelaunay(points, segments)
        with self.assertRaises(Crosses) as raised:
            ConstrainedDelaunay(points, [*segments, (0, 4999)])
        self.assertEqual((raised.exception.row, len(made.constraints), len(made.regions)), (4999, 4999, len(made.simplices)))
        kinds, rows = (it.tolist() for it in made.locate(points))
        self.assertEqual((set(kinds), rows), ({Place.ON_VERTEX}, list(range(5000))))
        asked = [(it * 5, it * 577 % 1117) for it in range(1000)]
        for point, kind in zip(asked, made.locate(asked)[0].tolist(), strict=True):
            self.assertEqual(made.locate([point])[0].tolist(), [kind])
        other = made.copy()
        other.remove(range(0, 5000, 2))
        self.assertEqual((len(other.constraints), len(made.constraints)), (0, 4999))
        self.assertEqual(made.insert(points).tolist(), list(range(5000, 10_000)))
        self.assertEqual(len(made.constraints), 4999)

    def test_faults_are_found(self) -> None:
        """Lists with something wrong in them are judged wrong."""
        given, segments = [*SQUARE[:5], (5, 3)], [*BORDER, (4, 5)]
        points, made = dict(enumerate(given)), ConstrainedDelaunay(given, segments)
        marked = {frozenset((given[a], given[b])) for a, b in segments}
        right = laid.Lists(*(getattr(made, name).tolist() for name in ("simplices", "neighbors", "edges", "hull", "constraints", "regions")))
        laid.judge(points, marked, right)
        other = next(it for it in ((0, 5), (1, 4)) if set(it) not in map(set, right.edges))
        flat = ConstrainedDelaunay(given, [*segments, other])
        wrongs = {
            "that doesn't go counterclockwise": right._replace(triangles=[right.triangles[0][::-1], *right.triangles[1:]]),
            "the border isn't the hull": right._replace(triangles=right.triangles[1:]),
            "other edges": right._replace(edges=right.edges[1:]),
            "--neighbors has others": right._replace(neighbors=right.neighbors[::-1]),
            "--hull has others": right._replace(hull=right.hull[::-1]),
            "other constraints": right._replace(constraints=right.constraints[1:]),
            "other regions": right._replace(regions=[*right.regions[1:], 2]),
            "lies inside the circle": right._replace(triangles=flat.simplices.tolist(), edges=flat.edges.tolist()),
            "is no point's least row": right._replace(triangles=[[9, *right.triangles[0][1:]], *right.triangles[1:]]),
        }
        for words, wrong in wrongs.items():
            with self.subTest(words=words):
                plane.finds(words, laid.judge, points, marked, wrong)

    def test_changes(self) -> None:
        """Points and constraints come and go, each under its rows."""
        for seed in range(60):
            rng = random.Random(seed)
            made, live, marked = ConstrainedDelaunay(grid=Grid(1.0)), {}, set()
            changes = [self.some_points_in, self.some_points_in, self.some_out, self.some_segments_in, self.some_segments_in, self.one_out]
            with self.subTest(seed=seed):
                for _ in range(12):
                    rng.choice(changes)(rng, made, live, marked)
                    self.check(made, live, marked)
                self.check(made.copy(), live, marked)

    def some_points_in(self, rng: random.Random, made: ConstrainedDelaunay, live: dict[int, Point], marked: set[Edge]) -> None:
        new = [(rng.randint(-4, 4), rng.randint(-4, 4)) for _ in range(rng.choice([0, 1, 1, 5]))]
        live.update(zip(made.insert(new).tolist(), new, strict=True))
        parts = {part for edge in marked for part in constrained.parts_of(set(live.values()), *edge)}
        marked.clear()
        marked |= parts

    def some_out(self, rng: random.Random, made: ConstrainedDelaunay, live: dict[int, Point], marked: set[Edge]) -> None:
        rows = rng.sample(list(live), min(len(live), rng.choice([1, 3])))
        made.remove(rows)
        for row in rows:
            del live[row]
        marked &= {edge for edge in marked if edge <= set(live.values())}

    def some_segments_in(self, rng: random.Random, made: ConstrainedDelaunay, live: dict[int, Point], marked: set[Edge]) -> None:
        pairs = [(rng.choice(list(live)), rng.choice(list(live))) for _ in range(rng.choice([1, 1, 4]))] if live else []
        for (a, b), it in zip(pairs, made.add(pairs, crossing="skip").tolist(), strict=True):
            left, segment = set(live.values()), (live[a], live[b])
            self.assertEqual(it, not any(constrained.meet_aside(left, segment, tuple(edge)) for edge in marked))
            marked |= set(constrained.parts_of(left, *segment)) if it else set()

    def one_out(self, rng: random.Random, made: ConstrainedDelaunay, live: dict[int, Point], marked: set[Edge]) -> None:
        if not live:
            return
        a, b = rng.choice(made.edges.tolist() or [[next(iter(live))] * 2])
        edge = frozenset((live[a], live[b]))
        self.assertEqual(made.is_constraint(a, b), edge in marked)
        if edge in marked:
            made.remove_constraint(b, a)
            marked.remove(edge)
        else:
            with self.assertRaisesRegex(NoSuchEdge, f"between rows {a} and {b}"):
                made.remove_constraint(a, b)


class In(unittest.TestCase):
    def test_forms(self) -> None:
        flat = array("q", [it for pair in BORDER for it in pair])
        forms: list[Any] = [BORDER, iter(BORDER), list(map(list, BORDER)), *(memoryview(array(code, flat)).cast("B").cast(code, (4, 2)) for code in "bhilqBHILQ")]
        for given in forms:
            with self.subTest(form=getattr(given, "format", type(given))):
                made = ConstrainedDelaunay(SQUARE, given)
                self.assertEqual({frozenset(it) for it in made.constraints.tolist()}, {frozenset(it) for it in BORDER})
        for none in ([], (), iter([]), memoryview(b"")):
            self.assertEqual(ConstrainedDelaunay(SQUARE, none).add(none).tolist(), [])

    def test_no_segments(self) -> None:
        """What is no pair of rows is refused, named, and nothing is added."""
        made = ConstrainedDelaunay([*SQUARE, (9, 9)], [(0, 2)])
        made.remove(6)
        flat, before = memoryview(array("q", range(12))), made.constraints.tolist()
        cases: list[tuple[Any, type[Exception], str]] = [
            *((it, ValueError, "row 1 is no pair") for it in ((0, 1, 2), (0,), (), 7, None)),
            *((it, TypeError, "row 1 has") for it in ((0, 1.0), (0, "1"), (None, 1), (True, False), ([0], 1), (float("nan"), 0), (0, float("inf")))),
            *((it, IndexError, f"row 1 has {it[0]}, and there") for it in ((7, 0), (-1, 0), (2**31, 0), (2**32, 0), (2**63, 0), (-(2**70), 0))),
            ((3, 6), IndexError, "row 1 has row 6 of points, which was removed"),
        ]
        for wrong, kind, words in cases:
            for call in (made.add, lambda it: made.add(it, crossing="skip"), made.copy().add):
                with self.subTest(given=wrong), self.assertRaisesRegex(kind, f"^segments: {words}"):
                    call([(0, 1), wrong])
        for wrong in (flat, flat.cast("B").cast("q", (4, 3)), [[[0, 1], [1, 2]]], 3, None):
            with self.subTest(given=wrong), self.assertRaises((TypeError, ValueError)):
                made.add(wrong)
        self.assertEqual(made.constraints.tolist(), before)

    def test_no_points(self) -> None:
        """What is no point is refused as Delaunay does, and nothing is added."""
        nan, inf, made = float("nan"), float("inf"), ConstrainedDelaunay(SQUARE, BORDER)
        wrongs: list[tuple[Any, str]] = [((nan, 0), "row 1 has nan"), ((0, -inf), "row 1 has -inf"), ((1, 2, 3), "row 1 is no pair")]
        for wrong, words in [*wrongs, ((2**53 + 1, 0), ".* in row 1"), ((0, "a"), "(row 1 has 'a'|coordinates are real)")]:
            for name, call in (("points", made.insert), ("points", ConstrainedDelaunay), ("xi", made.locate), ("xi", made.find_simplex)):
                if name == "points" or wrong[0] != 2**53 + 1:  # any number may be asked for
                    with self.subTest(given=wrong, call=call), self.assertRaisesRegex((ValueError, TypeError), f"^{name}: {words}"):
                        call([(0, 0), wrong])
        self.assertEqual((made.npoints, made.nsimplex, len(made.constraints)), (6, 6, 4))
        self.assertEqual(made.locate([(1e300, 0), (0, 2**70)])[0].tolist(), [Place.OUTSIDE] * 2)

    def test_rows(self) -> None:
        made = ConstrainedDelaunay([*SQUARE, (0, 0)], [(6, 2)])
        made.remove(4)
        self.assertTrue(made.is_constraint(0, 2) and made.is_constraint(2, 6) and not made.is_constraint(0, 6) and made.can_add(0, 6))
        wrongs: list[tuple[Any, type[Exception], str]] = [
            *((it, IndexError, f"no row {it}") for it in (7, -1, 2**64)), *((it, TypeError, f"{it} is no row") for it in (1.0, True, None)),
            (4, IndexError, "row 4 was removed"),
        ]
        for call in (made.can_add, made.is_constraint, made.remove_constraint):
            for wrong, kind, words in wrongs:
                for name, pair in (("a", (wrong, 0)), ("b", (0, wrong))):
                    with self.subTest(call=call, row=wrong), self.assertRaisesRegex(kind, f"^{name}: .*{words}"):
                        call(*pair)
        self.assertEqual(sorted(*made.constraints.tolist()), [0, 2])

    def test_crossing(self) -> None:
        """A segment that crosses one is refused with all others, or left out."""
        made = ConstrainedDelaunay(SQUARE, BORDER)
        for given, row in (([(0, 2), (1, 3)], 1), ([(3, 5), (0, 5), (1, 4), (2, 4)], 2), ([(4, 5), (0, 2)], 1)):
            words = f"^segments: row {row}, from {given[row][0]} to {given[row][1]}, crosses"
            with self.subTest(given=given), self.assertRaisesRegex(Crosses, words) as raised:
                made.add(given)
            self.assertEqual((raised.exception.row, raised.exception.pair, len(made.constraints)), (row, given[row], 4))
            self.assertTrue(isinstance(raised.exception, DcelError) and isinstance(raised.exception, ValueError))
        self.assertEqual(made.add([(0, 2), (1, 3), (2, 0), (1, 1), (3, 1)], crossing="skip").tolist(), [True, False, True, True, False])
        for call in (lambda: made.add([], crossing="stop"), lambda: ConstrainedDelaunay(SQUARE, crossing=True)):  # type: ignore[arg-type]
            with self.assertRaisesRegex(ValueError, "^crossing: "):
                call()
        with self.assertRaises(Crosses) as raised:
            made.add([(3, 1)])
        self.assertEqual((raised.exception.row, raised.exception.pair, len(made.constraints)), (0, (3, 1), 5))
        self.assertEqual(sorted(*ConstrainedDelaunay(SQUARE, [(0, 2), (3, 1)], crossing="skip").constraints.tolist()), [0, 2])

    def test_names(self) -> None:
        """It has the names of Delaunay, but for nearest, and hides none of its own."""
        made = ConstrainedDelaunay([*SQUARE, (0, 0)], BORDER)
        self.assertFalse(hasattr(made, "nearest"))
        self.assertEqual((made.npoints, made.nsimplex, made.moved, repr(made)), (7, 6, 0.0, "<ConstrainedDelaunay: 7 points, 6 triangles, 4 constraints>"))
        self.assertEqual((made.coplanar.tolist()[0][::2], made.min_bound.tolist(), made.max_bound.tolist()), ([6, 0], [0, 0], [6, 6]))
        for name in ("constraints", "regions", "simplices", "neighbors", "edges", "hull", "convex_hull", "vertex_to_simplex"):
            self.assertTrue(memoryview(getattr(made, name)).readonly)
            with self.assertRaises(AttributeError):
                setattr(type(made)(), "grid", None)
        mesh = made.mesh()
        self.assertTrue(mesh.sanity_check() and mesh.num_faces() == 7)

    def test_line(self) -> None:
        """While all points are on one line, the edges between neighbors are constraints."""
        made = ConstrainedDelaunay([(2, 2), (0, 0), (1, 1), (5, 5)], [(1, 0)])
        self.assertEqual({frozenset(it) for it in made.constraints.tolist()}, {frozenset((1, 2)), frozenset((2, 0))})
        self.assertEqual((made.regions.tolist(), made.inside().tolist(), made.can_add(1, 3)), ([], [], True))
        self.assertEqual(made.locate([(0.5, 0.5), (7, 7)])[0].tolist(), [Place.ON_EDGE, Place.BEYOND_LINE])
        none = ConstrainedDelaunay()
        self.assertEqual((none.constraints.tolist(), none.regions.tolist(), none.find_simplex([(0, 0)]).tolist()), ([], [], [-1]))


class Raw(unittest.TestCase):
    """Calls of the library that the class never makes so."""

    def test_short_buffers(self) -> None:
        """A list that doesn't fit is refused, its length is told, and the buffer stays."""
        made = ConstrainedDelaunay(SQUARE, BORDER)
        kept = made._kept
        lists = {
            "points": (_declared.Point, 6), "triangles": (_declared.Triangle, 6), "neighbors": (_declared.Across, 6), "edges": (_declared.Ends, 11),
            "hull": (c_uint32, 4), "directed_edges": (_declared.HalfEdge, 22), "constraints": (_declared.Ends, 4), "regions": (c_uint32, 6),
        }
        for name, (kind, count) in lists.items():
            call, buffer, needed = getattr(library, f"dcel_constrained_{name}"), (kind * (count + 1))(), c_uint64()
            before = bytes(buffer)
            for short in (0, count - 1):
                with self.subTest(call=name, places=short), self.assertRaises(Short):
                    call(kept, cast(buffer, POINTER(kind)), short, needed)
                self.assertEqual((needed.value, bytes(buffer)), (count, before))
            call(kept, cast(buffer, POINTER(kind)), count, needed)
            self.assertNotEqual(bytes(buffer), before)
            self.assertEqual(bytes(buffer)[-sizeof(kind) :], bytes(sizeof(kind)))
        points, vertices, row = (_declared.Point * 2)((1, 1), (2, 2)), (c_uint32 * 2)(7, 7), c_uint64()
        for given in ((), (cast((_declared.Ends * 1)(), POINTER(_declared.Ends)), 0)):
            call = library.dcel_constrained_bulk_load if given else library.dcel_constrained_insert_all
            with self.assertRaises(Short):
                call(kept, cast(points, POINTER(_declared.Point)), 2, *given, cast(vertices, POINTER(c_uint32)), 1, row)
            self.assertEqual((list(vertices), made.npoints, len(made.points)), ([7, 7], 6, 6))

    def test_loading(self) -> None:
        """Points and segments at once, and one segment, are as the class makes them."""
        made, kept = ConstrainedDelaunay(SQUARE, BORDER), _declared.Constrained()
        points, ends, vertices, row = (_declared.Point * 6)(*SQUARE), (_declared.Ends * 4)(*BORDER), (c_uint32 * 6)(), c_uint64()
        starts = cast(points, POINTER(_declared.Point)), 6, cast(ends, POINTER(_declared.Ends)), 4, cast(vertices, POINTER(c_uint32)), 6, row
        try:
            library.dcel_constrained_bulk_load(kept, *starts)
            self.assertEqual((sorted(vertices), library.dcel_constrained_num_constraints(kept)), (list(range(6)), 4))
            for a, b in BORDER:
                self.assertTrue(library.dcel_constrained_exists_constraint(kept, vertices[a], vertices[b]))
            for wrong, kind, number in (((0, 6), NoSuchVertex, 1), ((2**32 - 1, 0), NoSuchVertex, 1), ((3, 0), Crosses, 3)):
                ends[number] = wrong if kind is NoSuchVertex else (1, 3)
                ends[0] = (0, 2)
                with self.assertRaises(kind):
                    library.dcel_constrained_bulk_load(kept, *starts)
                self.assertEqual((row.value, library.dcel_constrained_num_constraints(kept)), (number, 4))
                ends[number] = BORDER[number]
            points[5] = (0, 2**53 + 1)
            with self.assertRaises(OutOfRange):
                library.dcel_constrained_bulk_load(kept, *starts)
            self.assertEqual((row.value, library.dcel_constrained_num_vertices(kept)), (5, 6))
            answer = c_bool()
            for a, b in ((6, 0), (0, 6), (2**32 - 1, 2**32 - 1)):
                with self.assertRaises(NoSuchVertex):
                    library.dcel_constrained_add_constraint(made._kept, a, b, answer)
                library.dcel_constrained_can_add_constraint(made._kept, a, b, answer)
                self.assertFalse(answer.value or library.dcel_constrained_exists_constraint(made._kept, a, b))
            library.dcel_constrained_remove_constraint(made._kept, 99, answer)
            self.assertFalse(answer.value or library.dcel_constrained_is_constraint(made._kept, 99))
            self.assertEqual(len(made.constraints), 4)
        finally:
            library.dcel_constrained_free(kept)
        with self.assertRaises(NoMesh):
            library.dcel_constrained_add_constraint(kept, 0, 1, answer)


class OnGrid(Checked):
    def test_coarser(self) -> None:
        """Points beyond the grid take constraints to a coarser one."""
        made = ConstrainedDelaunay([*SQUARE, (0, 0)], [*BORDER, (6, 2)])
        made.insert([(1000, 1000), (3, 3)])
        live = dict(enumerate([*SQUARE, (0, 0), (1000, 1000), (3, 3)]))
        marked = {frozenset((SQUARE[a], SQUARE[b])) for a, b in BORDER} | {frozenset(((0, 0), (3, 3))), frozenset(((3, 3), (6, 6)))}
        self.check(made, live, marked)
        made.remove(7)
        del live[7]
        self.check(made, live, marked)
        self.assertEqual(made.moved, 0.0)

    def test_crossing_there(self) -> None:
        """Where constraints cross once they are rounded, points that would do that are refused, and all stays."""
        made = ConstrainedDelaunay([(0, 0.4), (10, 0.6), (2, 0.49), (8, 0.62), (2, 0.49)], [(0, 1), (4, 3)])
        before, moved, grid = made.constraints.tolist(), made.moved, made.grid
        for far in ([(2.0**53, 0)], [(2.0**53, 0), (0, 7)]):
            with self.assertRaisesRegex(Crosses, "^on the coarser grid the constraint in row 1, from .*, crosses") as raised:
                made.insert(far)
            self.assertEqual((raised.exception.row, list(raised.exception.pair)), (1, before[1]))
            self.assertEqual((made.constraints.tolist(), made.moved, made.grid, made.npoints), (before, moved, grid, 5))
        made.remove_constraint(0, 1)
        made.insert([(2.0**53, 0)])
        self.assertEqual((made.grid, len(made.constraints), made.is_constraint(2, 3)), (Grid(1.0), 1, True))

    def test_no_finer(self) -> None:
        """While there are constraints, a removal doesn't refine the grid."""
        made = ConstrainedDelaunay([(0.25, 0.5), (1, 0.75), (0.5, 0)], [(0, 1)])
        before = made.grid
        made.remove(made.insert([(1e6, 3)]))
        self.assertTrue(made.grid.step > before.step)
        made.remove_constraint(0, 1)
        made.remove(made.insert([(1e6, 3)]))
        self.assertEqual(made.grid, before)


class Interrupts(Checked):
    """A change that is interrupted before any line of the package is made wholly or not at all, or the triangulation is freed."""

    def test_each(self) -> None:
        points, border = [*SQUARE, (1, 1)], {frozenset((SQUARE[a], SQUARE[b])) for a, b in BORDER}
        split = {*border - {frozenset(((0, 0), (6, 0)))}, frozenset(((0, 0), (3, 0))), frozenset(((3, 0), (6, 0)))}
        calls: list[tuple[Callable[[ConstrainedDelaunay], object], list[Point], set[Edge], set[Edge]]] = [
            (lambda made: made.insert([(3, 0)]), [(3, 0)], border, split),
            (lambda made: made.insert([(1, 1)]), [(1, 1)], border, border),
            (lambda made: made.insert([(3, 3), (3, 0)]), [(3, 3), (3, 0)], border, split),
            (lambda made: made.insert([(9, 9)]), [(9, 9)], border, border),
            (lambda made: made.add([(4, 5)]), [], border, {*border, frozenset(((2, 3), (4, 3)))}),
            (lambda made: made.add([(4, 5), (4, 0)]), [], border, {*border, frozenset(((2, 3), (4, 3))), frozenset(((2, 3), (0, 0)))}),
            (lambda made: made.remove_constraint(2, 1), [], border, border - {frozenset(((6, 0), (6, 6)))}),
        ]
        for call, new, before, after in calls:
            found = set()
            for lines in itertools.count():
                made = ConstrainedDelaunay(points, BORDER)
                self.assertEqual((len(made.simplices), len(made.constraints), len(made.regions)), (8, 4, 8))
                ended = not interrupted(lambda: call(made), lines)  # noqa: B023
                is_made = len(made.points) > len(points) or len(made.constraints) != 4
                found.add(is_made)
                with self.subTest(lines=lines):
                    self.check(made, dict(enumerate([*points, *(new if is_made else [])])), after if is_made else before)
                    self.assertEqual(made.insert([(1, 4), (1, 5)]).tolist(), [made.npoints - 2, made.npoints - 1])
                if ended:
                    break
            self.assertEqual(found, {False, True})

    def test_twice(self) -> None:
        """One that can't be noted is freed."""
        made = ConstrainedDelaunay(SQUARE, BORDER)
        with mock.patch.object(ConstrainedDelaunay, "_note", side_effect=KeyboardInterrupt), self.assertRaises(KeyboardInterrupt):
            made.insert([(1, 0)])
        for call in (lambda: made.simplices, lambda: made.add([(0, 1)]), lambda: made.insert([(1, 1)]), lambda: made.constraints, lambda: made.regions):
            with self.assertRaises(NoMesh):
                call()

    def test_without_memory(self) -> None:
        """Where some segments are laid before memory runs out, none stays."""
        made, add = ConstrainedDelaunay(SQUARE, BORDER), ConstrainedDelaunay._calls.add_constraints

        def adds_and_fails(*given: Any) -> None:
            add(*given)
            raise OutOfMemory

        with mock.patch.object(ConstrainedDelaunay._calls, "add_constraints", adds_and_fails), self.assertRaises(OutOfMemory):
            made.add([(4, 5), (0, 4)])
        self.assertEqual(len(made.constraints), 4)

    def test_threads(self) -> None:
        """Threads that share a triangulation take turns, however often they are switched."""
        made = ConstrainedDelaunay(SQUARE, BORDER)
        failed: list[BaseException] = []

        def change(left: int) -> None:
            try:
                for turn in range(30):
                    rows = made.insert([(left + turn, 20), (left, turn)]).tolist()
                    made.add([rows], crossing="skip")
                    if turn % 3 == 0:
                        made.remove(rows)
                    self.assertLess(made.constraints.tolist()[-1][0], made.npoints)
            except BaseException as error:
                failed.append(error)
                raise

        interval = sys.getswitchinterval()
        sys.setswitchinterval(1e-6)
        threads = [threading.Thread(target=change, args=(left,)) for left in (100, -100)]
        for thread in threads:
            thread.start()
        for thread in threads:
            thread.join()
        sys.setswitchinterval(interval)
        self.assertEqual((failed, made.npoints), ([], 6 + 4 * 30))


class Shape:
    """What shapely's shapes have."""

    def __init__(self, kind: str, coordinates: Any) -> None:
        self.__geo_interface__ = {"type": kind, "coordinates": coordinates}


class Polygons(unittest.TestCase):
    def area(self, points: Any, triangles: Any) -> float:
        """Twice the area of the triangles, all of which go counterclockwise."""
        its = [plane.turn(*(points.tolist()[row] for row in it)) for it in triangles.tolist()]
        self.assertTrue(all(it > 0 for it in its))
        return float(sum(its))

    def test_random(self) -> None:
        """Exactly the triangles are there that a ray from their middle leaves through an odd number of sides."""
        tried = 0
        for seed in range(200):
            rng = random.Random(seed)
            points = laid.some_points(rng, seed, 25)
            curves = constrained.lawful_part(points, [], constrained.Joins([], constrained.some_curves(rng, points))).curves if points else []
            if not curves:
                continue
            tried += 1
            rings = [[points[row] for row in it] for it in curves]
            flat, starts = [*sum(rings, []), *points], list(itertools.accumulate(map(len, rings), initial=0))
            numbered = [list(range(start, start + len(ring))) for start, ring in zip(starts, rings, strict=False)]
            whole = ConstrainedDelaunay(flat, [(a, b) for it in numbered for a, b in zip(it, it[1:] + it[:1], strict=True)])
            wanted = [row for row in whole.simplices.tolist() if constrained.is_inside(flat, numbered, row)]
            with self.subTest(seed=seed):
                found, triangles = triangulate_polygon(rings[0], rings[1:], points)
                self.assertEqual(found.tolist(), [list(it) for it in flat])
                self.assertTrue(all(constrained.is_inside(flat, numbered, row) for row in triangles.tolist()))
                areas = [sum(plane.turn(*(flat[it] for it in row)) for row in rows) for rows in (triangles.tolist(), wanted)]
                self.assertEqual(areas[0], areas[1])
        self.assertGreater(tried, 50)

    def test_rings(self) -> None:
        """They may be closed or not, go either way round, and share points and sides."""
        square, hole = [(0, 0), (6, 0), (6, 6), (0, 6)], [(1, 1), (1, 2), (2, 1)]
        flat = memoryview(array("d", [it for point in square for it in point])).cast("B").cast("d", (4, 2))
        for shell in (square, square[::-1], [*square, square[0]], flat, iter(square)):
            points, triangles = triangulate_polygon(shell, [hole])
            self.assertEqual((sorted(points.tolist()[:4]), points.tolist()[4:]), (sorted(map(list, square)), list(map(list, hole))))
            self.assertEqual(self.area(points, triangles), 72 - 1)
        left, right = [(0, 0), (0, 6), (3, 3)], [(3, 3), (6, 6), (6, 0)]
        cases = [([[(0, 1), (2, 3), (0, 5)]], 72 - 8), ([left], 72 - 18), ([left, right], 72 - 36), ([square], 0), ([hole, hole], 72)]
        for holes, wanted in cases:
            with self.subTest(holes=holes):
                self.assertEqual(self.area(*triangulate_polygon(square, holes)), wanted)
        points, triangles = triangulate_polygon(square, points=[(3, 3), (9, 9)])
        self.assertEqual((len(points), self.area(points, triangles), 5 in sum(triangles.tolist(), [])), (6, 72, False))
        self.assertTrue(4 in sum(triangles.tolist(), []))
        triangles[0, 0], points[0, 0] = triangles[0, 0], points[0, 0]  # both may be written to

    def test_shapes(self) -> None:
        square = ((0, 0, 7), (6, 0, 7), (6, 6, 7), (0, 6, 7), (0, 0, 7))
        hole, other = ((1, 1), (1, 2), (2, 1), (1, 1)), ((6, 0), (9, 0), (9, 6), (6, 6))
        cases = [("Polygon", (square, hole), 71, 7), ("Polygon", (), 0, 0), ("MultiPolygon", ((square, hole), (other,)), 71 + 36, 11), ("MultiPolygon", (), 0, 0)]
        for kind, coordinates, wanted, count in cases:
            points, triangles = triangulate_polygon(Shape(kind, coordinates))
            self.assertEqual((len(points), self.area(points, triangles)), (count, wanted))
        with self.assertRaisesRegex(TypeError, "^shell: .* not a LineString"):
            triangulate_polygon(Shape("LineString", square))
        with self.assertRaisesRegex(TypeError, "^holes: "):
            triangulate_polygon(Shape("Polygon", (square,)), [hole])
        with self.assertRaisesRegex(ValueError, r"^polygons\[1\].holes\[0\]: row 1 has nan"):
            triangulate_polygon(Shape("MultiPolygon", ((square,), (square, [(0, 0), (float("nan"), 1), (1, 1)]))))

    def test_wrong(self) -> None:
        square = [(0, 0), (6, 0), (6, 6), (0, 6)]
        for shell, holes, words in (
            ([(0, 0), (6, 0)], [], "shell: a ring has at least three points, and not 2"),
            ([(0, 0), (6, 0), (0, 0)], [], "shell: .* not 2"), ([], [], "shell: .* not 0"),
            (square, [square, [(1, 1)]], r"holes\[1\]: .* not 1"), (square, [[(0, 0), (1, float("inf")), (2, 0)]], r"holes\[0\]: row 1 has inf"),
            ([(0, 0), (6, 0, 1), (6, 6)], [], "shell: row 1 is no pair"), (square, [[(0, 0), (2**54, 0), (2, 0)]], r"holes\[0\]: .* row 1"),
        ):
            with self.subTest(words=words), self.assertRaisesRegex(ValueError, f"^{words}"):
                triangulate_polygon(shell, holes)
        with self.assertRaisesRegex(ValueError, "^points: row 0 has nan"):
            triangulate_polygon(square, points=[(float("nan"), 1)])
        bow = [(0, 0), (6, 0), (0, 6), (6, 6)]
        cases: list[tuple[Any, Any, str, tuple[int, int]]] = [
            (bow, [], "shell", (3, 0)), (square, [[(1, 1), (9, 1), (9, 2)]], r"holes\[0\]", (4, 5)), (square, [[(1, 1), (2, 1), (1, 9)]], r"holes\[0\]", (5, 6)),
        ]
        for shell, holes, name, pair in cases:
            with self.subTest(name=name), self.assertRaisesRegex(Crosses, f"^{name}: the side from row {pair[0]} to row {pair[1]} crosses") as raised:
                triangulate_polygon(shell, holes)
            self.assertEqual((raised.exception.row, raised.exception.pair), (pair[0], pair))


if __name__ == "__main__":
    unittest.main()
